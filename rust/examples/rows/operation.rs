//! Calls on layers with an output.

use super::print;
use super::timing::{in_turn, Timed};
use crate::reference::{self, WORDS};
use loxurfa::{raw, Code};
use std::hint::black_box;

/// Which call.
#[derive(Clone, Copy)]
pub enum Operation {
    Combine(Code),
    /// Of A; B is not looked at.
    Deoverlap,
    Equal,
}

/// What a row says of a call that is refused for overlaps.
pub fn overlap(timed: &Timed) -> &'static str {
    assert!(timed.answer >> 32 == 1 << 31 | 13, "not refused with 13");
    "refused 13"
}

/// Output and scratch area.
#[derive(PartialEq)]
pub struct Area {
    out: Vec<i32>,
    scratch: Vec<i32>,
}

impl Area {
    pub fn new(records: usize) -> Area {
        Area {
            out: vec![1; records * WORDS],
            scratch: vec![1; records * WORDS],
        }
    }
}

impl Operation {
    pub fn name(self) -> &'static str {
        match self {
            Operation::Combine(Code::Union) => "union",
            Operation::Combine(Code::Intersection) => "intersection",
            Operation::Combine(Code::AMinusB) => "A - B",
            Operation::Combine(Code::BMinusA) => "B - A",
            Operation::Combine(Code::SymmetricDifference) => "symmetric difference",
            Operation::Deoverlap => "deoverlap",
            Operation::Equal => "equal",
        }
    }

    pub fn library(self, a: &[i32], b: &[i32], area: &mut Area) -> u64 {
        let (a, b) = (black_box(a), black_box(b));
        let (out, scratch) = (&mut area.out, &mut area.scratch);
        match self {
            Operation::Combine(code) => raw::combine(code as u32, a, b, out, scratch),
            Operation::Deoverlap => raw::deoverlap(a, out, scratch),
            Operation::Equal => raw::equal(a, b, out, scratch),
        }
    }

    pub fn reference(self, a: &[i32], b: &[i32], area: &mut Area) -> u64 {
        let (a, b) = (black_box(a), black_box(b));
        let (out, scratch) = (&mut area.out, &mut area.scratch);
        match self {
            Operation::Combine(code) => reference::combine(code as u32, a, b, out, scratch),
            Operation::Deoverlap => reference::deoverlap(a, out, scratch),
            Operation::Equal => reference::equal(a, b, out, scratch),
        }
    }

    /// Times both with an output of so many records. They must write the same.
    pub fn time(self, a: &[i32], b: &[i32], records: usize) -> Timed {
        let timed = self.time_any(a, b, records);
        assert!(timed.answer >> 63 == 0, "refused");
        timed
    }

    /// The same of a call that is refused or not.
    fn time_any(self, a: &[i32], b: &[i32], records: usize) -> Timed {
        let (mut area, mut right) = (Area::new(records), Area::new(records));
        let timed = in_turn(
            || self.library(a, b, &mut area),
            || self.reference(a, b, &mut right),
        );
        assert!(area == right, "they disagree");
        timed
    }

    /// A row of a call that is refused for overlaps.
    pub fn refused_row(self, kind: &str, a: &[i32], b: &[i32], records: usize) {
        let timed = self.time_any(a, b, records);
        let counts = [a.len() / WORDS, b.len() / WORDS];
        print(kind, self.name(), &counts, overlap(&timed), &timed);
    }

    /// A row.
    pub fn row(self, kind: &str, a: &[i32], b: &[i32], records: usize) {
        let timed = self.time(a, b, records);
        let result = match (self, timed.answer >> 32) {
            (Operation::Equal, 0) => "same".to_string(),
            (Operation::Equal, value) => format!("differs {}", value - 1),
            (_, value) => format!("{value} trapezoids"),
        };
        let counts = [a.len() / WORDS, b.len() / WORDS];
        let layers = match self {
            Operation::Deoverlap => 1,
            _ => 2,
        };
        print(kind, self.name(), &counts[..layers], &result, &timed);
    }
}
