//! Rows for the point question. The Rust program works out the whole result first, so the library is also
//! timed beside a direct version.

use super::layers::{corner, Apart};
use super::print;
use super::timing::in_turn;
use crate::reference::{self, Point, WORDS};
use loxurfa::{raw, Code};
use std::hint::black_box;

type Call = fn(i32, i32, i32, &[i32], &[i32], u32) -> u64;

pub fn rows() {
    for side in [22, 2] {
        row("contains", side, reference::contains);
        row("contains, direct", side, direct);
    }
}

/// A point of the last trapezoid of B: whether it lies in the union.
fn row(name: &str, side: i32, reference: Call) {
    let [a, b] = Apart::Grid.layers(side);
    let (x, y) = corner(side, side * side - 1);
    let ask = |call: Call| {
        let (a, b) = (black_box(&a), black_box(&b));
        call(x + 50, y + 90, 1, a, b, Code::Union as u32)
    };
    let timed = in_turn(|| ask(raw::contains), || ask(reference));
    assert!(timed.answer == YES, "it lies there");
    let counts = [a.len() / WORDS, b.len() / WORDS];
    print(&Apart::Grid.name(side), name, &counts, "yes", &timed);
}

const YES: u64 = 1 << 32;

/// Whether the point lies in a trapezoid of A, in one of B, then the code. All trapezoids must be fit.
fn direct(x: i32, y: i32, d: i32, a: &[i32], b: &[i32], code: u32) -> u64 {
    let point = Point::new(x, y, d);
    let lies_in = |layer: &[i32]| {
        let mut records = layer.chunks(WORDS);
        assert!(records.all(|record| reference::unfit(record).is_none()));
        let trapezoids = reference::read_layer(layer);
        trapezoids.iter().any(|trapezoid| trapezoid.holds(point))
    };
    if reference::set_word(code, lies_in(a), lies_in(b)) {
        YES
    } else {
        0
    }
}
