//! Rows for the set operations.

use super::layers::{overlapping, tiles, within_tiles, Apart};
use super::operation::{Area, Operation};
use super::print;
use super::timing::{in_turn, Timed};
use crate::support::words;
use loxurfa::Code;

pub fn rows() {
    for apart in Apart::ALL {
        for (code, side) in [
            (Code::Intersection, 22),
            (Code::AMinusB, 22),
            (Code::Union, 12),
            (Code::Union, 16),
            (Code::SymmetricDifference, 12),
        ] {
            let [a, b] = apart.layers(side);
            Operation::Combine(code).row(&apart.name(side), &a, &b, 512);
        }
    }
    // The search for overlaps, and nothing else: no overlay is made.
    for apart in Apart::ALL {
        let union = Operation::Combine(Code::Union);
        let kind = format!("apart, {}, B empty", apart.shape());
        union.row(&kind, &apart.longest(), &[], 512);
        let kind = format!("overlap at the end, {}", apart.shape());
        union.refused_row(&kind, &apart.overlap_at_the_end(), &[], 512);
    }
    for code in Code::ALL {
        let [a, b] = Apart::Grid.layers(2);
        Operation::Combine(code).row("apart, 2 by 2", &a, &b, 16);
    }
    for code in Code::ALL {
        let [a, b] = overlapping();
        Operation::Combine(code).row("overlapping, 2 by 2", &a, &b, 16);
    }
    overlays();
    dense();
}

/// Rows for one overlay: A - B and B - A in turn, so that no call repeats the last one.
fn overlays() {
    // [0,4) by [0,4)
    let square = "0 0 1 0  0 0 1 1  0 0 1 0  4 0 5 1  0 0 4 0  0 4 4 4  1";
    // [2,6), above the square, with slanted sides.
    let apart = "0 0 1 0  2 0 3 1  0 0 1 0  6 0 7 1  2 5 6 6  2 9 6 8  2";
    overlay("one overlay, apart", square, apart);
    // Its bottom crosses that of the square at 2, its top that of the square at 4/3.
    let wedge = "0 0 1 0  1 0 2 1  0 0 1 0  3 0 4 1  0 -1 4 1  0 5 4 2  2";
    overlay("one overlay, overlapping", square, wedge);
}

fn overlay(kind: &str, a: &str, b: &str) {
    let (a, b) = (words(a), words(b));
    let minus = Operation::Combine(Code::AMinusB);
    let areas = || [Area::new(5), Area::new(5)];
    let ([mut first, mut second], [mut right_first, mut right_second]) = (areas(), areas());
    let sum = |first: u64, second: u64| {
        assert!((first | second) >> 63 == 0, "refused");
        first + second
    };
    let both = in_turn(
        || {
            sum(
                minus.library(&a, &b, &mut first),
                minus.library(&b, &a, &mut second),
            )
        },
        || {
            sum(
                minus.reference(&a, &b, &mut right_first),
                minus.reference(&b, &a, &mut right_second),
            )
        },
    );
    assert!(
        first == right_first && second == right_second,
        "they disagree"
    );
    let result = format!("{} trapezoids", both.answer >> 32);
    let each = Timed {
        library: both.library / 2.0,
        reference: both.reference / 2.0,
        ..both
    };
    print(kind, "A - B, B - A in turn", &[1, 1], &result, &each);
}

/// Rows for tiles without gaps, across others.
fn dense() {
    let [union, intersection, difference] =
        [Code::Union, Code::Intersection, Code::AMinusB].map(Operation::Combine);
    let (whole, inner) = ((-1600, 1600), (-1500, 1500));

    let a = tiles(16, 15, whole, whole, 200);
    let b = tiles(15, 16, whole, whole, -150);
    union.row("tiles across tiles", &a, &b, 512);
    let a = tiles(16, 10, whole, whole, 200);
    let b = tiles(10, 10, inner, inner, 150);
    intersection.row("tiles across tiles", &a, &b, 512);
    let a = tiles(32, 16, whole, whole, 200);
    let b = tiles(16, 32, whole, whole, 170);
    difference.row("tiles across tiles", &a, &b, 512);
    // Every pair overlaps.
    let a = tiles(22, 1, whole, whole, 100);
    let b = tiles(1, 22, inner, inner, 50);
    intersection.row("strips across strips", &a, &b, 512);
    let a = tiles(32, 16, whole, whole, 0);
    intersection.row("one of B within each tile of A", &a, &within_tiles(), 512);
}
