//! The overlay of two trapezoids in cases worked out by hand, by calls on layers of one trapezoid each.
//!
//! A - B has the overlay's parts of A only, tagged 1, and the intersection those of both, tagged 3. In
//! B - A the two change places: B then names level events and lends its line where sides coincide, and
//! its side comes first in a crossing's name. So no call shows the parts tagged 2 with A's names; they
//! stand in crates/overlay/proofs/Examples.antt.

mod reference;
mod support;

use loxurfa::{Code, Done, Refusal};
use support::outputs::combined;
use support::{layer_of, with_sources};

// Trapezoids: left base, right base, bottom, top. The lines 0 0 1 0 and k 0 k+1 1 meet at k.

/// [0,4) by [0,4)
const Q: &str = "0 0 1 0  0 0 1 1  0 0 1 0  4 0 5 1  0 0 4 0  0 4 4 4";

/// [2,6) by [2,6)
const R: &str = "0 0 1 0  2 0 3 1  0 0 1 0  6 0 7 1  2 2 6 2  2 6 6 6";

/// [4,8) by [0,4)
const BESIDE: &str = "0 0 1 0  4 0 5 1  0 0 1 0  8 0 9 1  4 0 8 0  4 4 8 4";

/// [4,8), slanted, the left base by other lines
const SLANTED: &str = "0 4 4 0  4 0 5 1  0 0 1 0  8 0 9 1  4 1 8 0  4 2 8 4";

/// [2,6) by [4,8), the bottom by other points
const ABOVE: &str = "0 0 1 0  2 0 3 1  0 0 1 0  6 0 7 1  0 4 8 4  2 8 6 8";

/// [0,4) by [0,4), with other lines
const Q_AGAIN: &str = "0 0 1 1  0 0 1 2  0 4 4 0  0 0 1 0  0 0 8 0  0 4 8 4";

/// [0,4) by [2,6), the bases by other lines
const LEVEL: &str = "0 0 1 1  0 0 1 2  0 4 4 0  0 0 1 0  0 2 4 2  0 6 4 6";

/// [1,3) by [1,3)
const INNER: &str = "0 0 1 0  1 0 2 1  0 0 1 0  3 0 4 1  1 1 3 1  1 3 3 3";

/// [2,6) by [0,2), the bottom by other points
const LOW: &str = "0 0 1 0  2 0 3 1  0 0 1 0  6 0 7 1  0 0 8 0  2 2 6 2";

/// a tip at (2, 4), on the top of Q
const TIP_ON_TOP: &str = "2 4 6 2  2 4 6 6  0 0 1 0  6 0 7 1  2 4 6 2  2 4 6 6";

/// a tip at (1, 0), on the bottom of Q
const TIP_ON_BOTTOM: &str = "1 0 3 1  1 0 3 2  0 0 1 0  3 0 4 1  1 0 3 1  1 0 3 2";

/// tips at (0, 0), the right bases by other lines
const TIP_1: &str = "0 0 4 0  0 0 4 2  0 0 1 0  4 0 5 1  0 0 4 0  0 0 4 2";
const TIP_2: &str = "0 0 4 1  0 0 4 4  0 4 4 0  0 0 1 0  0 0 4 1  0 0 4 4";

/// narrowing, from outside Q to its inside
const WEDGE: &str = "0 0 1 0  1 0 2 1  0 0 1 0  3 0 4 1  0 -1 4 1  0 5 4 3";

/// from above Q to below it
const STEEP: &str = "0 0 1 0  0 0 1 1  0 0 1 0  4 0 5 1  1 4 2 0  2 4 3 0";

/// 10 - x and 12 - x in [0,10)
const FALLING: &str = "0 0 1 0  0 0 1 1  0 0 1 0  10 0 11 1  0 10 10 0  0 12 10 2";

/// x - 1 and x + 3 in [1,11)
const RISING: &str = "0 0 1 0  1 0 2 1  0 0 1 0  11 0 12 1  1 0 11 10  1 4 11 14";

/// the whole grid, and a narrow triangle along its diagonal
const GRID: &str = "0 0 1 0  -2048 0 -2047 1  0 0 1 0  2047 1 2048 0
    -2048 -2048 2048 -2048  -2048 2048 2048 2048";
const DIAGONAL: &str = "-2048 -2048 2048 2047  -2048 -2048 2048 2048  2047 1 2048 0  0 0 1 0
    -2048 -2048 2048 2047  -2048 -2048 2048 2048";

const NO_SPACE: Refusal = Refusal {
    number: 12,
    place: 0,
};

/// The sets of A and B: layers 0 and 2, layers 0 and 31.
const SOURCES_A: i32 = 5;
const SOURCES_B: i32 = i32::MIN + 1;

/// The words of a combination of one overlay that has so many parts: they just fit into as many
/// records, and not into one fewer.
fn parts(code: Code, a: &str, b: &str, count: usize) -> Vec<i32> {
    let a = with_sources(&layer_of(a), SOURCES_A);
    let b = with_sources(&layer_of(b), SOURCES_B);
    let (done, parts) = combined(code, &a, &b, count).expect("room for all parts");
    let one = Done {
        pieces: count as u32,
        overlays: 1,
    };
    assert_eq!(done, one, "{code:?}");
    if count > 0 {
        assert_eq!(combined(code, &a, &b, count - 1), Err(NO_SPACE), "{code:?}");
    }
    parts
}

/// The trapezoids of each combination. Those of a difference have the set of the one in hand, those of both
/// have the two joined: layers 0, 2 and 31.
struct Overlay<'a> {
    a_minus_b: &'a [&'a str],
    both: &'a [&'a str],
    b_minus_a: &'a [&'a str],
}

impl Overlay<'_> {
    fn assert_of(&self, a: &str, b: &str) {
        for (code, right, sources) in [
            (Code::AMinusB, self.a_minus_b, SOURCES_A),
            (Code::Intersection, self.both, i32::MIN + 5),
            (Code::BMinusA, self.b_minus_a, SOURCES_B),
        ] {
            let found = parts(code, a, b, right.len());
            let right = with_sources(&layer_of(&right.join(" ")), sources);
            assert_eq!(found, right, "{code:?}");
        }
    }
}

// ---------------------------------------------------------------------------------------------
// Apart: A and B stay whole

/// The paper's case (e): Q ends where B begins, and the right base is left out: no point in both.
#[test]
fn e_side_by_side() {
    Overlay {
        a_minus_b: &[Q],
        both: &[],
        b_minus_a: &[BESIDE],
    }
    .assert_of(Q, BESIDE);
}

/// A's right base and B's left base are level and named by different lines: the same, each with its
/// own name.
#[test]
fn side_by_side_by_other_lines() {
    Overlay {
        a_minus_b: &[Q],
        both: &[],
        b_minus_a: &[SLANTED],
    }
    .assert_of(Q, SLANTED);
}

/// The top of A is the bottom of B, and the top is left out: no point in both.
#[test]
fn one_above_the_other() {
    Overlay {
        a_minus_b: &[Q],
        both: &[],
        b_minus_a: &[ABOVE],
    }
    .assert_of(Q, ABOVE);
}

// ---------------------------------------------------------------------------------------------
// Boxes

/// The paper's case (a): events 0, 2, 4, 6. In [0,2) A alone: 1. In [2,4) the heights 0, 2, 4, 6: 1,
/// 3, 2. In [4,6) B alone: 2. No event is level with another and no sides cross, so the parts of B have
/// the same names where B is first.
#[test]
fn a_boxes() {
    Overlay {
        a_minus_b: &[
            "0 0 1 0  0 0 1 1  0 0 1 0  2 0 3 1  0 0 4 0  0 4 4 4",
            "0 0 1 0  2 0 3 1  0 0 1 0  4 0 5 1  0 0 4 0  2 2 6 2",
        ],
        both: &["0 0 1 0  2 0 3 1  0 0 1 0  4 0 5 1  2 2 6 2  0 4 4 4"],
        b_minus_a: &[
            "0 0 1 0  2 0 3 1  0 0 1 0  4 0 5 1  0 4 4 4  2 6 6 6",
            "0 0 1 0  4 0 5 1  0 0 1 0  6 0 7 1  2 2 6 2  2 6 6 6",
        ],
    }
    .assert_of(Q, R);
}

/// One column, of A's left to A's right, the first of level events, between A's lines, which coinciding
/// sides take: 3.
#[test]
fn equal() {
    Overlay {
        a_minus_b: &[],
        both: &["0 0 1 0  0 0 1 1  0 0 1 0  4 0 5 1  0 0 4 0  0 4 4 4"],
        b_minus_a: &[],
    }
    .assert_of(Q, Q_AGAIN);
}

/// What is round the inner box: left of it, below it, above it, right of it.
const AROUND: [&str; 4] = [
    "0 0 1 0  0 0 1 1  0 0 1 0  1 0 2 1  0 0 4 0  0 4 4 4",
    "0 0 1 0  1 0 2 1  0 0 1 0  3 0 4 1  0 0 4 0  1 1 3 1",
    "0 0 1 0  1 0 2 1  0 0 1 0  3 0 4 1  1 3 3 3  0 4 4 4",
    "0 0 1 0  3 0 4 1  0 0 1 0  4 0 5 1  0 0 4 0  0 4 4 4",
];

/// Events 0, 1, 3, 4. In [0,1) A alone: 1. In [1,3) the heights 0, 1, 3, 4: 1, 3, 1. In [3,4) A alone:
/// 1.
#[test]
fn b_inside_a() {
    Overlay {
        a_minus_b: &AROUND,
        both: &["0 0 1 0  1 0 2 1  0 0 1 0  3 0 4 1  1 1 3 1  1 3 3 3"],
        b_minus_a: &[],
    }
    .assert_of(Q, INNER);
}

/// The same, with the tags 2, 2, 3, 2, 2; no two events are level.
#[test]
fn a_inside_b() {
    Overlay {
        a_minus_b: &[],
        both: &["0 0 1 0  1 0 2 1  0 0 1 0  3 0 4 1  1 1 3 1  1 3 3 3"],
        b_minus_a: &AROUND,
    }
    .assert_of(INNER, Q);
}

// ---------------------------------------------------------------------------------------------
// Shared bases and sides

/// The bases are level: one column with A's names, heights 0, 2, 4, 6: 1, 3, 2. In B - A it has B's.
#[test]
fn shared_bases() {
    Overlay {
        a_minus_b: &["0 0 1 0  0 0 1 1  0 0 1 0  4 0 5 1  0 0 4 0  0 2 4 2"],
        both: &["0 0 1 0  0 0 1 1  0 0 1 0  4 0 5 1  0 2 4 2  0 4 4 4"],
        b_minus_a: &["0 0 1 1  0 0 1 2  0 4 4 0  0 0 1 0  0 4 4 4  0 6 4 6"],
    }
    .assert_of(Q, LEVEL);
}

/// Events 0, 2, 4, 6. In [0,2) A alone: 1. In [2,4) the heights 0 (both bottoms, A's line), 2, 4: 3, 1.
/// In [4,6) B alone, whose range alone holds the column, so with its own bottom: 2.
#[test]
fn shared_side() {
    Overlay {
        a_minus_b: &[
            "0 0 1 0  0 0 1 1  0 0 1 0  2 0 3 1  0 0 4 0  0 4 4 4",
            "0 0 1 0  2 0 3 1  0 0 1 0  4 0 5 1  2 2 6 2  0 4 4 4",
        ],
        both: &["0 0 1 0  2 0 3 1  0 0 1 0  4 0 5 1  0 0 4 0  2 2 6 2"],
        b_minus_a: &["0 0 1 0  4 0 5 1  0 0 1 0  6 0 7 1  0 0 8 0  2 2 6 2"],
    }
    .assert_of(Q, LOW);
}

// ---------------------------------------------------------------------------------------------
// Tips

/// Events 0, 2, 4, 6: A's top and B's bottom meet at 2, not strictly inside. In [0,2) A alone: 1. In
/// [2,4) A's bottom, B's bottom, A's top, B's top: 1, 3, 2. In [4,6) B alone: 2.
#[test]
fn tip_on_a_top() {
    Overlay {
        a_minus_b: &[
            "0 0 1 0  0 0 1 1  2 4 6 2  2 4 6 6  0 0 4 0  0 4 4 4",
            "2 4 6 2  2 4 6 6  0 0 1 0  4 0 5 1  0 0 4 0  2 4 6 2",
        ],
        both: &["2 4 6 2  2 4 6 6  0 0 1 0  4 0 5 1  2 4 6 2  0 4 4 4"],
        b_minus_a: &[
            "2 4 6 2  2 4 6 6  0 0 1 0  4 0 5 1  0 4 4 4  2 4 6 6",
            "0 0 1 0  4 0 5 1  0 0 1 0  6 0 7 1  2 4 6 2  2 4 6 6",
        ],
    }
    .assert_of(Q, TIP_ON_TOP);
}

/// Events 0, 1, 3, 4: A's bottom meets B's sides at 1, not strictly inside. In [0,1) A alone: 1. In
/// [1,3) A's bottom, B's bottom, B's top, A's top: 1, 3, 1. In [3,4) A alone: 1.
#[test]
fn tip_entering_on_a_bottom() {
    Overlay {
        a_minus_b: &[
            "0 0 1 0  0 0 1 1  1 0 3 1  1 0 3 2  0 0 4 0  0 4 4 4",
            "1 0 3 1  1 0 3 2  0 0 1 0  3 0 4 1  0 0 4 0  1 0 3 1",
            "1 0 3 1  1 0 3 2  0 0 1 0  3 0 4 1  1 0 3 2  0 4 4 4",
            "0 0 1 0  3 0 4 1  0 0 1 0  4 0 5 1  0 0 4 0  0 4 4 4",
        ],
        both: &["1 0 3 1  1 0 3 2  0 0 1 0  3 0 4 1  1 0 3 1  1 0 3 2"],
        b_minus_a: &[],
    }
    .assert_of(Q, TIP_ON_BOTTOM);
}

/// Both tips at (0, 0): one column with A's names, slopes 0 (A), 1/4 (B), 1/2 (A), 1 (B): 1, 3, 2. In
/// B - A it has B's.
#[test]
fn two_tips_at_one_point() {
    Overlay {
        a_minus_b: &["0 0 4 0  0 0 4 2  0 0 1 0  4 0 5 1  0 0 4 0  0 0 4 1"],
        both: &["0 0 4 0  0 0 4 2  0 0 1 0  4 0 5 1  0 0 4 1  0 0 4 2"],
        b_minus_a: &["0 0 4 1  0 0 4 4  0 4 4 0  0 0 1 0  0 0 4 2  0 0 4 4"],
    }
    .assert_of(TIP_1, TIP_2);
}

// ---------------------------------------------------------------------------------------------
// Crossings

/// Bottoms and tops cross at 2: one event, named by the bottoms. Events 0, 1, 2, 3, 4. In [0,1) A
/// alone: 1. In [1,2) B's bottom, A's bottom, A's top, B's top: 2, 3, 2. In [2,3) A's bottom, B's
/// bottom, B's top, A's top: 1, 3, 1. In [3,4) A alone: 1. In B - A the event at 2 has B's bottom first.
#[test]
fn two_crossings_at_one_event() {
    Overlay {
        a_minus_b: &[
            "0 0 1 0  0 0 1 1  0 0 1 0  1 0 2 1  0 0 4 0  0 4 4 4",
            "0 0 4 0  0 -1 4 1  0 0 1 0  3 0 4 1  0 0 4 0  0 -1 4 1",
            "0 0 4 0  0 -1 4 1  0 0 1 0  3 0 4 1  0 5 4 3  0 4 4 4",
            "0 0 1 0  3 0 4 1  0 0 1 0  4 0 5 1  0 0 4 0  0 4 4 4",
        ],
        both: &[
            "0 0 1 0  1 0 2 1  0 0 4 0  0 -1 4 1  0 0 4 0  0 4 4 4",
            "0 0 4 0  0 -1 4 1  0 0 1 0  3 0 4 1  0 -1 4 1  0 5 4 3",
        ],
        b_minus_a: &[
            "0 0 1 0  1 0 2 1  0 -1 4 1  0 0 4 0  0 -1 4 1  0 0 4 0",
            "0 0 1 0  1 0 2 1  0 -1 4 1  0 0 4 0  0 4 4 4  0 5 4 3",
        ],
    }
    .assert_of(Q, WEDGE);
}

/// Events 0 and 4 with A's names, 1 (A's top with B's bottom), 2 (the bottoms; the tops too), 3 (A's
/// bottom with B's top). In [0,1) A below B: 1, 2. In [1,2) A's bottom, B's bottom, A's top, B's top:
/// 1, 3, 2. In [2,3) B's bottom, A's bottom, B's top, A's top: 2, 3, 1. In [3,4) B below A: 2, 1. In
/// B - A each crossing has B's side first; the bases of both have the same words.
#[test]
fn from_above_to_below() {
    Overlay {
        a_minus_b: &[
            "0 0 1 0  0 0 1 1  0 4 4 4  1 4 2 0  0 0 4 0  0 4 4 4",
            "0 4 4 4  1 4 2 0  0 0 4 0  1 4 2 0  0 0 4 0  1 4 2 0",
            "0 0 4 0  1 4 2 0  0 0 4 0  2 4 3 0  2 4 3 0  0 4 4 4",
            "0 0 4 0  2 4 3 0  0 0 1 0  4 0 5 1  0 0 4 0  0 4 4 4",
        ],
        both: &[
            "0 4 4 4  1 4 2 0  0 0 4 0  1 4 2 0  1 4 2 0  0 4 4 4",
            "0 0 4 0  1 4 2 0  0 0 4 0  2 4 3 0  0 0 4 0  2 4 3 0",
        ],
        b_minus_a: &[
            "0 0 1 0  0 0 1 1  1 4 2 0  0 4 4 4  1 4 2 0  2 4 3 0",
            "1 4 2 0  0 4 4 4  1 4 2 0  0 0 4 0  0 4 4 4  2 4 3 0",
            "1 4 2 0  0 0 4 0  2 4 3 0  0 0 4 0  1 4 2 0  0 0 4 0",
            "2 4 3 0  0 0 4 0  0 0 1 0  4 0 5 1  1 4 2 0  2 4 3 0",
        ],
    }
    .assert_of(Q, STEEP);
}

/// Crossings at 7/2, 9/2, 11/2, 13/2, seven columns, 1; 2, 1; 2, 3, 1; 2, 3, 2; 1, 3, 2; 1, 2; 2:
/// fifteen, of them 5 with tag 1, 7 with tag 2, 3 with tag 3.
#[test]
fn fifteen() {
    parts(Code::AMinusB, FALLING, RISING, 5);
    parts(Code::BMinusA, FALLING, RISING, 7);
    parts(Code::Intersection, FALLING, RISING, 3);
}

/// The bases are level, and the sides meet at no position strictly inside: one column with A's names,
/// A's bottom, B's bottom, B's top, A's top: 1, 3, 1.
#[test]
fn whole_grid() {
    Overlay {
        a_minus_b: &[
            "0 0 1 0  -2048 0 -2047 1  0 0 1 0  2047 1 2048 0
                -2048 -2048 2048 -2048  -2048 -2048 2048 2047",
            "0 0 1 0  -2048 0 -2047 1  0 0 1 0  2047 1 2048 0
                -2048 -2048 2048 2048  -2048 2048 2048 2048",
        ],
        both: &["0 0 1 0  -2048 0 -2047 1  0 0 1 0  2047 1 2048 0
            -2048 -2048 2048 2047  -2048 -2048 2048 2048"],
        b_minus_a: &[],
    }
    .assert_of(GRID, DIAGONAL);
}
