//! The cases of the paper's proved table that concern these calls, and a few beside them. The words of
//! the parts are in overlays.rs.

mod reference;
mod support;

use loxurfa::{
    combine, contains, contains_by_number, deoverlap, equal, Code, Done, Equality, Refusal,
};
use reference::{read_layer, WORDS};
use support::outputs::combined;
use support::programs::file;
use support::rectangle;

const NO_SPACE: Refusal = Refusal {
    number: 12,
    place: 0,
};

fn q() -> Vec<i32> {
    rectangle(0, 4, 0, 4)
}

fn r() -> Vec<i32> {
    rectangle(2, 6, 2, 6)
}

/// The tags of an overlay by the reference.
fn tags(a: &[i32], b: &[i32]) -> Vec<u8> {
    let mut parts = Vec::new();
    reference::overlay(&read_layer(a)[0], &read_layer(b)[0], &mut parts);
    parts.iter().map(|part| part.tag).collect()
}

#[test]
fn a_tags_of_q_and_r() {
    assert_eq!(tags(&q(), &r()), [1, 1, 3, 2, 2]);
}

#[test]
fn b_q_minus_r() {
    let (done, words) = combined(Code::AMinusB, &q(), &r(), 2).unwrap();
    assert_eq!(
        done,
        Done {
            pieces: 2,
            overlays: 1
        }
    );
    assert_eq!(combined(Code::AMinusB, &q(), &r(), 1), Err(NO_SPACE));
    assert_eq!(combined(Code::AMinusB, &q(), &r(), 0), Err(NO_SPACE));
    // The same from the other side.
    let other = combined(Code::BMinusA, &r(), &q(), 2).unwrap();
    assert_eq!(other, (done, words));
}

#[test]
fn c_union() {
    let (done, words) = combined(Code::Union, &q(), &r(), 3).unwrap();
    assert_eq!(
        done,
        Done {
            pieces: 3,
            overlays: 1
        }
    );
    assert_eq!(words[..WORDS], q());
    assert_eq!(combined(Code::Union, &q(), &r(), 2), Err(NO_SPACE));
}

#[test]
fn d_code_4() {
    let (done, _) = combined(Code::SymmetricDifference, &q(), &r(), 512).unwrap();
    assert_eq!(
        done,
        Done {
            pieces: 4,
            overlays: 2
        }
    );
    assert_eq!(
        combined(Code::SymmetricDifference, &q(), &r(), 3),
        Err(NO_SPACE)
    );
}

#[test]
fn e_side_by_side() {
    let beside = rectangle(4, 8, 0, 4);
    assert_eq!(tags(&q(), &beside), [1, 2]);
    let (done, words) = combined(Code::AMinusB, &q(), &beside, 1).unwrap();
    assert_eq!((done.pieces, done.overlays), (1, 1));
    assert_eq!(words, q());
    let (done, _) = combined(Code::Intersection, &q(), &beside, 0).unwrap();
    assert_eq!((done.pieces, done.overlays), (0, 1));
}

#[test]
fn f_points_of_q() {
    // The right base is left out, the left one and the bottom are not.
    assert_eq!(contains(4, 0, 1, &q(), &[], Code::Union), Ok(false));
    assert_eq!(contains(0, 0, 1, &q(), &[], Code::Union), Ok(true));
}

/// The table of the point question reads, with the names that stand beside it, as `contains` answers.
#[test]
fn f_printed_answers() {
    let text = String::from_utf8(file("crates/point_code/src/lib.rt")).expect("text");
    let (_, rest) = text.split_once("const ANSWERS: ").expect("the table");
    let (printed, _) = rest.split_once("\n];\n").expect("its end");
    let mut read = vec![
        "[[bool; 4]; 5] = [".to_string(),
        "// in neither, in A only, in B only, in both".to_string(),
    ];
    let points = [(7, 7), (1, 1), (5, 5), (3, 3)];
    let names = [
        "union",
        "intersection",
        "A - B",
        "B - A",
        "symmetric difference",
    ];
    for (code, name) in (0..).zip(names) {
        let answers = points.map(|(x, y)| {
            let answer = contains_by_number(x, y, 1, &q(), &r(), code);
            answer.expect("no refusal").to_string()
        });
        read.push(format!("[{}], // code {code}, {name}", answers.join(", ")));
    }
    let printed: Vec<&str> = printed.lines().map(str::trim).collect();
    assert_eq!(printed, read);
}

#[test]
fn j_empty_layers() {
    assert_eq!(
        equal(&[], &[], &mut [], &mut []),
        Ok(Equality::Same { overlays: 0 })
    );
    let (mut out, mut scratch) = (vec![5; 2 * WORDS], vec![5; 2 * WORDS]);
    assert_eq!(
        equal(&[], &[], &mut out, &mut scratch),
        Ok(Equality::Same { overlays: 0 })
    );
    assert!(out.iter().chain(&scratch).all(|&word| word == 0));
}

/// 30 strips across 30 strips are 900 trapezoids: no room, but `contains` needs none.
#[test]
fn strips_across_strips() {
    let mut upright = Vec::new();
    let mut lying = Vec::new();
    for k in 0..30 {
        upright.extend(rectangle(2 * k, 2 * k + 1, 0, 60));
        lying.extend(rectangle(0, 60, 2 * k, 2 * k + 1));
    }
    assert_eq!(
        combined(Code::Intersection, &upright, &lying, 512),
        Err(NO_SPACE)
    );
    let at = |x: i32, y: i32| contains(x, y, 2, &upright, &lying, Code::Intersection);
    for k in 0..30 {
        assert_eq!(at(4 * k, 4 * k), Ok(true));
        assert_eq!(at(4 * k + 1, 4 * k + 1), Ok(true));
        assert_eq!(at(4 * k + 2, 4 * k + 1), Ok(false));
        assert_eq!(at(4 * k + 1, 4 * k + 3), Ok(false));
    }
    let whole = reference::result(1, &read_layer(&upright), &read_layer(&lying));
    assert_eq!(whole.len(), 900);
}

/// A trapezoid in hand counts only from its first overlay on.
#[test]
fn no_room_needed_where_nothing_is_left() {
    let (done, _) = combined(Code::AMinusB, &q(), &q(), 0).unwrap();
    assert_eq!(
        done,
        Done {
            pieces: 0,
            overlays: 1
        }
    );
    assert_eq!(combined(Code::AMinusB, &q(), &[], 0), Err(NO_SPACE));
    assert_eq!(
        equal(&q(), &q(), &mut [], &mut []),
        Ok(Equality::Same { overlays: 2 })
    );
    assert_eq!(equal(&q(), &r(), &mut [], &mut []), Err(NO_SPACE));
}

#[test]
fn same_and_differs() {
    let halves = [rectangle(0, 4, 0, 2), rectangle(0, 4, 2, 4)].concat();
    let room = || (vec![3; 4 * WORDS], vec![3; 4 * WORDS]);
    let (mut out, mut scratch) = room();
    // Q less the lower half, the rest less the upper; then each half less Q.
    assert_eq!(
        equal(&q(), &halves, &mut out, &mut scratch),
        Ok(Equality::Same { overlays: 4 })
    );
    let (mut out, mut scratch) = room();
    assert_eq!(
        equal(&q(), &halves[..WORDS], &mut out, &mut scratch),
        Ok(Equality::Differs {
            operand: 0,
            overlays: 1
        })
    );
    let (mut out, mut scratch) = room();
    assert_eq!(
        equal(&halves[..WORDS], &q(), &mut out, &mut scratch),
        Ok(Equality::Differs {
            operand: 1,
            overlays: 2
        })
    );
}

#[test]
fn deoverlap_of_q_and_r() {
    let layer = [q(), r(), q()].concat();
    let (mut out, mut scratch) = (vec![3; 3 * WORDS], vec![3; 3 * WORDS]);
    // R less Q; Q less Q is empty at once.
    assert_eq!(
        deoverlap(&layer, &mut out, &mut scratch),
        Ok(Done {
            pieces: 3,
            overlays: 2
        })
    );
    assert_eq!(out[..WORDS], q());
    assert_eq!(
        deoverlap(&layer, &mut out[..2 * WORDS], &mut scratch[..2 * WORDS]),
        Err(NO_SPACE)
    );
}

/// Paper 02 (vi): Q and R overlap, so they are no layer for a set operation, the later one being named; one of
/// each layer may.
#[test]
fn overlap_of_q_and_r() {
    let both = [q(), r()].concat();
    let overlap = |place: u32| Err(Refusal { number: 13, place });
    for code in Code::ALL {
        assert_eq!(combined(code, &both, &q(), 512), overlap(1));
        assert_eq!(combined(code, &q(), &both, 512), overlap(2));
        assert!(combined(code, &q(), &r(), 512).is_ok());
    }
    assert_eq!(
        contains(3, 3, 1, &both, &both, Code::Intersection),
        Ok(true)
    );
}

/// 512 trapezoids are a layer, 513 are not.
#[test]
fn longest_layer() {
    let mut layer = Vec::new();
    for k in 0..513 {
        layer.extend(rectangle(3 * k - 1000, 3 * k - 998, 0, 1));
    }
    let (done, words) = combined(Code::Union, &layer[..512 * WORDS], &[], 512).unwrap();
    assert_eq!((done.pieces, done.overlays), (512, 0));
    assert_eq!(words, layer[..512 * WORDS]);
    let (mut out, mut scratch) = (vec![3; 512 * WORDS], vec![4; 512 * WORDS]);
    assert_eq!(
        combine(Code::Union, &layer, &[], &mut out, &mut scratch),
        Err(Refusal {
            number: 1,
            place: 0
        })
    );
    assert!(out.iter().all(|&word| word == 3) && scratch.iter().all(|&word| word == 4));
}

/// At a triangle's tip on the other's side three sides meet.
#[test]
fn tip_on_a_side() {
    let line = |words: [i32; 4]| reference::Line::new(&words);
    let (low, high) = (line([0, 2, 4, 0]), line([0, 2, 4, 4]));
    let triangle = support::six_lines([low, high], support::mark(4), low, high);
    let below = rectangle(-2, 4, 0, 2);
    assert_eq!(tags(&below, &triangle), [1, 1, 3, 2]);
    let across = rectangle(-2, 6, 0, 4);
    assert_eq!(tags(&across, &triangle), [1, 1, 3, 1, 1]);
    let (done, _) = combined(Code::AMinusB, &across, &triangle, 4).unwrap();
    assert_eq!((done.pieces, done.overlays), (4, 1));
}
