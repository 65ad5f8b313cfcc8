//! Trapezoids, bases, lines and points in cases worked out by hand, by calls on layers of one trapezoid
//! or two.

mod reference;
mod support;

use loxurfa::{components, contains, Code, Refusal};
use std::cmp::Ordering::{self, Equal, Greater, Less};
use support::outputs::{combined, deoverlapped};

type Line = [i32; 4];
type Base = [Line; 2];

// Lines. UPk and the line y = 0 meet at k.
const Y0: Line = [0, 0, 1, 0];
const Y0_AGAIN: Line = [0, 0, 2, 0];
const Y1: Line = [0, 1, 1, 1];
const Y4: Line = [0, 4, 1, 4];
const UP_M2048: Line = [-2048, 0, -2047, 1];
const UP_M2: Line = [-2, 0, -1, 1];
const UP_M1: Line = [-1, 0, 0, 1];
const UP0: Line = [0, 0, 1, 1];
const UP1: Line = [1, 0, 2, 1];
const UP2: Line = [2, 0, 3, 1];
const UP3: Line = [3, 0, 4, 1];
const UP4: Line = [4, 0, 5, 1];
const UP5: Line = [5, 0, 6, 1];
const UP6: Line = [6, 0, 7, 1];
const UP7: Line = [7, 0, 8, 1];
const UP8: Line = [8, 0, 9, 1];
/// Meets y = 0 at 2,048.
const DOWN_2048: Line = [2047, 1, 2048, 0];
/// Meets y = 0 at 3.
const DOWN_3: Line = [2, 1, 3, 0];
/// Meets y = 0 at 2.
const DOWN_2: Line = [0, 2, 1, 1];
/// From (0, 0) to (4, 4) and from (0, 4) to (4, 0).
const RISING: Line = [0, 0, 4, 4];
const FALLING: Line = [0, 4, 4, 0];
/// y = x/3 and y = 1 - x/3.
const THIRD: Line = [0, 0, 3, 1];
const LESS_THIRD: Line = [0, 1, 3, 0];
/// The grid's lower and upper edge.
const LOW: Line = [-2048, -2048, 2048, -2048];
const HIGH: Line = [-2048, 2048, 2048, 2048];

/// Q, the square [0,4) by [0,4), and a triangle whose tip is at its left base.
const Q: [Line; 6] = [Y0, UP0, Y0, UP4, Y0, Y4];
const TRIANGLE: [Line; 6] = [Y0, UP0, Y0, UP4, Y0, RISING];

/// The words of a trapezoid, with the set of layers 1 and 31.
fn trapezoid(lines: [Line; 6]) -> Vec<i32> {
    [&lines.concat()[..], &[i32::MIN + 2]].concat()
}

/// The row that refuses a layer of this trapezoid, at place 0. A layer of a fit one stays as it is.
fn row(lines: [Line; 6]) -> Option<u8> {
    let layer = trapezoid(lines);
    match deoverlapped(&layer, 1) {
        Err(refusal) => {
            assert_eq!(refusal.place, 0);
            Some(refusal.number)
        }
        Ok((done, words)) => {
            assert_eq!((done.pieces, done.overlays), (1, 0));
            assert_eq!(words, layer);
            None
        }
    }
}

#[test]
fn rows() {
    // Fit: the square, a triangle whose tip is at the left base and one whose tip is at the right base,
    // whose sides meet at one base only.
    assert_eq!(row(Q), None);
    assert_eq!(row(TRIANGLE), None);
    assert_eq!(row([Y0, UP0, Y0, UP4, Y0, FALLING]), None);
    // Fit: the whole grid, from -2,048 to 2,048 both ways.
    assert_eq!(row([Y0, UP_M2048, Y0, DOWN_2048, LOW, HIGH]), None);

    // Sides that meet at both bases coincide: not below anywhere.
    assert_eq!(row([Y0, UP0, Y0, UP4, Y0, Y0_AGAIN]), Some(11));
    // Sides that cross inside, at 2.
    assert_eq!(row([Y0, UP0, Y0, UP4, RISING, FALLING]), Some(11));
    // The bottom above the top.
    assert_eq!(row([Y0, UP0, Y0, UP4, Y4, Y0]), Some(11));

    // Both bases at 0: not strictly left.
    assert_eq!(row([Y0, UP0, Y0, UP0, Y0, Y4]), Some(10));
    // The bases the wrong way round.
    assert_eq!(row([Y0, UP4, Y0, UP0, Y0, Y4]), Some(10));
    // Level bases named by different lines, both at 2.
    assert_eq!(row([Y0, UP2, DOWN_2, Y0, Y0, Y4]), Some(10));

    // A left base of parallel lines.
    assert_eq!(row([Y0, Y1, Y0, UP4, Y0, Y4]), Some(9));
    // A right base of coinciding lines, which have many points in common.
    assert_eq!(row([Y0, UP0, Y0, Y0_AGAIN, Y0, Y4]), Some(9));
    // A right base of parallel lines and sides that cross: the earlier row.
    assert_eq!(row([Y0, UP0, Y0, Y1, RISING, FALLING]), Some(9));

    // A vertical bottom: x1 is not below x2.
    assert_eq!(row([Y0, UP0, Y0, UP4, [3, 0, 3, 1], Y4]), Some(8));
    // A line drawn from right to left.
    assert_eq!(row([Y0, UP0, Y0, UP4, Y0, [1, 4, 0, 4]]), Some(8));

    // 2,049 and -2,049 are off the grid.
    assert_eq!(row([Y0, UP0, Y0, UP4, Y0, [0, 2049, 1, 4]]), Some(7));
    assert_eq!(row([Y0, UP0, Y0, UP4, [0, -2049, 1, 0], Y4]), Some(7));
    // The least word in a line that is none: the earlier row.
    assert_eq!(row([Y0, UP0, Y0, UP4, [0, 0, i32::MIN, 0], Y4]), Some(7));
    // The largest word.
    assert_eq!(row([Y0, UP0, Y0, UP4, Y0, [0, 4, i32::MAX, 4]]), Some(7));
}

fn between(left: Base, right: Base, bottom: Line, top: Line) -> [Line; 6] {
    [left[0], left[1], right[0], right[1], bottom, top]
}

/// How a base stands to another: Less if a trapezoid fits between them in this order, Greater if one
/// fits in the other order, Equal if row 10 refuses both; or the earlier row that refuses them.
fn position(first: Base, second: Base) -> Result<Ordering, u8> {
    let refused = |left: Base, right: Base| row(between(left, right, Y0, Y4));
    match (refused(first, second), refused(second, first)) {
        (None, Some(10)) => Ok(Less),
        (Some(10), None) => Ok(Greater),
        (Some(10), Some(10)) => Ok(Equal),
        (Some(one), Some(other)) if one == other => Err(one),
        other => panic!("{first:?} {second:?}: {other:?}"),
    }
}

#[test]
fn positions() {
    // Paper 01's trap: 0 is left of 3, with determinants -1 and 1.
    assert_eq!(position([Y0, UP0], [Y0, DOWN_3]), Ok(Less));
    // The same with determinants 1 and 1, -1 and -1, 1 and -1.
    assert_eq!(position([UP0, Y0], [Y0, DOWN_3]), Ok(Less));
    assert_eq!(position([Y0, UP0], [DOWN_3, Y0]), Ok(Less));
    assert_eq!(position([UP0, Y0], [DOWN_3, Y0]), Ok(Less));
    // 3 is right of 0.
    assert_eq!(position([Y0, DOWN_3], [Y0, UP0]), Ok(Greater));
    // Mirrored left to right: 0 is right of -3. Upside down: 0 is left of 3. Both: 0 is right of -3.
    let mirrored = |(x, y): (i32, i32), base: Base| {
        base.map(|[x1, y1, x2, y2]| match x {
            1 => [x1, y * y1, x2, y * y2],
            _ => [-x2, y * y2, -x1, y * y1],
        })
    };
    for (mirror, right) in [((-1, 1), Greater), ((1, -1), Less), ((-1, -1), Greater)] {
        let (zero, three) = ([Y0, UP0], [Y0, DOWN_3]);
        assert_eq!(
            position(mirrored(mirror, zero), mirrored(mirror, three)),
            Ok(right)
        );
    }
    // 2 and 2, named by different lines.
    assert_eq!(position([Y0, UP2], [DOWN_2, Y0]), Ok(Equal));
    // 1 is left of 3/2: y = x/2 with y = 1 - x/2, y = x/3 with y = 1 - x/3.
    let one = [[0, 0, 2, 1], [0, 1, 2, 0]];
    assert_eq!(position(one, [THIRD, LESS_THIRD]), Ok(Less));
    // -2,048 is left of 2,048.
    assert_eq!(position([Y0, UP_M2048], [Y0, DOWN_2048]), Ok(Less));
    // Parallel lines have no position.
    assert_eq!(position([Y0, Y1], [Y0, UP0]), Err(9));
    // Off the grid.
    assert_eq!(position([Y0, [0, 2049, 1, 0]], [Y0, UP0]), Err(7));
}

/// How a line stands to another at a base, and right of it: below, meeting (or coinciding), above. The
/// neighbours are a position left of the base and one right of it, up to which the lines do not cross.
fn order(l: Line, m: Line, base: Base, neighbours: [Base; 2]) -> (Ordering, Ordering) {
    let [before, after] = neighbours;
    // What ends at the base under one line and what begins there over the other touch exactly if the
    // first line is above the second there.
    let above = |first: Line, second: Line| {
        let under = between(before, base, LOW, first);
        let over = between(base, after, second, HIGH);
        components(&[under, over].map(trapezoid).concat(), &mut [7; 2]) == Ok(1)
    };
    let at = match (above(l, m), above(m, l)) {
        (false, true) => Less,
        (false, false) => Equal,
        (true, false) => Greater,
        _ => panic!("each is above the other"),
    };
    // What is over one line and what is under the other, both from the base on, share points exactly if
    // right of it the first line is below the second.
    let below = |first: Line, second: Line| {
        let over = between(base, after, first, HIGH);
        let under = between(base, after, LOW, second);
        let (over, under) = (trapezoid(over), trapezoid(under));
        let (done, words) = combined(Code::Intersection, &over, &under, 1).expect("room");
        let shared = trapezoid(between(base, after, first, second));
        assert!(words.is_empty() || words == shared);
        done.pieces == 1
    };
    let right = match (below(l, m), below(m, l)) {
        (true, false) => Less,
        (false, false) => Equal,
        (false, true) => Greater,
        _ => panic!("each is below the other"),
    };
    (at, right)
}

#[test]
fn orders() {
    let at_0 = [[Y0, UP_M1], [Y0, UP1]];
    // y = 0 and y = x at 0: they meet, and right of 0 the first is below.
    assert_eq!(order(Y0, UP0, [Y0, UP0], at_0), (Equal, Less));
    // The other way round.
    assert_eq!(order(UP0, Y0, [Y0, UP0], at_0), (Equal, Greater));
    // At 4 the first is below, and so right of it.
    let at_4 = [[Y0, UP3], [Y0, UP5]];
    assert_eq!(order(Y0, UP0, [Y0, UP4], at_4), (Less, Less));
    // At -1 the first is above, and so right of it.
    let at_m1 = [[Y0, UP_M2], [Y0, UP0]];
    assert_eq!(order(Y0, UP0, [Y0, UP_M1], at_m1), (Greater, Greater));
    // One line by two pairs of points: they meet and coincide.
    let at_7 = [[Y0, UP6], [Y0, UP8]];
    assert_eq!(order(Y0, Y0_AGAIN, [Y0, UP7], at_7), (Equal, Equal));
    // Parallel lines, the first below.
    assert_eq!(order(Y0, [0, 1, 2, 1], [Y0, UP0], at_0), (Less, Less));
    // At 3/2, where y = x/3 and y = 1 - x/3 meet, the rising one is above right of it.
    let at_3_2 = [[Y0, UP1], [Y0, UP2]];
    let meeting = [THIRD, LESS_THIRD];
    assert_eq!(order(THIRD, LESS_THIRD, meeting, at_3_2), (Equal, Greater));
}

/// Whether the point (x/d, y/d) lies in a layer of this trapezoid. Paper 01's case (f) is in table.rs.
#[test]
fn points() {
    let lies_in = |lines: [Line; 6], x: i32, y: i32, d: i32| {
        contains(x, y, d, &trapezoid(lines), &[], Code::Union)
    };
    // (0, 4) doesn't lie in Q: the top is left out.
    assert_eq!(lies_in(Q, 0, 4, 1), Ok(false));
    // (3, 3) does.
    assert_eq!(lies_in(Q, 3, 3, 1), Ok(true));
    // (7/2, 7/2) does.
    assert_eq!(lies_in(Q, 7, 7, 2), Ok(true));
    // (-1/1024, 0) lies left of Q.
    assert_eq!(lies_in(Q, -1, 0, 1024), Ok(false));
    // (0, -1/1024) lies below Q.
    assert_eq!(lies_in(Q, 0, -1, 1024), Ok(false));
    // The tip of a triangle is not below its top.
    assert_eq!(lies_in(TRIANGLE, 0, 0, 1), Ok(false));
    // (4/3, 1) lies in the triangle.
    assert_eq!(lies_in(TRIANGLE, 4, 3, 3), Ok(true));
    // (1, 1) lies on its top.
    assert_eq!(lies_in(TRIANGLE, 1, 1, 1), Ok(false));
    // Of a trapezoid with a base of parallel lines no point is asked for.
    let refused = Refusal {
        number: 9,
        place: 0,
    };
    assert_eq!(lies_in([Y0, Y1, Y0, UP4, Y0, Y4], 1, 1, 1), Err(refused));
}
