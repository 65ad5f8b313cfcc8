//! Layers of up to 512 trapezoids that touch in a known way, for the tests and the benchmark.

use super::{fan, level, mark, rectangle, six_lines, Random};
use crate::reference::{unfit, Fraction, Line, LIMIT, WORDS};

/// A snake of 512 rectangles in 16 rows. Each touches the one before and the one after and no other.
/// A row runs to the right or to the left, and a narrower one at its end leads to the next row.
pub fn snake() -> Vec<i32> {
    let cell = |column: i32, row: i32, less: i32| {
        let (x, y) = (100 * column - 1600, 100 * row - 1600);
        rectangle(x + less, x + 100 - less, y, y + 100)
    };
    let mut words = Vec::new();
    for row in 0..16 {
        let column = |k: i32| if row % 2 == 0 { k } else { 30 - k };
        for k in 0..31 {
            words.extend(cell(column(k), 2 * row, 0));
        }
        words.extend(cell(column(30), 2 * row + 1, 10));
    }
    words
}

/// 512 tiles without gaps, in 16 rows: one component.
pub fn tiles() -> Vec<i32> {
    cells(100)
}

/// 512 slanted trapezoids that don't touch.
pub fn apart() -> Vec<i32> {
    cells(60)
}

/// Trapezoids of a size from 1 to 100, each in a cell of its own, with sides that rise.
fn cells(size: i32) -> Vec<i32> {
    let mut words = Vec::new();
    for row in 0..16 {
        for column in 0..32 {
            let (x, y) = (100 * column - 1600, 100 * row - 800);
            let side = |y: i32| Line::new(&[x, y + column, x + 100, y + column + 1]);
            words.extend(six_lines(mark(x), mark(x + size), side(y), side(y + size)));
        }
    }
    words
}

/// Teeth apart from each other, then one trapezoid that touches them all from below: the last one
/// joins what was apart.
pub fn comb(teeth: i32) -> Vec<i32> {
    let mut words = Vec::new();
    for k in 0..teeth {
        words.extend(rectangle(2 * k - 1000, 2 * k - 999, 5, 9));
    }
    words.extend(rectangle(-2000, 2000, 0, 5));
    words
}

/// Squares that share corners only, in 2 * rows rows of `columns`.
pub fn chequers(columns: i32, rows: i32) -> Vec<i32> {
    let mut words = Vec::new();
    for row in 0..2 * rows {
        for column in 0..columns {
            let (x, y) = (4 * column + 2 * (row % 2), 2 * row);
            words.extend(rectangle(x, x + 2, y, y + 2));
        }
    }
    words
}

/// Triangles with one tip, which is no grid point: where two lines cross. Then what is above them, in two.
pub fn fans() -> Vec<i32> {
    let line = |words: [i32; 4]| Line::new(&words);
    // They cross at (4/3, 4/3).
    let (low, high) = (line([0, 0, 4, 4]), line([0, 2, 4, 0]));
    let to_the_right = six_lines([low, high], mark(4), high, low);
    let to_the_left = six_lines(mark(0), [high, low], low, high);
    // Their bottoms go through the same point.
    let above_the_right = six_lines([high, low], mark(4), low, level(9));
    let above_the_left = six_lines(mark(0), [low, high], high, level(9));
    [to_the_right, to_the_left, above_the_right, above_the_left].concat()
}

/// The layer with its trapezoids in another order: `order` numbers the old ones.
pub fn reordered(words: &[i32], order: &[usize]) -> Vec<i32> {
    let record = |&number: &usize| &words[number * WORDS..(number + 1) * WORDS];
    order.iter().flat_map(record).copied().collect()
}

/// Two trapezoids side by side: the right base of one and the left base of the other, as close as the
/// grid allows, in either order or level. Also the two positions.
pub fn near_bases(random: &mut Random) -> (Vec<i32>, Fraction, Fraction) {
    loop {
        let lines = fan(random);
        let (first, second) = (
            [lines[0], lines[2]],
            [lines[1], lines[random.range(2, 3) as usize]],
        );
        let (right, left) = if random.once_in(2) {
            (first, second)
        } else {
            (second, first)
        };
        let one = six_lines(mark(-LIMIT), right, level(-1), level(1));
        let other = six_lines(left, mark(LIMIT), level(0), level(2));
        let fit = unfit(&one).is_none() && unfit(&other).is_none();
        let positions = (right[0].crossing(right[1]), left[0].crossing(left[1]));
        if let (true, (Some(right), Some(left))) = (fit, positions) {
            return ([one, other].concat(), right, left);
        }
    }
}

/// Two trapezoids above each other: the top of one and the bottom of the other cross at a grid point,
/// at slopes as close as can be, and the ranges begin there or a little to the right. Also the heights
/// of that top and that bottom there.
pub fn near_sides(random: &mut Random) -> (Vec<i32>, Fraction, Fraction) {
    loop {
        let (x, y) = (random.range(-2040, -1000), random.range(-2000, 2000));
        let (u, v) = (random.range(1000, LIMIT - x), random.range(-2000, 2000));
        // Another direction (s, t) with u * t - v * s = 1.
        let Some(s) = (1..u).find(|&s| (1 + v as i64 * s as i64) % u as i64 == 0) else {
            continue;
        };
        let t = ((1 + v as i64 * s as i64) / u as i64) as i32;
        let lower = Line::new(&[x, y, x + u, y + v]);
        let upper = Line::new(&[x, y, x + s, y + t]);
        // A steep line through (x, -2048) and a flat one passing close to that point.
        let steep = Line::new(&[x, -LIMIT, x + 1, LIMIT - random.range(0, 9)]);
        let flat = Line::new(&[x - 1, -LIMIT, x - 1 + random.range(1000, 3000), 1 - LIMIT]);
        let begin = if random.once_in(3) {
            mark(x)
        } else {
            [steep, flat]
        };
        let (top, bottom) = if random.once_in(2) {
            (lower, upper)
        } else {
            (upper, lower)
        };
        let one = six_lines(begin, mark(x + 1), level(-LIMIT), top);
        let other = six_lines(begin, mark(x + 1), bottom, level(LIMIT));
        if unfit(&one).is_none() && unfit(&other).is_none() {
            let begin = begin[0].crossing(begin[1]).expect("fit");
            return (
                [one, other].concat(),
                top.height(begin),
                bottom.height(begin),
            );
        }
    }
}

/// Trapezoids with bases where lines from corner to corner of the grid cross, some of them far outside
/// it: numbers as large as they get.
pub fn far_bases(random: &mut Random, count: usize) -> Vec<i32> {
    let mut words = Vec::new();
    while words.len() < count * WORDS {
        let line = |random: &mut Random| {
            let corner = |random: &mut Random| {
                let near = LIMIT - random.range(0, 2);
                if random.once_in(2) {
                    near
                } else {
                    -near
                }
            };
            Line::new(&[-LIMIT, corner(random), LIMIT, corner(random)])
        };
        let base = |random: &mut Random| [line(random), line(random)];
        let y = random.range(-2, 2);
        let mut one = six_lines(base(random), base(random), level(y), level(y + 1));
        if unfit(&one) == Some(10) {
            let (left, right) = one[..16].split_at_mut(8);
            left.swap_with_slice(right);
        }
        if unfit(&one).is_none() {
            words.extend(one);
        }
    }
    words
}
