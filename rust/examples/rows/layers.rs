//! Layers for the rows.

use crate::reference::{Line, WORDS};
use crate::support::{mark, rectangle, six_lines};

/// Rectangles with gaps: where those of A stand and, in the gaps, those of B.
#[derive(Clone, Copy)]
pub enum Apart {
    /// Side by side.
    Row,
    /// As many columns as rows.
    Grid,
}

impl Apart {
    pub const ALL: [Apart; 2] = [Apart::Row, Apart::Grid];

    pub fn name(self, side: i32) -> String {
        match self {
            Apart::Row => "apart, in a row".to_string(),
            Apart::Grid => format!("apart, {side} by {side}"),
        }
    }

    /// A and B of side * side rectangles each.
    pub fn layers(self, side: i32) -> [Vec<i32>; 2] {
        let (mut a, mut b) = (Vec::new(), Vec::new());
        for k in 0..side * side {
            match self {
                Apart::Row => {
                    let x = 8 * k - 1936;
                    a.extend(rectangle(x, x + 3, 0, 100));
                    b.extend(rectangle(x + 4, x + 7, 0, 100));
                }
                // That of B is above that of A, and a little to the right.
                Apart::Grid => {
                    let (x, y) = corner(side, k);
                    a.extend(rectangle(x, x + 90, y, y + 70));
                    b.extend(rectangle(x + 40, x + 130, y + 80, y + 150));
                }
            }
        }
        [a, b]
    }

    /// How 512 of them stand.
    pub fn shape(self) -> &'static str {
        match self {
            Apart::Row => "in a row",
            Apart::Grid => "32 by 16",
        }
    }

    /// 512 rectangles.
    pub fn longest(self) -> Vec<i32> {
        let one = |k: i32| match self {
            Apart::Row => rectangle(8 * k - 2048, 8 * k - 2045, 0, 100),
            Apart::Grid => {
                let (x, y) = (120 * (k % 32) - 1920, 120 * (k / 32) - 960);
                rectangle(x, x + 90, y, y + 70)
            }
        };
        (0..512).flat_map(one).collect()
    }

    /// The same, but for the last one, which overlaps the one before it.
    pub fn overlap_at_the_end(self) -> Vec<i32> {
        let mut words = self.longest();
        words.copy_within(510 * WORDS..511 * WORDS, 511 * WORDS);
        words
    }
}

/// The corner of cell k of a grid, row by row.
pub fn corner(side: i32, k: i32) -> (i32, i32) {
    (180 * (k % side) - 1980, 180 * (k / side) - 1980)
}

/// Two rectangles, and two beside them.
pub fn touching() -> Vec<i32> {
    let mut words = Vec::new();
    for side in 0..2 {
        for k in 0..2 {
            let (x, y) = corner(2, k);
            words.extend(rectangle(x + 50 * side, x + 50 + 50 * side, y, y + 70));
        }
    }
    words
}

/// A and B of 4 rectangles each. Each of A overlaps one of B.
pub fn overlapping() -> [Vec<i32>; 2] {
    let (mut a, mut b) = (Vec::new(), Vec::new());
    for k in 0..4 {
        let (x, y) = corner(2, k);
        a.extend(rectangle(x, x + 90, y, y + 70));
        b.extend(rectangle(x + 40, x + 130, y + 30, y + 100));
    }
    [a, b]
}

/// Tiles without gaps: columns from x.0 to x.1, rows of slanted strips from y.0 to y.1.
pub fn tiles(columns: i32, rows: i32, x: (i32, i32), y: (i32, i32), rise: i32) -> Vec<i32> {
    let mut words = Vec::new();
    for row in 0..rows {
        let side = |row: i32| {
            let height = y.0 + (y.1 - y.0) * row / rows;
            Line::new(&[x.0, height, x.1, height + rise])
        };
        for column in 0..columns {
            let base = |column: i32| mark(x.0 + (x.1 - x.0) * column / columns);
            words.extend(six_lines(
                base(column),
                base(column + 1),
                side(row),
                side(row + 1),
            ));
        }
    }
    words
}

/// Slanted trapezoids, one in each of 32 by 16 tiles.
pub fn within_tiles() -> Vec<i32> {
    let mut words = Vec::new();
    for k in 0..512 {
        let (x, y) = (100 * (k % 32) - 1570, 200 * (k / 32) - 1540);
        let side = |y: i32, rise: i32| Line::new(&[x, y, x + 40, y + rise]);
        words.extend(six_lines(
            mark(x),
            mark(x + 40),
            side(y, 9),
            side(y + 40, -9),
        ));
    }
    words
}
