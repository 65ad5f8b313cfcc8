//! Rows for transistors.

use super::layers::tiles;
use super::print;
use super::timing::in_turn;
use crate::reference::{self, WORDS};
use crate::support::rectangle;
use loxurfa::{raw, TRIPLE_WORDS};
use std::hint::black_box;

/// Collectors, bases and emitters.
type Layers = [Vec<i32>; 3];

pub fn rows() {
    row("one cell", &cells(1), 16);
    row("16 cells", &cells(16), 512);
    row("512 cells", &cells(512), 512);
    // One shape in each layer.
    let whole = (-1600, 1600);
    let across = [(32, 16), (16, 32), (32, 16)];
    let layers = across.map(|(columns, rows)| tiles(columns, rows, whole, whole, 200));
    row("tiles across tiles", &layers, 512);
    row("strips across strips", &strips(), 512);
}

/// Squares in squares in squares, apart.
fn cells(count: i32) -> Layers {
    [0, 20, 40].map(|inset| {
        let cell = |k: i32| {
            let (x, y) = (120 * (k % 32) - 1920, 120 * (k / 32) - 960);
            let (low, high) = (inset, 100 - inset);
            rectangle(x + low, x + high, y + low, y + high)
        };
        (0..count).flat_map(cell).collect()
    })
}

/// Lying, upright and lying: each collector meets each base, and each base each emitter.
fn strips() -> Layers {
    let strip = |k: i32| (8 * k - 2048, 8 * k - 2044);
    let lying: Vec<i32> = (0..512)
        .map(strip)
        .flat_map(|(low, high)| rectangle(-2048, 2048, low, high))
        .collect();
    let upright = (0..512)
        .map(strip)
        .flat_map(|(left, right)| rectangle(left, right, -2048, 2048))
        .collect();
    [lying.clone(), upright, lying]
}

/// Times both with an output of so many records. They must write the same.
fn row(kind: &str, [c, b, e]: &Layers, records: usize) {
    let area = || {
        let list: Vec<u32> = vec![1; e.len() / WORDS * TRIPLE_WORDS];
        (list, vec![1; records * WORDS], vec![1; records * WORDS])
    };
    let ((mut list, mut out, mut scratch), mut right) = (area(), area());
    let timed = in_turn(
        || {
            let (c, b, e) = (black_box(c), black_box(b), black_box(e));
            raw::transistors(c, b, e, &mut list, &mut out, &mut scratch)
        },
        || {
            let (c, b, e) = (black_box(c), black_box(b), black_box(e));
            let (list, out, scratch) = (&mut right.0, &mut right.1, &mut right.2);
            reference::transistors::transistors(c, b, e, list, out, scratch)
        },
    );
    assert!((list, out, scratch) == right, "they disagree");
    assert!(timed.answer >> 63 == 0, "refused");
    let result = match timed.answer >> 32 {
        1 => "1 triple".to_string(),
        many => format!("{many} triples"),
    };
    print(kind, "transistors", &[b.len() / WORDS], &result, &timed);
}
