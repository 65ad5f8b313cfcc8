//! Rows for equality.

use super::layers::{overlapping, tiles, Apart};
use super::operation::Operation;

pub fn rows() {
    for apart in Apart::ALL {
        let [a, b] = apart.layers(22);
        both(&apart.name(22), &a, &b, 512);
    }
    let [a, b] = Apart::Grid.layers(2);
    both("apart, 2 by 2", &a, &b, 16);
    let [a, b] = overlapping();
    both("overlapping, 2 by 2", &a, &b, 16);
    let whole = (-1600, 1600);
    let a = tiles(32, 16, whole, whole, 200);
    let b = tiles(16, 32, whole, whole, 200);
    Operation::Equal.row("tiles across tiles", &a, &b, 512);
}

/// A with itself, and with B.
fn both(kind: &str, a: &[i32], b: &[i32], records: usize) {
    Operation::Equal.row(&format!("{kind}, itself"), a, a, records);
    Operation::Equal.row(kind, a, b, records);
}
