//! Rows for deoverlap.

use super::layers::{overlapping, tiles, Apart};
use super::operation::Operation;
use crate::reference::WORDS;

pub fn rows() {
    let row = |kind: &str, layer: &[i32], records: usize| {
        Operation::Deoverlap.row(kind, layer, &[], records);
    };
    for apart in Apart::ALL {
        for side in [8, 22] {
            let [a, _] = apart.layers(side);
            row(&apart.name(side), &a, 512);
        }
    }
    let [a, _] = Apart::Grid.layers(2);
    row("apart, 2 by 2", &a, 16);
    row("overlapping, two and two", &two_and_two(), 16);
    let upright = tiles(15, 1, (-1600, 1600), (-1600, 1600), 100);
    let level = tiles(1, 15, (-2000, 2000), (-1500, 1500), 50);
    row("strips across strips", &[upright, level].concat(), 512);
}

/// Two rectangles, and two that overlap them.
fn two_and_two() -> Vec<i32> {
    overlapping()
        .map(|layer| layer[..2 * WORDS].to_vec())
        .concat()
}
