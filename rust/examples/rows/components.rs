//! Rows for connected components.

use super::layers::{touching, Apart};
use super::operation::overlap;
use super::print;
use super::timing::{in_turn, Timed};
use crate::reference::{self, WORDS};
use crate::support::shapes::{chequers, comb, reordered, snake, tiles};
use crate::support::Random;
use loxurfa::raw;
use std::hint::black_box;

pub fn rows() {
    row("comb, backbone last", &comb(511));
    for apart in Apart::ALL {
        let [a, _] = apart.layers(22);
        row(&apart.name(22), &a);
    }
    row("tiles", &tiles());
    row("squares with common corners", &chequers(16, 16));
    let mut order: Vec<usize> = (0..512).collect();
    row("snake", &snake());
    order.reverse();
    row("snake from its end", &reordered(&snake(), &order));
    Random(1).shuffle(&mut order);
    row("snake in random order", &reordered(&snake(), &order));
    let [a, _] = Apart::Grid.layers(2);
    row("apart, 2 by 2", &a);
    row("touching, two and two", &touching());
    let last = Apart::Grid.overlap_at_the_end();
    let timed = time_any(&last);
    let kind = format!("overlap at the end, {}", Apart::Grid.shape());
    print(&kind, "components", &[512], overlap(&timed), &timed);
}

/// Times both. They must write the same.
pub fn time(layer: &[i32]) -> Timed {
    let timed = time_any(layer);
    assert!(timed.answer >> 63 == 0, "refused");
    timed
}

/// The same of a layer that is refused or not.
fn time_any(layer: &[i32]) -> Timed {
    let mut numbers = vec![1; layer.len() / WORDS];
    let mut right = numbers.clone();
    let timed = in_turn(
        || raw::components(black_box(layer), &mut numbers),
        || reference::components::components(black_box(layer), &mut right),
    );
    assert!(numbers == right, "they disagree");
    timed
}

fn row(kind: &str, layer: &[i32]) {
    let timed = time(layer);
    let result = match timed.answer >> 32 {
        1 => "1 component".to_string(),
        many => format!("{many} components"),
    };
    print(kind, "components", &[layer.len() / WORDS], &result, &timed);
}
