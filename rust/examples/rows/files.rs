//! Rows for layer files.

use super::layers::Apart;
use super::print;
use super::timing::{in_turn, Timed};
use crate::reference::{self, WORDS};
use crate::support::files::{file_bytes, layer_file_words, layers_words};
use loxurfa::raw;
use std::hint::black_box;

pub fn rows() {
    let [a, _] = Apart::Grid.layers(22);
    let words = layers_words(&[a.clone()], WORDS);
    let file = file_bytes(&layer_file_words(&[a]));

    let (mut out, mut right) = (vec![1; words.len()], vec![1; words.len()]);
    let timed = in_turn(
        || raw::read_layers(black_box(&file), &mut out),
        || reference::files::read_layers(black_box(&file), &mut right),
    );
    assert!(out == words && right == words, "they disagree");
    row("read_layers", &timed);

    let (mut out, mut right) = (vec![1; file.len()], vec![1; file.len()]);
    let timed = in_turn(
        || raw::write_layers(black_box(&words), &mut out),
        || reference::files::write_layers(black_box(&words), &mut right),
    );
    assert!(out == file && right == file, "they disagree");
    row("write_layers", &timed);
}

fn row(call: &str, timed: &Timed) {
    let trapezoids = timed.answer >> 32;
    let result = format!("{trapezoids} trapezoids");
    print("layer file", call, &[trapezoids as usize], &result, timed);
}
