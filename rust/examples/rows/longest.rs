//! The longest call found: 512 triangles less 512 strips.

use super::operation::{Area, Operation};
use super::timing::{digits, processor_time};
use crate::reference::Line;
use crate::support::{level, mark, rectangle, six_lines};
use loxurfa::Code;

pub fn call() {
    let (triangles, strips) = (triangles(), strips());
    let minus = Operation::Combine(Code::AMinusB);
    let (mut area, mut right) = (Area::new(512), Area::new(512));
    let (library, answer) = once(|| minus.library(&triangles, &strips, &mut area));
    let (reference, right_answer) = once(|| minus.reference(&triangles, &strips, &mut right));
    assert!(answer == right_answer && area == right, "they disagree");
    assert!(answer >> 63 == 0, "refused");
    println!(
        "Seconds of processor time for one call each, no medians: 512 triangles less 512 strips."
    );
    println!();
    println!("| call  |  overlays | library | Rust program | library / Rust |");
    println!("|-------|----------:|--------:|-------------:|---------------:|");
    println!(
        "| {} | {:>9} | {:>7} | {:>12} | {:>14} |",
        minus.name(),
        answer as u32,
        digits(library),
        digits(reference),
        digits(library / reference),
    );
}

/// The seconds that a call takes, and its answer.
fn once(call: impl FnOnce() -> u64) -> (f64, u64) {
    let start = processor_time();
    let answer = call();
    ((processor_time() - start).as_secs_f64(), answer)
}

/// Side by side, each as high as the grid: its top rises from the lower edge to the upper one.
fn triangles() -> Vec<i32> {
    let triangle = |k: i32| {
        let (left, right) = (8 * k - 2048, 8 * k - 2040);
        let top = Line::new(&[left, -2048, right, 2048]);
        six_lines(mark(left), mark(right), level(-2048), top)
    };
    (0..512).flat_map(triangle).collect()
}

/// Across the whole grid, from the upper edge to the lower one. Each takes the upper end off all columns that
/// those before it have left of a triangle, and divides the leftmost of them in two where its bottom crosses the
/// triangle's top: 512 columns in the end, which the last strip takes.
fn strips() -> Vec<i32> {
    let strip = |k: i32| rectangle(-2048, 2048, 2040 - 8 * k, 2048 - 8 * k);
    (0..512).flat_map(strip).collect()
}
