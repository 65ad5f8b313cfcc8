//! How times grow with the number of trapezoids, and of vertices.

use super::components;
use super::fracture;
use super::layers::Apart;
use super::operation::Operation;
use super::timing::{digits, Timed};
use loxurfa::Code;

/// Trapezoids of each layer, as sides of grids.
const SIDES: [i32; 4] = [8, 12, 16, 22];

pub fn table() {
    println!();
    println!("How times grow with the trapezoids of a layer, on grids of rectangles that are apart: microseconds, and the exponent from the first size to the last.");
    println!();
    println!("| call          | by           |      64 |     144 |     256 |     484 | exponent |");
    println!("|---------------|--------------|--------:|--------:|--------:|--------:|---------:|");
    let [union, intersection, difference] =
        [Code::Union, Code::Intersection, Code::AMinusB].map(Operation::Combine);
    rows("intersection", &SIDES, |a, b| intersection.time(a, b, 512));
    rows("A - B", &SIDES, |a, b| difference.time(a, b, 512));
    // That of 484 and 484 has no room.
    rows("union", &SIDES[..3], |a, b| union.time(a, b, 512));
    rows("deoverlap", &SIDES, |a, _| {
        Operation::Deoverlap.time(a, &[], 512)
    });
    rows("equal, itself", &SIDES, |a, _| {
        Operation::Equal.time(a, a, 512)
    });
    rows("components", &SIDES, |a, _| components::time(a));
    println!();
    println!("And of fracture with the vertices of one random polygon.");
    println!();
    println!("| call          | by           |       8 |      16 |      32 | exponent |");
    println!("|---------------|--------------|--------:|--------:|--------:|---------:|");
    let times = fracture::GROWING.map(|count| fracture::time_one(fracture::with_room(count)));
    let larger = fracture::GROWING[2] as f64 / fracture::GROWING[0] as f64;
    print("fracture", &times, times.len(), larger);
}

/// The rows of a call.
fn rows(call: &str, sides: &[i32], time: impl Fn(&[i32], &[i32]) -> Timed) {
    let times: Vec<Timed> = sides
        .iter()
        .map(|&side| {
            let [a, b] = Apart::Grid.layers(side);
            time(&a, &b)
        })
        .collect();
    let larger = (sides[sides.len() - 1] as f64 / sides[0] as f64).powi(2);
    print(call, &times, SIDES.len(), larger);
}

/// Prints times in so many columns; the last size is so much larger than the first.
fn print(call: &str, times: &[Timed], columns: usize, larger: f64) {
    let by = |name: &str, time: fn(&Timed) -> f64| {
        let longer = time(&times[times.len() - 1]) / time(&times[0]);
        let mut cells: Vec<String> = times.iter().map(|t| digits(time(t))).collect();
        cells.resize(columns, "-".to_string());
        let cells: Vec<String> = cells.iter().map(|cell| format!("{cell:>7}")).collect();
        println!(
            "| {call:<13} | {name:<12} | {} | {:>8.2} |",
            cells.join(" | "),
            longer.ln() / larger.ln(),
        );
    };
    by("library", |t| t.library);
    by("Rust program", |t| t.reference);
}
