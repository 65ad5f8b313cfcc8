//! The benchmark's rows, in files by call.

mod combine;
mod components;
mod contains;
mod deoverlap;
mod equal;
mod files;
mod fracture;
pub mod growth;
mod layers;
pub mod longest;
mod operation;
mod timing;
mod transistors;

use timing::{digits, Timed, SAMPLES, SHORTEST};

/// The rows of all calls.
pub fn table() {
    println!("Times are microseconds of processor time for one call, the median of {SAMPLES} samples, library and Rust program in turn.");
    println!(
        "A sample is one call, or as many as take {} ms.",
        SHORTEST.as_millis()
    );
    println!("n: trapezoids of A, of B; for transistors of each layer; for fracture polygons, vertices of each.");
    println!("Outputs have 512 records; for 4 trapezoids and for one cell 16, for one overlay 5.");
    println!("One overlay: A - B and B - A in turn, the result is that of both.");
    println!("B empty: the search for overlaps in A, and no overlay. Overlap at the end: the last two trapezoids of A are the same, and the call is refused.");
    println!("contains, direct: beside a direct version, where the Rust program works out the whole result.");
    println!();
    println!("| kind                            | call                   |        n | result         | library | Rust program | library / Rust |");
    println!("|---------------------------------|------------------------|---------:|----------------|--------:|-------------:|---------------:|");
    combine::rows();
    deoverlap::rows();
    equal::rows();
    contains::rows();
    components::rows();
    transistors::rows();
    files::rows();
    fracture::rows();
}

/// Prints one row.
fn print(kind: &str, call: &str, n: &[usize], result: &str, timed: &Timed) {
    let n: Vec<String> = n.iter().map(usize::to_string).collect();
    println!(
        "| {kind:<31} | {call:<22} | {:>8} | {result:<14} | {:>7} | {:>12} | {:>14} |",
        n.join(", "),
        digits(timed.library),
        digits(timed.reference),
        digits(timed.library / timed.reference),
    );
}
