//! Times the library and the tests' Rust program on the same inputs.
//!
//! `cargo run --release --example benchmark`; `-- --longest` times the longest call found instead.

#[path = "../tests/reference/mod.rs"]
mod reference;
mod rows;
#[path = "../tests/support/mod.rs"]
mod support;

fn main() {
    let arguments: Vec<String> = std::env::args().skip(1).collect();
    match arguments.as_slice() {
        [] => {
            rows::table();
            rows::growth::table();
        }
        [longest] if longest == "--longest" => rows::longest::call(),
        _ => {
            eprintln!("usage: benchmark [--longest]");
            std::process::exit(2);
        }
    }
}
