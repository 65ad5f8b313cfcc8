//! Lists the trapezoids of a polygon file.
//!
//! `cargo run --release --example list -- ../examples/plate.polygons`
//!
//! Fractures the polygons, deoverlaps what they give, each into 512 records, and prints `pieces` and
//! their number, then a line of 24 words for each trapezoid; or one line, `refused` with the
//! refusal's number, `place` with its place, and ends with 1. Any other trouble is told on standard
//! error and ends with 2. Without a path it reads standard input.

use loxurfa::{deoverlap, fracture, trapezoids, Refusal, MAX_LAYER_WORDS};
use std::io::{self, Read, Write};
use std::process::ExitCode;
use std::{env, fs};

/// The words of the polygons' trapezoids, without overlaps. Their layer's number does not show in a listing.
fn cut(file: &[u8]) -> Result<Vec<i32>, Refusal> {
    let room = || vec![0; MAX_LAYER_WORDS];
    let (mut layer, mut out, mut scratch) = (room(), room(), room());
    let done = fracture(0, file, &mut layer, &mut scratch)?;
    layer.truncate(done.words());
    let done = deoverlap(&layer, &mut out, &mut scratch)?;
    out.truncate(done.words());
    Ok(out)
}

fn listing(layer: &[i32]) -> String {
    let mut text = format!("pieces {}\n", trapezoids(layer).count());
    for trapezoid in trapezoids(layer) {
        let words: Vec<String> = trapezoid.lines.iter().map(i32::to_string).collect();
        text += &words.join(" ");
        text += "\n";
    }
    text
}

fn input(path: Option<impl AsRef<std::path::Path>>) -> io::Result<Vec<u8>> {
    match path {
        Some(path) => fs::read(path),
        None => {
            let mut file = Vec::new();
            io::stdin().read_to_end(&mut file)?;
            Ok(file)
        }
    }
}

/// Prints the listing and gives the status.
fn run() -> Result<ExitCode, String> {
    let mut arguments = env::args_os().skip(1);
    let path = arguments.next();
    if arguments.next().is_some() {
        return Err("usage: list [FILE]".to_string());
    }
    let file = input(path).map_err(|error| format!("list: {error}"))?;
    let (text, status) = match cut(&file) {
        Ok(layer) => (listing(&layer), ExitCode::SUCCESS),
        Err(refusal) => (format!("{refusal}\n"), ExitCode::FAILURE),
    };
    let mut out = io::stdout();
    out.write_all(text.as_bytes())
        .and_then(|()| out.flush())
        .map_err(|error| format!("list: standard output: {error}"))?;
    Ok(status)
}

fn main() -> ExitCode {
    run().unwrap_or_else(|text| {
        // Nothing is left to do where standard error takes no line either.
        let _ = writeln!(io::stderr(), "{text}");
        ExitCode::from(2)
    })
}
