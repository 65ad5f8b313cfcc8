//! Combines two layers of a layer file.
//!
//! `cargo run --release --example combine -- ../examples/two.layers three.layers 0 0 1`
//!
//! Layers are numbered from 0. The result becomes one more layer after those read, so that later
//! calls can use it by its number; OUT may be the same file as IN. Prints the result's number and how
//! many pieces it has. Refused, as it is for a layer with overlaps, it prints why, writes nothing and ends
//! with 1; any other trouble ends with 2.

use loxurfa::{combine_by_number, decode_layers, encode_layers};
use loxurfa::{Refusal, MAX_LAYER_WORDS};
use std::ffi::{OsStr, OsString};
use std::io::{self, Write};
use std::process::ExitCode;
use std::{env, fs};

const USAGE: &str = "usage: combine IN OUT CODE A B
Writes the layers of IN and, as one more layer, A and B combined.
CODE: 0 union, 1 intersection, 2 A minus B, 3 B minus A, 4 symmetric difference";

/// Why there is no result.
enum Trouble {
    Refused(Refusal),
    Other(String),
}

impl From<Refusal> for Trouble {
    fn from(refusal: Refusal) -> Trouble {
        Trouble::Refused(refusal)
    }
}

fn number(text: &OsStr) -> Option<u32> {
    text.to_str()?.parse().ok()
}

fn run(arguments: &[OsString]) -> Result<String, Trouble> {
    let usage = || Trouble::Other(USAGE.to_string());
    let [input, output, code, a, b] = arguments else {
        return Err(usage());
    };
    let code = number(code).ok_or_else(usage)?;
    let (a, b) = (number(a).ok_or_else(usage)?, number(b).ok_or_else(usage)?);

    let named = |path: &OsStr, error| Trouble::Other(format!("{}: {error}", path.display()));
    let file = fs::read(input).map_err(|error| named(input, error))?;
    let mut layers = decode_layers(&file)?;
    let layer = |number: u32| {
        let missing = || Trouble::Other(format!("there is no layer {number}"));
        layers.get(number as usize).ok_or_else(missing)
    };

    let mut out = vec![0; MAX_LAYER_WORDS];
    let mut scratch = out.clone();
    let done = combine_by_number(code, layer(a)?, layer(b)?, &mut out, &mut scratch)?;
    out.truncate(done.words());
    let answer = format!("layer {} pieces {}", layers.len(), done.pieces);
    layers.push(out);
    let file = encode_layers(&layers)?;
    fs::write(output, file).map_err(|error| named(output, error))?;
    Ok(answer)
}

fn main() -> ExitCode {
    let arguments: Vec<OsString> = env::args_os().skip(1).collect();
    let (text, status) = match run(&arguments) {
        Ok(answer) => (answer, ExitCode::SUCCESS),
        Err(Trouble::Refused(refusal)) => (refusal.to_string(), ExitCode::FAILURE),
        Err(Trouble::Other(text)) => return failed(&text),
    };
    match writeln!(io::stdout(), "{text}") {
        Ok(()) => status,
        Err(error) => failed(&format!("standard output: {error}")),
    }
}

fn failed(text: &str) -> ExitCode {
    // Nothing is left to do where standard error takes no line either.
    let _ = writeln!(io::stderr(), "{text}");
    ExitCode::from(2)
}
