//! Exact set operations on layers of trapezoids, their connected components, and transistors from
//! three layers.
//!
//! A layer is a slice of `i32` words, 25 for each trapezoid: left base (two lines), right base
//! (two lines), bottom, top, and the set of its source layers. A line is x1 y1 x2 y2 with x1 < x2, each
//! from -2048 to 2048. The set has a bit for each of the layers 0 to 31 ([`Sources`]); [`trapezoids`] reads
//! the words of a layer. No call is refused for a set, and no answer depends on one.
//!
//! [`combine`], [`equal`], [`components`] and [`transistors`] refuse a layer in which two trapezoids
//! overlap ([`refused::OVERLAP`]); the other calls take it. What [`deoverlap`] and [`combine`] write
//! has no overlaps.
//!
//! docs/CALLS.md of the repository says what each call takes, answers and writes, and has the table of
//! refusals and the rule of space; docs/FORMATS.md has the files.

#![deny(unsafe_op_in_unsafe_fn)]

/// The README's Rust example, which `cargo test` runs.
#[cfg(doctest)]
#[doc = include_str!("../../README.md")]
pub struct Readme;

mod components;
mod files;
mod fracture;
mod sources;
mod transistors;

pub use components::components;
pub use files::{decode_layers, encode_layers, read_layers, write_layers};
pub use files::{MAX_LAYERS, MAX_LAYER_FILE_BYTES, MAX_LAYER_FILE_WORDS};
pub use fracture::{fracture, fracture_first_edition};
pub use fracture::{MAX_POLYGONS, MAX_VERTICES, MIN_VERTICES};
pub use sources::{trapezoids, Sources, Trapezoid, SOURCE_LAYERS};
pub use transistors::{transistors, Transistors, Triple, TRIPLE_WORDS};

/// Words in one trapezoid in memory: its six lines, and the set of its source layers.
pub const TRAPEZOID_WORDS: usize = 25;

/// Words in one trapezoid in a layer file, and in a line of the listing: its six lines.
pub const FILE_TRAPEZOID_WORDS: usize = 24;

/// The most trapezoids in one layer or output.
pub const MAX_TRAPEZOIDS: usize = 512;

/// The most words in one layer, output or scratch area.
pub const MAX_LAYER_WORDS: usize = TRAPEZOID_WORDS * MAX_TRAPEZOIDS;

/// Coordinates are from -PLATE_LIMIT to PLATE_LIMIT.
pub const PLATE_LIMIT: i32 = 2048;

/// The largest denominator of a point.
pub const MAX_DENOMINATOR: i32 = 1024;

/// The most bytes of a file.
pub const MAX_FILE_BYTES: usize = 65_532;

/// Bytes of stack, more than any call takes.
pub const STACK_BYTES: usize = 262_144;

/// The numbers of refusals, by what is refused.
pub mod refused {
    /// The length of a layer, an output, a scratch area or a list of numbers.
    pub const LENGTH: u8 = 1;
    /// The code.
    pub const CODE: u8 = 2;
    /// The point.
    pub const POINT: u8 = 3;
    /// The number of a file's bytes.
    pub const FILE: u8 = 4;
    /// The number of polygons or layers.
    pub const COUNT: u8 = 5;
    /// An offset or a length, or the file's end.
    pub const PAIR: u8 = 6;
    /// A coordinate.
    pub const GRID: u8 = 7;
    /// A line.
    pub const LINE: u8 = 8;
    /// A base.
    pub const BASE: u8 = 9;
    /// The order of the bases.
    pub const BASES: u8 = 10;
    /// Bottom and top.
    pub const SIDES: u8 = 11;
    /// No space.
    pub const SPACE: u8 = 12;
    /// Two trapezoids of one layer that overlap. Checked before the space.
    pub const OVERLAP: u8 = 13;
    /// The number of a source layer. Checked after the lengths and before the file.
    pub const LAYER: u8 = 14;
}

/// Which set operation.
#[derive(Clone, Copy, Debug, PartialEq, Eq)]
pub enum Code {
    /// In A or in B.
    Union = 0,
    /// In A and in B.
    Intersection = 1,
    /// In A and not in B.
    AMinusB = 2,
    /// In B and not in A.
    BMinusA = 3,
    /// In exactly one of them.
    SymmetricDifference = 4,
}

impl Code {
    /// All five, by number.
    pub const ALL: [Code; 5] = [
        Code::Union,
        Code::Intersection,
        Code::AMinusB,
        Code::BMinusA,
        Code::SymmetricDifference,
    ];
}

/// Why a call was refused.
#[derive(Clone, Copy, Debug, PartialEq, Eq)]
pub struct Refusal {
    /// The refusal's number, one of [`refused`].
    pub number: u8,
    /// Where it was met: what is counted depends on number and call (docs/CALLS.md, "Refusals").
    pub place: u32,
}

impl std::fmt::Display for Refusal {
    fn fmt(&self, f: &mut std::fmt::Formatter<'_>) -> std::fmt::Result {
        write!(f, "refused {} place {}", self.number, self.place)
    }
}

impl std::error::Error for Refusal {}

/// What a successful operation wrote.
#[derive(Clone, Copy, Debug, PartialEq, Eq)]
pub struct Done {
    /// Trapezoids in the output.
    pub pieces: u32,
    /// Overlays of two trapezoids made.
    pub overlays: u32,
}

impl Done {
    /// Words of the trapezoids in the output.
    pub fn words(&self) -> usize {
        self.pieces as usize * TRAPEZOID_WORDS
    }
}

/// The answer of [`equal`].
#[derive(Clone, Copy, Debug, PartialEq, Eq)]
pub enum Equality {
    /// Both layers hold the same points.
    Same { overlays: u32 },
    /// Operand 0: A - B is not empty. Operand 1: A - B is empty, B - A is not.
    Differs { operand: u8, overlays: u32 },
}

/// Combines layers A and B into `out`. The result has no overlaps. A layer that has some is refused
/// with 13.
///
/// A trapezoid of a difference keeps the set of the one that it is a part of, a trapezoid of an
/// intersection has the sets of both joined. A union is A, with its sets, and then B - A, with those of B:
/// where A lies the sets of B are dropped.
pub fn combine(
    code: Code,
    a: &[i32],
    b: &[i32],
    out: &mut [i32],
    scratch: &mut [i32],
) -> Result<Done, Refusal> {
    combine_by_number(code as u32, a, b, out, scratch)
}

/// [`combine`] with the code as a number. Above 4 it is refused with 2. A layer with overlaps is refused
/// with 13.
pub fn combine_by_number(
    code: u32,
    a: &[i32],
    b: &[i32],
    out: &mut [i32],
    scratch: &mut [i32],
) -> Result<Done, Refusal> {
    done(raw::combine(code, a, b, out, scratch))
}

/// Writes disjoint trapezoids with the same points as layer A, which may have overlaps, into `out`. Each
/// keeps the set of the one that it is a part of.
pub fn deoverlap(a: &[i32], out: &mut [i32], scratch: &mut [i32]) -> Result<Done, Refusal> {
    done(raw::deoverlap(a, out, scratch))
}

/// Whether layers A and B hold the same points. `out` and `scratch` are room to work in. A layer with
/// overlaps is refused with 13.
pub fn equal(
    a: &[i32],
    b: &[i32],
    out: &mut [i32],
    scratch: &mut [i32],
) -> Result<Equality, Refusal> {
    let (value, overlays) = split(raw::equal(a, b, out, scratch))?;
    Ok(match value {
        0 => Equality::Same { overlays },
        _ => Equality::Differs {
            operand: (value - 1) as u8,
            overlays,
        },
    })
}

/// Whether the point (x / d, y / d) lies in layers A and B combined by `code`. They may have overlaps.
pub fn contains(x: i32, y: i32, d: i32, a: &[i32], b: &[i32], code: Code) -> Result<bool, Refusal> {
    contains_by_number(x, y, d, a, b, code as u32)
}

/// [`contains`] with the code as a number. Above 4 it is refused with 2.
pub fn contains_by_number(
    x: i32,
    y: i32,
    d: i32,
    a: &[i32],
    b: &[i32],
    code: u32,
) -> Result<bool, Refusal> {
    let (value, _) = split(raw::contains(x, y, d, a, b, code))?;
    Ok(value != 0)
}

/// Takes an answer apart: value and overlays, or the refusal.
fn split(answer: u64) -> Result<(u32, u32), Refusal> {
    if answer >> 63 == 1 {
        return Err(Refusal {
            number: (answer >> 32) as u8,
            place: answer as u32,
        });
    }
    Ok(((answer >> 32) as u32, answer as u32))
}

/// Reads an answer that counts trapezoids.
fn done(answer: u64) -> Result<Done, Refusal> {
    let (pieces, overlays) = split(answer)?;
    Ok(Done { pieces, overlays })
}

/// The calls with their answers as the library gives them (docs/CALLS.md, "Answers").
pub mod raw {
    mod components;
    mod files;
    mod fracture;
    mod transistors;

    pub use components::components;
    pub use files::{read_layers, write_layers};
    pub use fracture::{fracture, fracture_first_edition};
    pub use transistors::transistors;

    mod c {
        extern "C" {
            pub fn loxurfa_combine(
                code: u32,
                a: *const i32,
                a_len: usize,
                b: *const i32,
                b_len: usize,
                out: *mut i32,
                out_len: usize,
                scratch: *mut i32,
                scratch_len: usize,
            ) -> u64;

            pub fn loxurfa_deoverlap(
                a: *const i32,
                a_len: usize,
                out: *mut i32,
                out_len: usize,
                scratch: *mut i32,
                scratch_len: usize,
            ) -> u64;

            pub fn loxurfa_equal(
                a: *const i32,
                a_len: usize,
                b: *const i32,
                b_len: usize,
                out: *mut i32,
                out_len: usize,
                scratch: *mut i32,
                scratch_len: usize,
            ) -> u64;

            pub fn loxurfa_contains(
                x: i32,
                y: i32,
                d: i32,
                a: *const i32,
                a_len: usize,
                b: *const i32,
                b_len: usize,
                code: u32,
            ) -> u64;
        }
    }

    /// The value is the number of trapezoids written. Layers with overlaps are refused with 13.
    pub fn combine(code: u32, a: &[i32], b: &[i32], out: &mut [i32], scratch: &mut [i32]) -> u64 {
        // SAFETY: each pointer and length is one Rust slice, alive during the call. The library
        // reads a and b, which may be the same, and writes only within out and scratch, which
        // overlap nothing.
        unsafe {
            c::loxurfa_combine(
                code,
                a.as_ptr(),
                a.len(),
                b.as_ptr(),
                b.len(),
                out.as_mut_ptr(),
                out.len(),
                scratch.as_mut_ptr(),
                scratch.len(),
            )
        }
    }

    /// The value is the number of trapezoids written.
    pub fn deoverlap(a: &[i32], out: &mut [i32], scratch: &mut [i32]) -> u64 {
        // SAFETY: as in `combine`.
        unsafe {
            c::loxurfa_deoverlap(
                a.as_ptr(),
                a.len(),
                out.as_mut_ptr(),
                out.len(),
                scratch.as_mut_ptr(),
                scratch.len(),
            )
        }
    }

    /// The value is 0 for same, 1 for differs with operand 0, 2 for differs with operand 1. Layers with
    /// overlaps are refused with 13.
    pub fn equal(a: &[i32], b: &[i32], out: &mut [i32], scratch: &mut [i32]) -> u64 {
        // SAFETY: as in `combine`.
        unsafe {
            c::loxurfa_equal(
                a.as_ptr(),
                a.len(),
                b.as_ptr(),
                b.len(),
                out.as_mut_ptr(),
                out.len(),
                scratch.as_mut_ptr(),
                scratch.len(),
            )
        }
    }

    /// The value is 1 for yes, 0 for no.
    pub fn contains(x: i32, y: i32, d: i32, a: &[i32], b: &[i32], code: u32) -> u64 {
        // SAFETY: each pointer and length is one Rust slice, alive during the call, only read.
        unsafe { c::loxurfa_contains(x, y, d, a.as_ptr(), a.len(), b.as_ptr(), b.len(), code) }
    }
}
