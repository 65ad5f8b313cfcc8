//! Fracture (paper: cutting).

use crate::{done, raw, Done, Refusal};

/// The most polygons in a polygon file.
pub const MAX_POLYGONS: usize = 64;

/// The fewest vertices in a polygon.
pub const MIN_VERTICES: usize = 3;

/// The most vertices in a polygon.
pub const MAX_VERTICES: usize = 32;

/// Writes the trapezoids of the polygons of a polygon file into `out`, polygon by polygon. Those of
/// one polygon are disjoint and hold the points whose winding number isn't 0; those of two polygons may
/// overlap, and [`deoverlap`](crate::deoverlap) takes them. The file is of the new
/// edition, in which length 0 stands for the vertices up to the next offset, or up to the end; a file of the
/// first edition is one of the new edition too.
///
/// The set of each trapezoid has `layer` and no other; above 31 it is refused with 14.
pub fn fracture(
    layer: u32,
    file: &[u8],
    out: &mut [i32],
    scratch: &mut [i32],
) -> Result<Done, Refusal> {
    done(raw::fracture(layer, file, out, scratch))
}

/// [`fracture`] of a file of the first edition: a length 0 is refused with 6.
pub fn fracture_first_edition(
    layer: u32,
    file: &[u8],
    out: &mut [i32],
    scratch: &mut [i32],
) -> Result<Done, Refusal> {
    done(raw::fracture_first_edition(layer, file, out, scratch))
}
