//! Connected components.

use crate::{raw, split, Refusal};

/// Gives each trapezoid of layer A the lowest number of a trapezoid in its connected component and
/// answers the number of components. `numbers` has one entry for each trapezoid. Two trapezoids touch
/// if their closed forms share at least two different points: part of an edge is enough, one corner
/// is not. A layer with overlaps is refused with 13.
pub fn components(a: &[i32], numbers: &mut [u32]) -> Result<u32, Refusal> {
    let (components, _) = split(raw::components(a, numbers))?;
    Ok(components)
}
