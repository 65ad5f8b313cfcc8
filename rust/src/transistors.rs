//! Transistors from three layers.

use crate::{raw, split, Refusal};

/// Words in one triple.
pub const TRIPLE_WORDS: usize = 3;

/// A transistor: the component numbers of its collector, base and emitter, each in its own layer.
#[derive(Clone, Copy, Debug, PartialEq, Eq, PartialOrd, Ord)]
pub struct Triple {
    /// In the collectors' layer.
    pub collector: u32,
    /// In the bases' layer.
    pub base: u32,
    /// In the emitters' layer.
    pub emitter: u32,
}

/// What a successful [`transistors`] wrote.
#[derive(Clone, Copy, Debug, PartialEq, Eq)]
pub struct Transistors {
    /// Triples in the list.
    pub triples: u32,
    /// Overlays of two trapezoids made.
    pub overlays: u32,
}

impl Transistors {
    /// Words of the triples in the list.
    pub fn words(&self) -> usize {
        self.triples as usize * TRIPLE_WORDS
    }

    /// The triples, out of the list that the call wrote.
    pub fn listed<'a>(&self, list: &'a [u32]) -> impl Iterator<Item = Triple> + 'a {
        let triples = list[..self.words()].chunks_exact(TRIPLE_WORDS);
        triples.map(|words| Triple {
            collector: words[0],
            base: words[1],
            emitter: words[2],
        })
    }
}

/// Lists the transistors of three layers. The shapes of a layer are its connected components, with
/// the numbers that [`components`](crate::components) gives. `list` gets each triple of a collector
/// that encloses a base that encloses an emitter, once, ascending by collector, then base, then
/// emitter, and 0 past the triples. `out` and `scratch` are room to work in.
///
/// There are at most as many triples as shapes of the emitters' layer: a list of [`TRIPLE_WORDS`] words
/// for each of its trapezoids is always long enough. One too short is refused with 12, a layer with
/// overlaps with 13.
///
/// ```
/// use loxurfa::{transistors, Triple};
///
/// // [x,x+width) by [x,x+width)
/// let square = |x: i32, width: i32| {
///     let end = x + width;
///     let bases = [0, 0, 1, 0, x, 0, x + 1, 1, 0, 0, 1, 0, end, 0, end + 1, 1];
///     [&bases[..], &[0, x, 1, x, 0, end, 1, end], &[0]].concat()
/// };
/// let (collectors, bases) = (square(0, 100), square(10, 50));
/// let emitters = [square(70, 10), square(20, 10)].concat();
/// let (mut list, mut out, mut scratch) = ([0; 6], [0; 250], [0; 250]);
/// let done = transistors(&collectors, &bases, &emitters, &mut list, &mut out, &mut scratch)?;
/// let triple = Triple { collector: 0, base: 0, emitter: 1 };
/// assert_eq!(done.listed(&list).collect::<Vec<_>>(), [triple]);
/// # Ok::<(), loxurfa::Refusal>(())
/// ```
pub fn transistors(
    collectors: &[i32],
    bases: &[i32],
    emitters: &[i32],
    list: &mut [u32],
    out: &mut [i32],
    scratch: &mut [i32],
) -> Result<Transistors, Refusal> {
    let answer = raw::transistors(collectors, bases, emitters, list, out, scratch);
    let (triples, overlays) = split(answer)?;
    Ok(Transistors { triples, overlays })
}
