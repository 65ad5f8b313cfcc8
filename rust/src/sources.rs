//! Sets of source layers, and the trapezoids of a layer's words with their sets.

use crate::{FILE_TRAPEZOID_WORDS, TRAPEZOID_WORDS};
use std::fmt;
use std::ops::{BitOr, BitOrAssign};

/// How many source layers there are: 0 to 31.
pub const SOURCE_LAYERS: u32 = 32;

/// A set of source layers, the last word of a trapezoid: bit k is set if layer k is in it. Every word is a
/// set; layer 31 makes it negative.
///
/// A layer in the set says where the trapezoid came from: it is a part of a trapezoid of that layer. A layer
/// that is not in it says nothing: a union drops the sets of B where A lies, and a layer file has none.
///
/// ```
/// use loxurfa::Sources;
///
/// let both = Sources::single(2) | Sources::single(31);
/// assert!(both.contains(2) && both.contains(31) && !both.contains(3));
/// assert_eq!(both.layers().collect::<Vec<_>>(), [2, 31]);
/// assert_eq!(Sources::from_word(both.word()), both);
/// assert!(both.word() < 0 && Sources::EMPTY.is_empty());
/// ```
#[derive(Clone, Copy, Default, PartialEq, Eq, Hash)]
pub struct Sources(u32);

impl Sources {
    /// No layer.
    pub const EMPTY: Sources = Sources(0);

    /// One layer, 0 to 31; for any other number the empty set.
    pub const fn single(layer: u32) -> Sources {
        match 1u32.checked_shl(layer) {
            Some(bit) => Sources(bit),
            None => Sources::EMPTY,
        }
    }

    /// The set that a word is.
    pub const fn from_word(word: i32) -> Sources {
        Sources(word as u32)
    }

    /// The word that the set is.
    pub const fn word(self) -> i32 {
        self.0 as i32
    }

    /// Whether no layer is in the set.
    pub const fn is_empty(self) -> bool {
        self.0 == 0
    }

    /// Whether this layer is in the set.
    pub const fn contains(self, layer: u32) -> bool {
        self.0 & Sources::single(layer).0 != 0
    }

    /// The layers in the set, ascending.
    pub fn layers(self) -> impl Iterator<Item = u32> {
        (0..SOURCE_LAYERS).filter(move |&layer| self.contains(layer))
    }
}

/// Both sets joined.
impl BitOr for Sources {
    type Output = Sources;

    fn bitor(self, other: Sources) -> Sources {
        Sources(self.0 | other.0)
    }
}

impl BitOrAssign for Sources {
    fn bitor_assign(&mut self, other: Sources) {
        self.0 |= other.0;
    }
}

impl fmt::Debug for Sources {
    fn fmt(&self, f: &mut fmt::Formatter<'_>) -> fmt::Result {
        f.debug_set().entries(self.layers()).finish()
    }
}

/// A trapezoid of a layer's words.
#[derive(Clone, Copy, Debug, PartialEq, Eq)]
pub struct Trapezoid<'a> {
    /// Its six lines, [`FILE_TRAPEZOID_WORDS`] words.
    pub lines: &'a [i32],
    /// The set of its source layers.
    pub sources: Sources,
}

/// The trapezoids of a layer's words, in order. A rest that is not a whole trapezoid is left out.
///
/// ```
/// use loxurfa::{combine, trapezoids, Code, Sources};
///
/// // [x,x+2) by [0,2), from this layer
/// let square = |x: i32, layer: u32| {
///     let bases = [0, 0, 1, 0, x, 0, x + 1, 1, 0, 0, 1, 0, x + 2, 0, x + 3, 1];
///     [&bases[..], &[0, 0, 1, 0, 0, 2, 1, 2], &[Sources::single(layer).word()]].concat()
/// };
/// let (mut out, mut scratch) = ([0; 75], [0; 75]);
/// let done = combine(Code::Intersection, &square(0, 4), &square(1, 7), &mut out, &mut scratch)?;
/// let both = trapezoids(&out[..done.words()]).next().expect("one");
/// assert_eq!(both.sources.layers().collect::<Vec<_>>(), [4, 7]);
/// # Ok::<(), loxurfa::Refusal>(())
/// ```
pub fn trapezoids(layer: &[i32]) -> impl Iterator<Item = Trapezoid<'_>> {
    let records = layer.chunks_exact(TRAPEZOID_WORDS);
    records.map(|words| Trapezoid {
        lines: &words[..FILE_TRAPEZOID_WORDS],
        sources: Sources::from_word(words[FILE_TRAPEZOID_WORDS]),
    })
}
