//! Layer files (paper: books).

use crate::{raw, split, Refusal};
use crate::{FILE_TRAPEZOID_WORDS, MAX_TRAPEZOIDS, TRAPEZOID_WORDS};

/// The most layers in a layer file.
pub const MAX_LAYERS: usize = 16;

/// The words of the largest layer file in memory: room for any to be read.
pub const MAX_LAYER_FILE_WORDS: usize = 1 + 2 * MAX_LAYERS + TRAPEZOID_WORDS * MAX_TRAPEZOIDS;

/// The bytes of the largest layer file: room for any to be written.
pub const MAX_LAYER_FILE_BYTES: usize =
    4 * (1 + 2 * MAX_LAYERS + FILE_TRAPEZOID_WORDS * MAX_TRAPEZOIDS);

/// Reads a layer file into words: the number of layers, offset and length of each in trapezoids,
/// then the trapezoids, [`TRAPEZOID_WORDS`] words each. A file has no sets: each trapezoid gets an empty one.
/// Answers the number of trapezoids. Those of a layer may overlap.
pub fn read_layers(file: &[u8], out: &mut [i32]) -> Result<u32, Refusal> {
    let (pieces, _) = split(raw::read_layers(file, out))?;
    Ok(pieces)
}

/// Writes words such as [`read_layers`] gives as a layer file, without the sets. Answers the number of
/// trapezoids. Those of a layer may overlap.
pub fn write_layers(words: &[i32], out: &mut [u8]) -> Result<u32, Refusal> {
    let (pieces, _) = split(raw::write_layers(words, out))?;
    Ok(pieces)
}

/// The layers of a layer file, each as the words of its trapezoids, with empty sets. Refused as
/// [`read_layers`] is, but never for space.
pub fn decode_layers(file: &[u8]) -> Result<Vec<Vec<i32>>, Refusal> {
    let mut words = vec![0; MAX_LAYER_FILE_WORDS];
    read_layers(file, &mut words)?;
    let pairs = 2 * words[0] as usize;
    let (directory, mut rest) = words[1..].split_at(pairs);
    let mut layers = Vec::new();
    for pair in directory.chunks(2) {
        let (layer, later) = rest.split_at(pair[1] as usize * TRAPEZOID_WORDS);
        layers.push(layer.to_vec());
        rest = later;
    }
    Ok(layers)
}

/// The layer file with these layers, each given as the words of its trapezoids. The sets are dropped.
/// Refused as [`write_layers`] is, but never for space; layers that aren't whole trapezoids with 6.
pub fn encode_layers<L: AsRef<[i32]>>(layers: &[L]) -> Result<Vec<u8>, Refusal> {
    // What is past 32 bits is out of range in any case.
    let word = |number: usize| i32::try_from(number).unwrap_or(i32::MAX);
    let mut words = vec![word(layers.len())];
    let mut offset = 0;
    for layer in layers {
        let length = layer.as_ref().len() / TRAPEZOID_WORDS;
        words.extend([word(offset), word(length)]);
        offset += length;
    }
    for layer in layers {
        words.extend(layer.as_ref());
    }
    let mut file = vec![0; MAX_LAYER_FILE_BYTES];
    let pieces = write_layers(&words, &mut file)? as usize;
    file.truncate(4 * (1 + 2 * layers.len() + FILE_TRAPEZOID_WORDS * pieces));
    Ok(file)
}
