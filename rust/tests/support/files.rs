//! Polygon files and layer files for the tests, fit and damaged.

use super::Random;
use crate::reference::{FILE_WORDS, WORDS};

/// The words of a file: the count, offset and length of each entry in units, the entries.
pub fn file_words(entries: &[Vec<i32>], unit: usize) -> Vec<i32> {
    let mut words = vec![entries.len() as i32];
    let mut offset = 0;
    for entry in entries {
        let length = (entry.len() / unit) as i32;
        words.extend([offset, length]);
        offset += length;
    }
    words.extend(entries.concat());
    words
}

/// The words of layers of which a trapezoid has `unit` words: FILE_WORDS in a file, where sets are left out, or
/// WORDS in memory.
pub fn layers_words(layers: &[Vec<i32>], unit: usize) -> Vec<i32> {
    let kept = |record: &[i32]| record[..record.len().min(unit)].to_vec();
    let entries: Vec<Vec<i32>> = layers
        .iter()
        .map(|layer| layer.chunks(WORDS).flat_map(kept).collect())
        .collect();
    file_words(&entries, unit)
}

/// The words of a layer file.
pub fn layer_file_words(layers: &[Vec<i32>]) -> Vec<i32> {
    layers_words(layers, FILE_WORDS)
}

/// The bytes of a file, low byte first.
pub fn file_bytes(words: &[i32]) -> Vec<u8> {
    words.iter().flat_map(|word| word.to_le_bytes()).collect()
}

/// A length about as long as needed.
pub fn about(random: &mut Random, needed: usize) -> usize {
    match random.below(12) {
        0..=3 => needed,
        4 | 5 => needed.saturating_sub(1),
        6 => needed + 1,
        7 => needed + random.below(100),
        8 => random.below(needed + 1),
        9 => needed.saturating_sub(random.below(30)),
        10 => random.below(30),
        _ => 0,
    }
}

/// A number close to the right one, or far off.
fn off(random: &mut Random, right: i32) -> i32 {
    match random.below(12) {
        0 | 1 => right.wrapping_add(1),
        2 | 3 => right.wrapping_sub(1),
        4 => right.wrapping_neg(),
        5 => right.wrapping_mul(*random.pick(&[24, 25])),
        6 => right | i32::MIN,
        7 => right.wrapping_add(1 << random.below(32)),
        8 => random.next() as i32,
        9 => random.range(-3, 70),
        10 => *random.pick(&[512, 513, 511, 16, 17, 64, 65, 32, 33]),
        _ => *random.pick(&[i32::MIN, i32::MAX, -1, 0, 1 << 30, 1 << 31]),
    }
}

/// Leaves out lengths of a polygon file: one, all, or each in turn by chance.
pub fn leave_out(random: &mut Random, words: &mut [i32]) {
    let count = words[0] as usize;
    if count == 0 {
        return;
    }
    let one = random.below(count);
    let kind = random.below(3);
    for pair in 0..count {
        let left_out = match kind {
            0 => pair == one,
            1 => true,
            _ => random.once_in(2),
        };
        if left_out {
            words[2 + 2 * pair] = 0;
        }
    }
}

/// Makes a file wrong in its count, pairs or number of words, mostly. A unit has `unit` words.
pub fn damage_file(random: &mut Random, words: &mut Vec<i32>, unit: usize) {
    let count = words.first().map_or(0, |&count| count.clamp(0, 100)) as usize;
    let pairs = count.min(words.len().saturating_sub(1) / 2);
    let random_pair = if pairs > 0 { random.below(pairs) } else { 0 };
    match random.below(16) {
        0 | 1 if !words.is_empty() => words[0] = off(random, words[0]),
        // An offset, a length.
        2 | 3 if pairs > 0 => words[1 + 2 * random_pair] = off(random, words[1 + 2 * random_pair]),
        4 | 5 if pairs > 0 => words[2 + 2 * random_pair] = off(random, words[2 + 2 * random_pair]),
        // A length, with the later offsets to match.
        6 if pairs > 0 => {
            let length = off(random, words[2 + 2 * random_pair]);
            words[2 + 2 * random_pair] = length;
            let mut offset = 0i32;
            for pair in 0..pairs {
                words[1 + 2 * pair] = offset;
                offset = offset.wrapping_add(words[2 + 2 * pair]);
            }
        }
        // All offsets from 1, or in words, or in bytes.
        7 if pairs > 0 => {
            let kind = random.below(3);
            for pair in 0..pairs {
                let offset = &mut words[1 + 2 * pair];
                *offset = match kind {
                    0 => offset.wrapping_add(1),
                    1 => offset.wrapping_mul(unit as i32),
                    _ => offset.wrapping_mul(4),
                };
            }
        }
        // Two pairs in the wrong order.
        8 if pairs > 1 => {
            let other = random.below(pairs);
            words.swap(1 + 2 * random_pair, 1 + 2 * other);
            words.swap(2 + 2 * random_pair, 2 + 2 * other);
        }
        // One pair more or less.
        9 => {
            let at = (1 + 2 * random_pair).min(words.len());
            words.splice(at..at, [0, 0]);
        }
        10 if pairs > 0 => {
            words.drain(1 + 2 * random_pair..3 + 2 * random_pair);
        }
        // Words missing or too many.
        11 => {
            let at = random.below(words.len() + 1);
            words.insert(at, random.range(-3, 3));
        }
        12 if !words.is_empty() => {
            words.remove(random.below(words.len()));
        }
        13 => {
            let more = *random.pick(&[1, 2, unit - 1, unit, unit + 1, 3 * unit]);
            words.extend(random.garbage(more));
        }
        14 => {
            let fewer = *random.pick(&[1, 2, unit - 1, unit, unit + 1, 3 * unit]);
            words.truncate(words.len().saturating_sub(fewer));
        }
        _ => words.truncate(random.below(words.len() + 1)),
    }
}

/// Makes a file's length wrong, mostly.
pub fn damage_bytes(random: &mut Random, file: &mut Vec<u8>) {
    match random.below(5) {
        0 => {
            file.pop();
        }
        1 => file.extend(vec![0; 1 + random.below(4)]),
        2 => file.truncate(random.below(file.len() + 1)),
        3 => file.truncate(random.below(6)),
        _ => file.resize(65_520 + random.below(24), 0),
    }
}
