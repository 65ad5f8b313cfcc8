//! Polygon files and layer files (paper: sheets and books).

use super::{accepted, refuse_if, refused, unfit, Refusal};
use super::{FILE_WORDS, LIMIT, NO_SPACE, WORDS};

/// The longest file, in bytes.
pub const LONGEST_FILE: usize = 65_532;

/// What a kind of file allows.
struct Kind {
    /// The most entries (polygons or layers).
    most: i32,
    /// The shortest and the longest entry, in units.
    shortest: i64,
    longest: i64,
    /// The most units in all.
    total: i64,
    /// Words in a unit (a vertex or a trapezoid).
    unit: i64,
    /// Whether 0 stands for a length that is left out.
    left_out: bool,
}

/// The editions of polygon files.
#[derive(Clone, Copy, Debug, PartialEq, Eq)]
pub enum Edition {
    First,
    New,
}

fn polygons(edition: Edition) -> Kind {
    Kind {
        most: 64,
        shortest: 3,
        longest: 32,
        total: 64 * 32,
        unit: 2,
        left_out: edition == Edition::New,
    }
}

/// Layers whose trapezoids have so many words: those of a file, or those in memory.
fn layers(unit: usize) -> Kind {
    Kind {
        most: 16,
        shortest: 0,
        longest: 512,
        total: 512,
        unit: unit as i64,
        left_out: false,
    }
}

/// The words of a file, low byte first.
fn row_4(file: &[u8]) -> Result<Vec<i32>, Refusal> {
    let bad = !file.len().is_multiple_of(4) || file.len() < 4 || file.len() > LONGEST_FILE;
    refuse_if(bad, 4, 0)?;
    let mut words = Vec::new();
    for four in file.chunks(4) {
        let low_first = four.iter().rev();
        let word = low_first.fold(0u32, |word, &byte| word << 8 | byte as u32);
        words.push(word as i32);
    }
    Ok(words)
}

/// The number of entries. Their pairs of offset and length are all there.
fn row_5(words: &[i32], kind: &Kind) -> Result<usize, Refusal> {
    refuse_if(words.is_empty(), 5, 0)?;
    refuse_if(!(0..=kind.most).contains(&words[0]), 5, 0)?;
    let count = words[0] as usize;
    refuse_if(words.len() < 1 + 2 * count, 5, 0)?;
    Ok(count)
}

/// The lengths of the entries as they are read: one that is left out runs to where the next entry begins,
/// or to the last whole unit of the body.
fn lengths_read(words: &[i32], count: usize, kind: &Kind) -> Vec<i64> {
    let whole_units = (words.len() - 1 - 2 * count) as i64 / kind.unit;
    let begins = |entry: usize| words[1 + 2 * entry] as i64;
    let ends = (1..count).map(begins).chain([whole_units]);
    let entries = (0..count).zip(ends);
    let length = |(entry, end): (usize, i64)| match words[2 + 2 * entry] {
        0 if kind.left_out => end - begins(entry),
        written => written as i64,
    };
    entries.map(length).collect()
}

/// The lengths of the entries, in units. They fill the body.
fn row_6(words: &[i32], count: usize, kind: &Kind) -> Result<Vec<usize>, Refusal> {
    let mut lengths = Vec::new();
    let mut so_far: i64 = 0;
    for (pair, length) in lengths_read(words, count, kind).into_iter().enumerate() {
        let offset = words[1 + 2 * pair];
        let wrong = offset as i64 != so_far || !(kind.shortest..=kind.longest).contains(&length);
        refuse_if(wrong, 6, pair as u32)?;
        so_far += length;
        refuse_if(so_far > kind.total, 6, pair as u32)?;
        lengths.push(length as usize);
    }
    let body = words.len() - 1 - 2 * count;
    refuse_if(body as i64 != so_far * kind.unit, 6, count as u32)?;
    Ok(lengths)
}

/// A polygon's vertices.
pub type Polygon = Vec<[i32; 2]>;

/// Rows 4 to 7: the polygons of a polygon file.
pub fn read_polygons(file: &[u8], edition: Edition) -> Result<Vec<Polygon>, Refusal> {
    let words = row_4(file)?;
    let kind = polygons(edition);
    let count = row_5(&words, &kind)?;
    let lengths = row_6(&words, count, &kind)?;
    let mut vertices = words[1 + 2 * count..].chunks(2).map(|v| [v[0], v[1]]);
    let mut polygons = Vec::new();
    for length in lengths {
        let polygon: Polygon = vertices.by_ref().take(length).collect();
        polygons.push(polygon);
    }
    for (place, polygon) in polygons.iter().enumerate() {
        let mut coordinates = polygon.iter().flatten();
        let beyond = coordinates.any(|word| !(-LIMIT..=LIMIT).contains(word));
        refuse_if(beyond, 7, place as u32)?;
    }
    Ok(polygons)
}

/// Rows 5 to 11: the directory of layers, and the words of their trapezoids, of which each has `unit`.
fn check_layers(words: &[i32], unit: usize) -> Result<(&[i32], &[i32]), Refusal> {
    let kind = layers(unit);
    let count = row_5(words, &kind)?;
    row_6(words, count, &kind)?;
    let (directory, body) = words.split_at(1 + 2 * count);
    for (place, record) in body.chunks(unit).enumerate() {
        if let Some(number) = unfit(record) {
            let place = place as u32;
            return Err(Refusal { number, place });
        }
    }
    Ok((directory, body))
}

pub fn read_layers(file: &[u8], out: &mut [i32]) -> u64 {
    let words = match row_4(file) {
        Err(refusal) => return refused(refusal),
        Ok(words) => words,
    };
    match check_layers(&words, FILE_WORDS) {
        Err(refusal) => refused(refusal),
        Ok((directory, body)) => {
            // A read trapezoid has an empty set.
            let mut read = directory.to_vec();
            for lines in body.chunks(FILE_WORDS) {
                read.extend(lines);
                read.push(0);
            }
            deliver(body.len() / FILE_WORDS, &read, out)
        }
    }
}

pub fn write_layers(words: &[i32], out: &mut [u8]) -> u64 {
    match check_layers(words, WORDS) {
        Err(refusal) => refused(refusal),
        Ok((directory, body)) => {
            // The set is dropped.
            let lines = body.chunks(WORDS).flat_map(|record| &record[..FILE_WORDS]);
            let low_first = |&word: &i32| (0..4).map(move |byte| (word >> (8 * byte)) as u8);
            let file: Vec<u8> = directory.iter().chain(lines).flat_map(low_first).collect();
            deliver(body.len() / WORDS, &file, out)
        }
    }
}

/// Row 12, or the result with zero past it.
fn deliver<T: Copy + Default>(pieces: usize, result: &[T], out: &mut [T]) -> u64 {
    out.fill(T::default());
    if out.len() < result.len() {
        return refused(NO_SPACE);
    }
    out[..result.len()].copy_from_slice(result);
    accepted(pieces as u32, 0)
}
