//! Compares the reading and writing of layer files with the reference: the whole answer and the
//! whole output; and has cases worked out by hand.

mod reference;
mod support;

use loxurfa::{raw, Refusal};
use reference::{files, unfit, FILE_WORDS, WORDS};
use support::files::{about, damage_bytes, damage_file, file_bytes};
use support::files::{layer_file_words, layers_words};
use support::outcomes::{refusal, Outcomes};
use support::{assert_met, damage, damage_records, rectangle, rounds, with_sources, words};
use support::{Random, Scene};

/// Words in memory of a layer file of 16 layers and 512 trapezoids.
const LONGEST_WORDS: usize = 1 + 2 * 16 + 512 * WORDS;

/// Its bytes.
const LONGEST_BYTES: usize = 4 * (1 + 2 * 16 + 512 * FILE_WORDS);

/// Reads by the library and by the reference and gives the answer and output they agree on.
fn read(file: &[u8], before: &[i32]) -> (u64, Vec<i32>) {
    let (mut out, mut expected) = (before.to_vec(), before.to_vec());
    let answer = raw::read_layers(file, &mut out);
    let right = files::read_layers(file, &mut expected);
    assert!(
        answer == right,
        "read: answer {answer:#x}, not {right:#x}, output {}\n{file:?}",
        before.len()
    );
    assert!(
        out == expected,
        "read: output {out:?}\nnot {expected:?}\n{file:?}"
    );
    (answer, out)
}

/// The same for writing.
fn write(words: &[i32], before: &[u8]) -> (u64, Vec<u8>) {
    let (mut out, mut expected) = (before.to_vec(), before.to_vec());
    let answer = raw::write_layers(words, &mut out);
    let right = files::write_layers(words, &mut expected);
    assert!(
        answer == right,
        "write: answer {answer:#x}, not {right:#x}, output {}\n{words:?}",
        before.len()
    );
    assert!(
        out == expected,
        "write: output {out:?}\nnot {expected:?}\n{words:?}"
    );
    (answer, out)
}

/// Reads a file and writes words in memory, with outputs long enough, and gives the answer, which is the
/// same for both. `words` makes them for trapezoids of so many words.
fn both(words: impl Fn(usize) -> Vec<i32>) -> u64 {
    let (answer, _) = read(&file_bytes(&words(FILE_WORDS)), &[77; LONGEST_WORDS]);
    let (written, _) = write(&words(WORDS), &[77; LONGEST_BYTES]);
    assert_eq!(answer, written, "{:?}", words(WORDS));
    answer
}

fn pieces(count: u64) -> u64 {
    count << 32
}

fn garbage_bytes(random: &mut Random, bytes: usize) -> Vec<u8> {
    (0..bytes).map(|_| random.next() as u8 | 1).collect()
}

/// Layers for a fit file.
fn layers(random: &mut Random) -> Vec<Vec<i32>> {
    let scene = Scene::new(random);
    let count = match random.below(8) {
        0 => 0,
        1 => 1,
        2 => 16,
        3 => random.below(17),
        _ => random.range(2, 5) as usize,
    };
    (0..count)
        .map(|_| {
            let trapezoids = *random.pick(&[0, 0, 1, 1, 2, 3]);
            (0..trapezoids)
                .flat_map(|_| scene.trapezoid(random))
                .collect()
        })
        .collect()
}

/// How many trapezoids the words of a file, or of layers in memory, have at most.
fn trapezoids_in(words: &[i32], unit: usize) -> usize {
    let directory = 1 + 2 * words.first().map_or(0, |&n| n.clamp(0, 16)) as usize;
    words.len().saturating_sub(directory) / unit
}

/// The words of layers whose trapezoids have `unit` words, damaged half the time.
fn any_words(random: &mut Random, unit: usize) -> Vec<i32> {
    let mut words = layers_words(&layers(random), unit);
    if random.once_in(2) {
        for _ in 0..random.range(1, 2) {
            if random.once_in(2) {
                let body = (1 + 2 * words.first().map_or(0, |&n| n.clamp(0, 16)) as usize)
                    .min(words.len());
                damage_records(random, &mut words[body..], unit);
            } else {
                damage_file(random, &mut words, unit);
            }
        }
    }
    words
}

/// Random files, fit and damaged, and outputs of any length.
#[test]
fn reading_and_writing() {
    let random = &mut Random(21);
    let rounds = rounds(100);
    let mut reader = Outcomes::default();
    let mut writer = Outcomes::default();
    let (mut at_the_end, mut at_a_pair) = (0, 0);
    for _ in 0..rounds {
        let words = any_words(random, FILE_WORDS);
        let mut file = file_bytes(&words);
        if random.once_in(12) {
            damage_bytes(random, &mut file);
        }
        let length = about(random, words.len() + trapezoids_in(&words, FILE_WORDS));
        let (answer, out) = read(&file, &random.garbage(length));
        reader.note(answer);
        if answer >> 63 == 0 {
            let pieces = (answer >> 32) as usize;
            let (start, rest) = out.split_at(file.len() / 4 + pieces);
            assert!(rest.iter().all(|&word| word == 0));
            let (directory, body) = start.split_at(start.len() - WORDS * pieces);
            let records = body.chunks(WORDS);
            assert!(records.clone().all(|record| record[FILE_WORDS] == 0));
            let lines = records.flat_map(|record| &record[..FILE_WORDS]);
            let again: Vec<i32> = directory.iter().chain(lines).copied().collect();
            assert!(file_bytes(&again) == file);
        }
        if answer >> 32 == refusal(6, 0) >> 32 {
            let end = (answer as u32).to_le_bytes() == file[..4];
            at_the_end += end as usize;
            at_a_pair += !end as usize;
        }

        let words = any_words(random, WORDS);
        let length = 4 * (words.len() - trapezoids_in(&words, WORDS));
        let length = about(random, length);
        let before = garbage_bytes(random, length);
        let (answer, out) = write(&words, &before);
        writer.note(answer);
        if answer >> 63 == 0 {
            let pieces = (answer >> 32) as usize;
            let (start, rest) = out.split_at(4 * (words.len() - pieces));
            assert!(rest.iter().all(|&byte| byte == 0));
            let (directory, body) = words.split_at(words.len() - WORDS * pieces);
            let lines = body.chunks(WORDS).flat_map(|record| &record[..FILE_WORDS]);
            let kept: Vec<i32> = directory.iter().chain(lines).copied().collect();
            assert!(start == file_bytes(&kept));
        }
    }
    let numbers = [4, 5, 6, 7, 8, 9, 10, 11, 12];
    let places = [6, 7, 8, 9, 10, 11];
    reader.assert_refusals("read", &numbers, rounds, 400);
    reader.assert_later("read", &places, rounds, 400);
    reader.assert_values("read", rounds, 50);
    writer.assert_refusals("write", &numbers[1..], rounds, 400);
    writer.assert_later("write", &places, rounds, 400);
    writer.assert_values("write", rounds, 50);
    assert_met("6 at a pair", at_a_pair, rounds, 100);
    assert_met("6 at the end", at_the_end, rounds, 100);
}

/// By the library alone: what was read is written back as the same bytes, and what was written reads back
/// as the same words with every set empty.
#[test]
fn round_trips() {
    let random = &mut Random(22);
    let rounds = rounds(60);
    let mut reader = Outcomes::default();
    let mut writer = Outcomes::default();
    let mut sets_dropped = 0;
    for _ in 0..rounds {
        let words = any_words(random, FILE_WORDS);
        let file = file_bytes(&words);
        let mut read = random.garbage(words.len() + trapezoids_in(&words, FILE_WORDS));
        let answer = raw::read_layers(&file, &mut read);
        if !words.is_empty() {
            reader.note(answer);
        }
        if answer >> 63 == 0 {
            let mut again = garbage_bytes(random, file.len());
            assert_eq!(raw::write_layers(&read, &mut again), answer);
            assert!(again == file, "{words:?}");
        }

        let words = any_words(random, WORDS);
        let mut file = garbage_bytes(random, 4 * (words.len() - trapezoids_in(&words, WORDS)));
        let answer = raw::write_layers(&words, &mut file);
        writer.note(answer);
        if answer >> 63 == 0 {
            let body = words.len() - WORDS * (answer >> 32) as usize;
            let emptied = [&words[..body], &with_sources(&words[body..], 0)].concat();
            sets_dropped += (emptied != words) as usize;
            let mut again = random.garbage(words.len());
            assert_eq!(raw::read_layers(&file, &mut again), answer);
            assert!(again == emptied, "{words:?}");
        }
    }
    for met in [reader, writer] {
        met.assert_refusals("either", &[5, 6, 7, 8, 9, 10, 11], rounds, 400);
        met.assert_values("either", rounds, 50);
    }
    assert_met("sets dropped", sets_dropped, rounds, 8);
}

/// Small files, cut off after each byte and each word, lengthened, and with each word changed.
#[test]
fn every_place_of_small_files() {
    let random = &mut Random(23);
    let mut reader = Outcomes::default();
    let mut writer = Outcomes::default();
    let one = || rectangle(0, 1, 0, 1);
    let two = || [rectangle(-5, 5, -5, 5), rectangle(2, 3, 4, 2048)].concat();
    let none = Vec::new;
    let mut many = vec![
        vec![],
        vec![none()],
        vec![one()],
        vec![two()],
        vec![none(), none()],
        vec![none(), one()],
        vec![one(), none()],
        vec![one(), one()],
        vec![two(), none(), one()],
        vec![none(); 16],
        vec![none(); 17],
        vec![one(); 16],
        vec![one(); 17],
    ];
    for _ in 0..rounds(100) / 50_000 {
        many.push(layers(random));
    }
    let wrong = [
        i32::MIN,
        i32::MAX,
        -1,
        0,
        1,
        2,
        3,
        16,
        17,
        512,
        513,
        2049,
        -2049,
        1 << 16,
        -(1 << 24),
    ];
    for layers in &many {
        let words = layers_words(layers, WORDS);
        let on_file = layer_file_words(layers);
        let file = file_bytes(&on_file);
        reader.note(read(&file, &random.garbage(words.len())).0);
        writer.note(write(&words, &garbage_bytes(random, file.len())).0);
        // Cut off.
        for bytes in 0..file.len() {
            reader.note(read(&file[..bytes], &random.garbage(words.len())).0);
            writer.note(write(&words, &garbage_bytes(random, bytes)).0);
        }
        for length in 0..words.len() {
            reader.note(read(&file, &random.garbage(length)).0);
            writer.note(write(&words[..length], &garbage_bytes(random, file.len())).0);
        }
        // Lengthened.
        for more in 1..=2 * WORDS {
            let mut longer = words.clone();
            longer.resize(words.len() + more, 0);
            writer.note(write(&longer, &garbage_bytes(random, 4 * longer.len())).0);
            let mut longer = on_file.clone();
            longer.resize(on_file.len() + more, 0);
            reader.note(read(&file_bytes(&longer), &random.garbage(words.len() + more)).0);
            let mut longer = file.clone();
            longer.resize(file.len() + more, 0);
            reader.note(read(&longer, &random.garbage(words.len() + more)).0);
        }
        // Each word changed.
        let changes = |word: i32| {
            let near = [word.wrapping_add(1), word.wrapping_sub(1)];
            wrong.into_iter().chain(near)
        };
        for place in 0..on_file.len() {
            let mut changed = on_file.clone();
            for word in changes(on_file[place]) {
                changed[place] = word;
                reader.note(read(&file_bytes(&changed), &random.garbage(words.len())).0);
            }
        }
        for place in 0..words.len() {
            let mut changed = words.clone();
            for word in changes(words[place]) {
                changed[place] = word;
                writer.note(write(&changed, &garbage_bytes(random, file.len())).0);
            }
        }
    }
    let numbers = [4, 5, 6, 7, 8, 9, 10, 11, 12];
    reader.assert_refusals("read", &numbers, 1, 1);
    writer.assert_refusals("write", &numbers[1..], 1, 1);
    for met in [reader, writer] {
        met.assert_later("either", &[6, 7, 8, 9, 10, 11], 1, 1);
        met.assert_values("either", 1, 1);
    }
}

/// A number of trapezoids, all different.
fn many(first: i32, count: i32) -> Vec<i32> {
    let number = |n: i32| n % 2048;
    (first..first + count)
        .flat_map(|n| rectangle(-number(n) - 1, number(n) + 1, -number(n), number(n) + 1))
        .collect()
}

/// 16 layers and 512 trapezoids are a file, one more of either is not.
#[test]
fn most_layers_and_trapezoids() {
    let file = |lengths: &[i32], unit: usize| {
        let mut layers = Vec::new();
        let mut first = 0;
        for &length in lengths {
            layers.push(with_sources(&many(first, length), -first));
            first += length;
        }
        layers_words(&layers, unit)
    };
    let both = |lengths: &[i32]| both(|unit| file(lengths, unit));

    assert_eq!(both(&[1; 16]), pieces(16));
    assert_eq!(both(&[32; 16]), pieces(512));
    assert_eq!(both(&[32; 17]), refusal(5, 0));

    // Totals of 512 and 513: refused at the layer that makes 513.
    assert_eq!(both(&[512]), pieces(512));
    assert_eq!(both(&[513]), refusal(6, 0));
    assert_eq!(both(&[256, 256]), pieces(512));
    assert_eq!(both(&[511, 1]), pieces(512));
    assert_eq!(both(&[512, 0]), pieces(512));
    assert_eq!(both(&[0, 512]), pieces(512));
    assert_eq!(both(&[512, 1]), refusal(6, 1));
    assert_eq!(both(&[1, 512]), refusal(6, 1));
    assert_eq!(both(&[256, 257]), refusal(6, 1));
    assert_eq!(both(&[0, 513]), refusal(6, 1));
    assert_eq!(both(&[200, 200, 112, 0, 0]), pieces(512));
    assert_eq!(both(&[200, 200, 113, 0, 0]), refusal(6, 2));
    assert_eq!(both(&[200, 200, 112, 0, 1]), refusal(6, 4));
    let lengths = [[32; 15].as_slice(), &[33]].concat();
    assert_eq!(both(&lengths), refusal(6, 15));

    // The longest file there is, and outputs shorter by one.
    let words = file(&[32; 16], WORDS);
    assert_eq!(words.len(), LONGEST_WORDS);
    let bytes = file_bytes(&file(&[32; 16], FILE_WORDS));
    assert_eq!(bytes.len(), LONGEST_BYTES);
    assert_eq!((LONGEST_WORDS, LONGEST_BYTES), (12_833, 49_284));
    for less in [0, 1, 25, 512, LONGEST_WORDS] {
        let (answer, _) = read(&bytes, &vec![5; LONGEST_WORDS - less]);
        let expected = [refusal(12, 0), pieces(512)][(less == 0) as usize];
        assert_eq!(answer, expected);
        let (answer, _) = write(&words, &vec![5; LONGEST_BYTES - less]);
        assert_eq!(answer, expected);
    }
    for more in [1, 2, 3, 4, 5, 1000, 100_000] {
        let (answer, _) = read(&bytes, &vec![5; LONGEST_WORDS + more]);
        assert_eq!(answer, pieces(512));
        let (answer, _) = write(&words, &vec![5; LONGEST_BYTES + more]);
        assert_eq!(answer, pieces(512));
    }
}

/// Lengths of files, and counts without body or with one.
#[test]
fn lengths_of_files() {
    let mut out = vec![3; 20_000];
    let mut length = |bytes: usize, count: i32| {
        let mut file = vec![0; bytes];
        let first = count.to_le_bytes();
        let there = bytes.min(4);
        file[..there].copy_from_slice(&first[..there]);
        let (answer, now) = read(&file, &out);
        out = now;
        answer
    };
    // No byte, under 4, no multiple of 4, over 65,532.
    for bytes in [0, 1, 2, 3, 5, 6, 7, 65_529, 65_530, 65_531, 65_533, 65_536] {
        assert_eq!(length(bytes, 0), refusal(4, 0));
        assert_eq!(length(bytes, -1), refusal(4, 0));
    }
    assert_eq!(length(65_540, 0), refusal(4, 0));
    assert_eq!(length(1 << 20, 0), refusal(4, 0));
    // The file end is not met: place N. The pairs of zeros are fit.
    assert_eq!(length(65_532, 0), refusal(6, 0));
    assert_eq!(length(65_532, 3), refusal(6, 3));
    assert_eq!(length(65_532, 16), refusal(6, 16));
    assert_eq!(length(65_532, 17), refusal(5, 0));
    assert_eq!(length(65_532, -1), refusal(5, 0));
    assert_eq!(length(4 + 4 * 24, 0), refusal(6, 0));
    assert_eq!(length(4, 1), refusal(5, 0));
    assert_eq!(length(8, 1), refusal(5, 0));
    assert_eq!(length(16, 1), refusal(6, 1));
    // N = 0 and nothing past it.
    assert_eq!(length(4, 0), 0);

    // A writer has no row 4.
    let mut words = vec![0; 16_384];
    for (count, expected) in [
        (0, refusal(6, 0)),
        (16, refusal(6, 16)),
        (17, refusal(5, 0)),
        (i32::MIN, refusal(5, 0)),
        (i32::MAX, refusal(5, 0)),
    ] {
        words[0] = count;
        for length in [16_382, 16_383, 16_384] {
            assert_eq!(write(&words[..length], &[9; 100]).0, expected);
        }
    }
    assert_eq!(write(&[], &[9; 9]).0, refusal(5, 0));
    assert_eq!(write(&[], &[]).0, refusal(5, 0));
    assert_eq!(write(&[0], &[]).0, refusal(12, 0));
    assert_eq!(write(&[0], &[9; 3]).0, refusal(12, 0));
    assert_eq!(write(&[0], &[9; 5]), (0, vec![0; 5]));
    assert_eq!(read(&[0; 4], &[]).0, refusal(12, 0));
    assert_eq!(read(&[0; 4], &[9; 2]), (0, vec![0; 2]));
}

/// A count, and zeros past it.
#[test]
fn counts() {
    let count = |first: i32, length: usize| {
        let mut file = vec![0; length];
        file[0] = first;
        both(|_| file.clone())
    };
    // N = 0 and no body.
    assert_eq!(count(0, 1), pieces(0));
    // N = 0 and a body.
    assert_eq!(count(0, 2), refusal(6, 0));
    // 16 layers of no trapezoid.
    assert_eq!(count(16, 33), pieces(0));
    // The last pair has no length.
    assert_eq!(count(16, 32), refusal(5, 0));
    // 17 layers.
    assert_eq!(count(17, 35), refusal(5, 0));
    // Out of range.
    for first in [-1, i32::MIN, i32::MAX] {
        assert_eq!(count(first, 33), refusal(5, 0));
    }
}

/// [0,4) by [0,4), with the set of layer 31.
fn square() -> Vec<i32> {
    let lines = words("0 0 1 0  0 0 1 1  0 0 1 0  4 0 5 1  0 0 4 0  0 4 4 4");
    [lines, vec![i32::MIN]].concat()
}

/// Two pairs, and past them the words of squares, of which each has `unit`, up to a number of words.
fn two_layers(pairs: [i32; 4], unit: usize, length: usize) -> Vec<i32> {
    let mut file = vec![2];
    file.extend(pairs);
    file.extend(square()[..unit].iter().cycle().take(length - 5));
    file
}

#[test]
fn pairs() {
    // A file of 53 words, or of one less or one more; in memory 55.
    let with = |pairs: [i32; 4], more: i32| {
        both(|unit| two_layers(pairs, unit, (5 + 2 * unit as i32 + more) as usize))
    };
    let answer = |pairs: [i32; 4]| with(pairs, 0);
    // Two layers of a square each.
    assert_eq!(answer([0, 1, 1, 1]), pieces(2));
    // The last word is missing.
    assert_eq!(with([0, 1, 1, 1], -1), refusal(6, 2));
    // One word too many.
    assert_eq!(with([0, 1, 1, 1], 1), refusal(6, 2));
    // The second offset is 2, not 1.
    assert_eq!(answer([0, 1, 2, 1]), refusal(6, 1));
    // The first offset is 1, and the second is wrong too.
    assert_eq!(answer([1, 1, 1, 1]), refusal(6, 0));
    // A negative offset.
    assert_eq!(answer([0, 1, i32::MIN, 1]), refusal(6, 1));
    // A negative length.
    assert_eq!(answer([0, i32::MIN, 1, 1]), refusal(6, 0));
    // A length above 512.
    assert_eq!(answer([0, 1, 1, i32::MAX]), refusal(6, 1));
    // The other number of words: a file with sets, words without them.
    let two = |unit: usize| two_layers([0, 1, 1, 1], unit, 5 + 2 * unit);
    assert_eq!(read(&file_bytes(&two(WORDS)), &[5; 60]).0, refusal(6, 2));
    assert_eq!(write(&two(FILE_WORDS), &[5; 240]).0, refusal(6, 2));
}

/// Words of the third square, the second of the second layer, set to others.
#[test]
fn rows() {
    let third = |changes: &[(usize, i32)]| {
        both(|unit| {
            let mut file = two_layers([0, 1, 1, 2], unit, 5 + 3 * unit);
            for &(place, word) in changes {
                file[5 + 2 * unit + place] = word;
            }
            file
        })
    };
    // The square's own words.
    assert_eq!(third(&[]), pieces(3));
    // 2,049 in the top.
    assert_eq!(third(&[(23, 2049)]), refusal(7, 2));
    assert_eq!(third(&[(23, i32::MIN)]), refusal(7, 2));
    assert_eq!(third(&[(0, i32::MAX)]), refusal(7, 2));
    // The bottom's x1 and x2 are 0.
    assert_eq!(third(&[(18, 0)]), refusal(8, 2));
    // The lines of the left base coincide.
    assert_eq!(third(&[(7, 0)]), refusal(9, 2));
    // The left base is at 5, the right one at 4.
    assert_eq!(third(&[(4, 5), (6, 6)]), refusal(10, 2));
    // The top is at -1 at the left base, the bottom at 0.
    assert_eq!(third(&[(21, -1)]), refusal(11, 2));
}

/// What an output holds of a file of one square, 27 words, in memory 28. Nothing is written past the room
/// that a call is given.
#[test]
fn outputs() {
    let words = [vec![1, 0, 1], square(), vec![0]].concat();
    let file = file_bytes(&[&words[..27], &[0]].concat());
    // Words 0, 26, 27, 28 and 63 of an output of sevens.
    let read = |length: usize, room: usize| {
        let mut out = [7; 64];
        let answer = raw::read_layers(&file[..length], &mut out[..room]);
        (answer, [0, 26, 27, 28, 63].map(|place| out[place]))
    };
    // An empty set past the file's words, and zero past it.
    assert_eq!(read(108, 30), (pieces(1), [1, 4, 0, 0, 7]));
    // They just fit.
    assert_eq!(read(108, 28), (pieces(1), [1, 4, 0, 7, 7]));
    // Too short by one: the 27 words are zero.
    assert_eq!(read(108, 27), (refusal(12, 0), [0, 0, 7, 7, 7]));
    // One word too many: nothing changed.
    assert_eq!(read(112, 30), (refusal(6, 1), [7, 7, 7, 7, 7]));

    // Bytes 0, 104, 108 and 255 of an output of nines.
    let write = |length: usize, room: usize| {
        let mut out = [9; 256];
        let answer = raw::write_layers(&words[..length], &mut out[..room]);
        (answer, [0, 104, 108, 255].map(|place| out[place]))
    };
    // Zero past the file, which has no set.
    assert_eq!(write(28, 112), (pieces(1), [1, 4, 0, 9]));
    // It just fits.
    assert_eq!(write(28, 108), (pieces(1), [1, 4, 9, 9]));
    // Too short by one: the 107 bytes are zero.
    assert_eq!(write(28, 107), (refusal(12, 0), [0, 0, 9, 9]));
    // One word too many, or the set missing: nothing changed.
    assert_eq!(write(29, 112), (refusal(6, 1), [9, 9, 9, 9]));
    assert_eq!(write(27, 112), (refusal(6, 1), [9, 9, 9, 9]));
}

/// Each row from 7 to 11 in each layer of a file, numbered through all layers; the lowest place
/// first; pairs before trapezoids; space last.
#[test]
fn unfit_trapezoids() {
    let random = &mut Random(24);
    let mut met = [[0; 16]; 12];
    let mut two_unfit = 0;
    for round in 0..rounds(2) {
        let scene = Scene::new(random);
        let count = 1 + round % 16;
        let mut lengths = Vec::new();
        for _ in 0..count {
            lengths.push(random.below(4));
        }
        lengths[count - 1] += 1;
        let mut layers: Vec<Vec<i32>> = Vec::new();
        for &length in &lengths {
            layers.push((0..length).flat_map(|_| scene.trapezoid(random)).collect());
        }
        damage(random, &mut layers[count - 1]);
        if random.once_in(4) {
            damage(random, &mut layers[count / 2]);
        }
        let mut words = layers_words(&layers, WORDS);
        let mut on_file = layer_file_words(&layers);
        let all = layers.concat();
        let mut bad = all
            .chunks(WORDS)
            .enumerate()
            .filter_map(|(place, record)| Some((unfit(record)? as usize, place)));
        let Some((number, place)) = bad.next() else {
            continue;
        };
        two_unfit += bad.next().is_some() as usize;
        let expected = refusal(number as u64, place as u64);
        // No room doesn't matter yet.
        for length in [0, words.len()] {
            assert_eq!(
                read(&file_bytes(&on_file), &random.garbage(length)).0,
                expected
            );
            assert_eq!(
                write(&words, &garbage_bytes(random, 4 * length)).0,
                expected
            );
        }
        let first = lengths[..count - 1].iter().sum::<usize>();
        if place >= first {
            met[number][count - 1] += 1;
        }
        // A wrong pair comes first.
        let pair = random.below(count);
        words[1 + 2 * pair] += 1;
        on_file[1 + 2 * pair] += 1;
        let (answer, _) = read(&file_bytes(&on_file), &[]);
        assert_eq!(answer, refusal(6, pair as u64));
        assert_eq!(write(&words, &[]).0, refusal(6, pair as u64));
    }
    for (number, met) in met.iter().enumerate().skip(7) {
        for (layer, &times) in met.iter().enumerate() {
            let name = format!("{number} in layer {layer}");
            assert_met(&name, times, rounds(2), 2000);
        }
    }
    assert_met("two unfit", two_unfit, rounds(2), 50);
}

/// The safe wrappers read the answers as they are meant.
#[test]
fn wrappers() {
    let random = &mut Random(25);
    let mut met = Outcomes::default();
    for _ in 0..rounds(4) {
        let words = any_words(random, FILE_WORDS);
        let file = file_bytes(&words);
        let meant = |answer: u64| {
            if answer >> 63 == 1 {
                Err(Refusal {
                    number: (answer >> 32 & 0xff) as u8,
                    place: (answer & 0xffff_ffff) as u32,
                })
            } else {
                Ok((answer >> 32) as u32)
            }
        };
        let length = about(random, words.len() + trapezoids_in(&words, FILE_WORDS));
        let before = random.garbage(length);
        let mut out = before.clone();
        let (answer, expected) = read(&file, &before);
        assert_eq!(loxurfa::read_layers(&file, &mut out), meant(answer));
        assert!(out == expected);
        met.note(answer);

        let words = any_words(random, WORDS);
        let length = 4 * (words.len() - trapezoids_in(&words, WORDS));
        let length = about(random, length);
        let before = garbage_bytes(random, length);
        let mut out = before.clone();
        let (answer, expected) = write(&words, &before);
        assert_eq!(loxurfa::write_layers(&words, &mut out), meant(answer));
        assert!(out == expected);
    }
    met.assert_values("read", rounds(4), 100);
    assert_met("refused", met.refusals.iter().sum(), rounds(4), 4);
}

/// Layers decoded, with empty sets, and encoded, without sets: the words and refusals of reading and writing.
#[test]
fn layers_of_files() {
    let random = &mut Random(26);
    let rounds = rounds(4);
    let mut decoded = Outcomes::default();
    let mut encoded = Outcomes::default();
    let refused = |answer: u64| Refusal {
        number: (answer >> 32 & 0xff) as u8,
        place: (answer & 0xffff_ffff) as u32,
    };
    for _ in 0..rounds {
        // Any file.
        let mut file = file_bytes(&any_words(random, FILE_WORDS));
        if random.once_in(12) {
            damage_bytes(random, &mut file);
        }
        let (answer, mut words) = read(&file, &[0; LONGEST_WORDS]);
        decoded.note(answer);
        match loxurfa::decode_layers(&file) {
            Ok(layers) => {
                assert_eq!(answer, (layers.concat().len() as u64 / 25) << 32);
                words.truncate(file.len() / 4 + (answer >> 32) as usize);
                assert_eq!(layers_words(&layers, WORDS), words);
            }
            Err(refusal) => assert_eq!(refusal, refused(answer)),
        }

        // Any layers.
        let mut layers = layers(random);
        match random.below(12) {
            0 => layers.resize(random.range(15, 18) as usize, vec![]),
            1 => layers.push(many(0, random.range(500, 513))),
            2 | 3 if !layers.is_empty() => {
                let number = random.below(layers.len());
                damage(random, &mut layers[number]);
            }
            // Layers that aren't whole trapezoids.
            4 if !layers.is_empty() => {
                for _ in 0..2 {
                    let number = random.below(layers.len());
                    let length = layers[number].len() + 1 + random.below(30);
                    layers[number].resize(length, 0);
                }
            }
            _ => {}
        }
        let words = layers_words(&layers, WORDS);
        let (answer, mut file) = write(&words, &[0; LONGEST_BYTES]);
        encoded.note(answer);
        match loxurfa::encode_layers(&layers) {
            Ok(bytes) => {
                assert_eq!(answer >> 63, 0);
                file.truncate(4 * (words.len() - (answer >> 32) as usize));
                assert!(bytes == file);
                let emptied: Vec<_> = layers.iter().map(|layer| with_sources(layer, 0)).collect();
                assert_eq!(loxurfa::decode_layers(&bytes), Ok(emptied));
            }
            Err(refusal) => assert_eq!(refusal, refused(answer)),
        }
    }
    let numbers = [4, 5, 6, 7, 8, 9, 10, 11];
    decoded.assert_refusals("decode", &numbers, rounds, 400);
    decoded.assert_values("decode", rounds, 50);
    encoded.assert_refusals("encode", &numbers[1..], rounds, 400);
    encoded.assert_values("encode", rounds, 50);

    // One word too many in one layer and one too few in the next.
    let split = [vec![0; 26], vec![0; 24]];
    let refusal = Refusal {
        number: 6,
        place: 2,
    };
    assert_eq!(loxurfa::encode_layers(&split), Err(refusal));
    assert_eq!(loxurfa::encode_layers::<&[i32]>(&[]), Ok(vec![0; 4]));
    assert_eq!(loxurfa::decode_layers(&[0; 4]), Ok(vec![]));
}
