//! The two editions of polygon files: cases worked out by hand, and damaged directories by both readers, whose
//! answers are held to each other as docs/AUDIT.md states it under request (iv).

mod reference;
mod support;

use reference::files::{read_polygons, Edition};
use reference::WORDS;
use support::files::{damage_bytes, damage_file, file_bytes, leave_out};
use support::outcomes::refusal;
use support::outputs::fracture_by;
use support::polygons::{polygon_words, Window};
use support::{assert_met, rounds, words, Random};

/// What each reader answers and writes of a file, with room for some trapezoids.
fn both(file: &[u8], records: usize) -> [(u64, Vec<i32>); 2] {
    let (out, scratch) = (vec![7; records * WORDS], vec![9; records * WORDS]);
    [Edition::First, Edition::New].map(|edition| fracture_by(edition, 9, file, &out, &scratch))
}

/// The words with every length written in, of a file that the new reader takes.
fn filled_in(words: &[i32]) -> Vec<i32> {
    let mut filled = words.to_vec();
    let polygons = read_polygons(&file_bytes(words), Edition::New).expect("it is taken");
    for (number, polygon) in polygons.iter().enumerate() {
        filled[2 + 2 * number] = polygon.len() as i32;
    }
    filled
}

/// The new reader takes the file, and the older one refuses it with 6 at that place; with its lengths written
/// in, which makes it the other file, both take it.
fn assert_left_out(left_out: &str, place: u64, whole: &str) {
    let (left_out, whole) = (words(left_out), words(whole));
    let [older, new] = both(&file_bytes(&left_out), 512);
    assert_eq!(older, (refusal(6, place), vec![7; 512 * WORDS]));
    assert_eq!(new.0 >> 63, 0);
    assert_eq!(filled_in(&left_out), whole);
    assert_eq!(both(&file_bytes(&whole), 512), [new.clone(), new]);
}

/// The new reader refuses the file, and so does the older one.
fn assert_refused(file: &str, older: u64, new: u64) {
    let file = file_bytes(&words(file));
    let answers = both(&file, 1).map(|(answer, _)| answer);
    assert_eq!(answers, [refusal(6, older), refusal(6, new)]);
}

/// A body of so many words.
fn body(words: usize) -> String {
    (0..words).map(|k| format!(" {}", k * k % 17)).collect()
}

#[test]
fn lengths_found() {
    let vertices = body(14);
    let whole = format!("2  0 3  3 4 {vertices}");
    // Up to the next offset.
    assert_left_out(&format!("2  0 0  3 4 {vertices}"), 0, &whole);
    // Up to the end of the body.
    assert_left_out(&format!("2  0 3  3 0 {vertices}"), 1, &whole);
    // Both.
    assert_left_out(&format!("2  0 0  3 0 {vertices}"), 0, &whole);
    // 3 and 32, to the next offset and to the end.
    let long = body(70);
    assert_left_out(
        &format!("2  0 0  3 0 {long}"),
        0,
        &format!("2  0 3  3 32 {long}"),
    );
    assert_left_out(
        &format!("2  0 0  32 0 {long}"),
        0,
        &format!("2  0 32  32 3 {long}"),
    );
}

#[test]
fn lengths_out_of_range() {
    // 2 and 33 to the next offset.
    assert_refused(&format!("2  0 0  2 3 {}", body(10)), 0, 0);
    assert_refused(&format!("2  0 0  33 3 {}", body(72)), 0, 0);
    // 2 and 33 to the end.
    assert_refused(&format!("1  0 0 {}", body(4)), 0, 0);
    assert_refused(&format!("1  0 0 {}", body(66)), 0, 0);
    assert_refused(&format!("2  0 3  3 0 {}", body(10)), 1, 1);
    // None.
    assert_refused("1  0 0", 0, 0);
    assert_refused(&format!("2  0 0  0 3 {}", body(6)), 0, 0);
}

/// Of 3 vertices and a half, the half counts for no length, and the end is not met; 2 and a half are 2.
#[test]
fn half_a_vertex() {
    assert_refused(&format!("1  0 0 {}", body(7)), 0, 1);
    assert_refused(&format!("1  0 0 {}", body(5)), 0, 0);
    assert_refused(&format!("2  0 3  3 0 {}", body(13)), 1, 2);
    // 32 and a half.
    assert_refused(&format!("1  0 0 {}", body(65)), 0, 1);
    // The length is there.
    assert_refused(&format!("1  0 3 {}", body(7)), 1, 1);
}

/// Any word may stand for an offset.
#[test]
fn wrong_offsets() {
    for next in [i32::MIN, i32::MIN + 1, -1, 0, 1, 2, 33, 1 << 30, i32::MAX] {
        assert_refused(&format!("2  0 0  {next} 3 {}", body(12)), 0, 0);
    }
    // 4 are found, and then 2.
    assert_refused(&format!("2  0 0  4 0 {}", body(12)), 0, 1);
    for offset in [i32::MIN, -3, -1, 1, 3, i32::MAX] {
        // 3 vertices to the next offset.
        let next = offset.wrapping_add(3);
        assert_refused(&format!("2  {offset} 0  {next} 0 {}", body(12)), 0, 0);
        assert_refused(&format!("1  {offset} 0 {}", body(6)), 0, 0);
    }
}

/// A length that is there is read as it stands, whatever the next offset.
#[test]
fn lengths_there() {
    assert_refused(&format!("2  0 3  4 0 {}", body(14)), 1, 1);
    assert_refused(&format!("2  0 4  3 3 {}", body(12)), 1, 1);
    assert_refused(&format!("2  0 -3  3 3 {}", body(12)), 0, 0);
    assert_refused(&format!("1  0 {} {}", i32::MIN, body(6)), 0, 0);
}

/// Directories with offsets and lengths changed and zeros put in.
#[test]
fn damaged_directories() {
    let random = &mut Random(41);
    let rounds = rounds(60);
    let (mut same, mut older_only, mut new_only, mut filled) = (0, 0, 0, 0);
    let mut place_past_0 = 0;
    for _ in 0..rounds {
        let window = Window::new(random);
        let count = random.below(6);
        let polygons: Vec<_> = (0..count).map(|_| window.polygon(random, 8)).collect();
        let mut words = polygon_words(&polygons);
        if random.below(4) > 0 {
            leave_out(random, &mut words);
        }
        for _ in 0..random.below(3) {
            damage_file(random, &mut words, 2);
        }
        let mut file = file_bytes(&words);
        if random.once_in(20) {
            damage_bytes(random, &mut file);
        }
        let [older, new] = both(&file, 12);
        let accepted = |answer: u64| answer >> 63 == 0 || answer == refusal(12, 0);
        let taken = words.len() * 4 == file.len() && accepted(new.0);
        let count = words.first().map_or(0, |&n| n.clamp(0, 64)) as usize;
        let lengths = words.iter().skip(2).step_by(2).take(count);
        match lengths.clone().position(|&length| length == 0) {
            // A file with every length present.
            None => {
                assert_eq!(older, new);
                same += 1;
            }
            Some(first) if taken => {
                assert_eq!(older.0, refusal(6, first as u64));
                new_only += 1;
                place_past_0 += (first > 0) as usize;
                let whole = both(&file_bytes(&filled_in(&words)), 12);
                assert_eq!(whole, [new.clone(), new]);
                filled += 1;
            }
            // Whatever the older reader takes, the new one takes, and shows the same.
            Some(_) => {
                older_only += accepted(older.0) as usize;
            }
        }
    }
    assert_eq!(older_only, 0);
    assert_met("every length present", same, rounds, 10);
    assert_met("taken by the new reader only", new_only, rounds, 10);
    assert_met(
        "refused by the older past the first pair",
        place_past_0,
        rounds,
        20,
    );
    assert_met("filled in", filled, rounds, 10);
}
