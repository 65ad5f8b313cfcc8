//! The lister's text.

use super::fracture::fracture;
use super::{deoverlap, FILE_WORDS, LONGEST, WORDS};

/// The text of a list of trapezoids, given as words. The sets are not in it.
pub fn listing(words: &[i32]) -> String {
    let mut text = format!("pieces {}\n", words.len() / WORDS);
    for record in words.chunks(WORDS) {
        for (number, word) in record[..FILE_WORDS].iter().enumerate() {
            let end = if number + 1 < FILE_WORDS { ' ' } else { '\n' };
            text += &format!("{word}{end}");
        }
    }
    text
}

/// The text of an answer and an output.
pub fn list_answer(answer: u64, out: &[i32]) -> String {
    if answer >> 63 == 1 {
        let (number, place) = (answer >> 32 & 0xff, answer & 0xffff_ffff);
        return format!("refused {number} place {place}\n");
    }
    listing(&out[..(answer >> 32) as usize * WORDS])
}

/// The text of a polygon file: it is fractured, as any layer, then deoverlapped, each into 512 records.
pub fn list(file: &[u8]) -> String {
    let mut fractured = vec![0; LONGEST];
    let mut out = vec![0; LONGEST];
    let mut scratch = vec![0; LONGEST];
    let mut answer = fracture(0, file, &mut fractured, &mut scratch);
    if answer >> 63 == 0 {
        let words = (answer >> 32) as usize * WORDS;
        answer = deoverlap(&fractured[..words], &mut out, &mut scratch);
    }
    list_answer(answer, &out)
}
