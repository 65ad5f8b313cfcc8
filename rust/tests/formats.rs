//! Puts the examples of docs/FORMATS.md to the library.

mod reference;
mod support;

use loxurfa::{combine, decode_layers, deoverlap, encode_layers};
use loxurfa::{fracture, fracture_first_edition, Code};
use loxurfa::{Refusal, MAX_LAYER_WORDS};
use reference::listing::{list, listing};
use support::files::file_bytes;
use support::programs::file;
use support::with_sources;

/// The bytes of each dump: indented lines that begin with the number of their first byte in hex.
fn dumps(text: &str) -> Vec<Vec<u8>> {
    let mut dumps: Vec<Vec<u8>> = Vec::new();
    for line in text.lines() {
        let Some((start, rest)) = line.strip_prefix("    ").and_then(|l| l.split_once("  ")) else {
            continue;
        };
        let Ok(start) = usize::from_str_radix(start, 16) else {
            continue;
        };
        // Past the bytes, four blanks or more and what they say.
        let bytes = rest.split("    ").next().unwrap_or(rest);
        let bytes = bytes.split_whitespace().map(|b| u8::from_str_radix(b, 16));
        if start == 0 {
            dumps.push(Vec::new());
        }
        let dump = dumps.last_mut().expect("a dump begins at 0000");
        assert_eq!(dump.len(), start, "{line}");
        dump.extend(bytes.map(|byte| byte.expect("two hex digits")));
    }
    dumps
}

fn text() -> String {
    String::from_utf8(file("docs/FORMATS.md")).expect("text")
}

/// The words of a polygon file's trapezoids, fractured and deoverlapped.
fn trapezoids(file: &[u8]) -> Result<Vec<i32>, Refusal> {
    let room = || vec![0; MAX_LAYER_WORDS];
    let (mut layer, mut out, mut scratch) = (room(), room(), room());
    let done = fracture(0, file, &mut layer, &mut scratch)?;
    let done = deoverlap(&layer[..done.words()], &mut out, &mut scratch)?;
    out.truncate(done.words());
    Ok(out)
}

#[test]
fn polygon_file_and_listing() {
    let text = text();
    let [polygons, listed, _, _] = &dumps(&text)[..] else {
        panic!("four dumps");
    };
    let words = trapezoids(polygons).expect("not refused");
    assert_eq!(listing(&words).as_bytes(), listed);
    assert_eq!(list(polygons).as_bytes(), listed);
    let printed = String::from_utf8(listed.clone()).expect("ASCII");
    let indented: String = printed.lines().map(|l| format!("    {l}\n")).collect();
    assert!(text.contains(&indented));
    let refused = Refusal {
        number: 5,
        place: 0,
    };
    assert_eq!(trapezoids(&[2, 0, 0, 0]), Err(refused));
    assert_eq!(trapezoids(&[0; 4]), Ok(vec![]));
}

#[test]
fn polygon_file_of_the_new_edition() {
    let dumps = dumps(&text());
    let [polygons, _, left_out, _] = &dumps[..] else {
        panic!("four dumps");
    };
    let refused = |number, place| Err(Refusal { number, place });
    let by_first_edition = |file: &[u8]| {
        let room = || vec![0; MAX_LAYER_WORDS];
        fracture_first_edition(0, file, &mut room(), &mut room()).map(|done| done.pieces)
    };
    let both = trapezoids(left_out).expect("not refused");
    let triangle = file_bytes(&[1, 0, 3, 4, 0, 6, 0, 4, 2]);
    let each = [&polygons[..], &triangle].map(|file| trapezoids(file).expect("not refused"));
    assert_eq!(both, each.concat());
    assert_eq!(by_first_edition(left_out), refused(6, 0));
    // Lengths written in: one, the other, both.
    for places in [&[0x08][..], &[0x10], &[0x08, 0x10]] {
        let mut written = left_out.clone();
        places.iter().for_each(|&place| written[place] = 3);
        assert_eq!(trapezoids(&written), Ok(both.clone()));
        let first = by_first_edition(&written);
        match places {
            [0x08] => assert_eq!(first, refused(6, 1)),
            [_] => assert_eq!(first, refused(6, 0)),
            _ => assert_eq!(first, Ok(2)),
        }
    }
    let longer = [&left_out[..], &[0; 4]].concat();
    assert_eq!(trapezoids(&longer).map(|_| 0), refused(6, 2));
    let shorter = &left_out[..left_out.len() - 4];
    assert_eq!(trapezoids(shorter).map(|_| 0), refused(6, 1));
    let mut offset = left_out.clone();
    for word in [2, -1, i32::MAX] {
        offset[0x0c..0x10].copy_from_slice(&word.to_le_bytes());
        assert_eq!(trapezoids(&offset).map(|_| 0), refused(6, 0));
    }
    offset[0x0c..0x10].copy_from_slice(&2i32.to_le_bytes());
    offset[0x08] = 3;
    assert_eq!(trapezoids(&offset).map(|_| 0), refused(6, 1));
}

/// A layer whose trapezoids overlap, on file: it is written and read as it stands, and refused by a set operation. Two
/// polygons that overlap are listed.
#[test]
fn overlaps_on_file() {
    let dumps = dumps(&text());
    let polygon = trapezoids(&dumps[0]).expect("not refused");
    let twice = vec![[&polygon[..], &polygon].concat()];
    let file = encode_layers(&twice).expect("not refused");
    assert_eq!(decode_layers(&file), Ok(vec![with_sources(&twice[0], 0)]));
    let room = || vec![0; MAX_LAYER_WORDS];
    let refused = Refusal {
        number: 13,
        place: 1,
    };
    let union = combine(Code::Union, &twice[0], &[], &mut room(), &mut room());
    assert_eq!(union, Err(refused));
    let vertices = [-2, -1, 2, -1, -2, 3];
    let two = [&[2, 0, 3, 3, 3][..], &vertices, &vertices].concat();
    assert_eq!(trapezoids(&file_bytes(&two)), Ok(polygon));
}

#[test]
fn layer_file() {
    let dumps = dumps(&text());
    let [polygons, _, _, layers] = &dumps[..] else {
        panic!("four dumps");
    };
    let first = trapezoids(polygons).expect("not refused");
    assert_eq!(
        decode_layers(layers),
        Ok(vec![with_sources(&first, 0), vec![]])
    );
    let longer = [&layers[..], &[0; 4]].concat();
    let refused = Refusal {
        number: 6,
        place: 2,
    };
    assert_eq!(decode_layers(&longer), Err(refused));
    assert_eq!(decode_layers(&[0; 4]), Ok(vec![]));
}
