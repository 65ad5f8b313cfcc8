//! Calls that write trapezoids.

use crate::reference::files::{read_polygons, Edition};
use crate::reference::{self, WORDS};
use loxurfa::{raw, Code, Done, Refusal};

/// What a call that writes trapezoids answered, and the words of those.
pub type Written = Result<(Done, Vec<i32>), Refusal>;

/// Makes a call with room for the given number of records. Past the trapezoids the output is zero,
/// and so is the scratch area; refused with 12 both are zero, refused otherwise both are unchanged.
pub fn written(
    records: usize,
    call: impl FnOnce(&mut [i32], &mut [i32]) -> Result<Done, Refusal>,
) -> Written {
    let mut out = vec![7; records * WORDS];
    let mut scratch = vec![9; records * WORDS];
    let done = call(&mut out, &mut scratch);
    let all = |words: &[i32], word: i32| words.iter().all(|&w| w == word);
    match done {
        Err(refusal) if refusal.number == 12 => {
            assert!(all(&out, 0) && all(&scratch, 0));
            Err(refusal)
        }
        Err(refusal) => {
            assert!(all(&out, 7) && all(&scratch, 9));
            Err(refusal)
        }
        Ok(done) => {
            let rest = out.split_off(done.words());
            assert!(all(&rest, 0) && all(&scratch, 0));
            Ok((done, out))
        }
    }
}

/// Combines with room for the given number of records.
pub fn combined(code: Code, a: &[i32], b: &[i32], records: usize) -> Written {
    written(records, |out, scratch| {
        loxurfa::combine(code, a, b, out, scratch)
    })
}

/// Deoverlaps with room for the given number of records.
pub fn deoverlapped(a: &[i32], records: usize) -> Written {
    written(records, |out, scratch| loxurfa::deoverlap(a, out, scratch))
}

/// Fractures as layer 0, by the library and by the reference, and gives the answer and output they agree on.
pub fn fracture(file: &[u8], before: &[i32], before_scratch: &[i32]) -> (u64, Vec<i32>) {
    fracture_by(Edition::New, 0, file, before, before_scratch)
}

/// The same by the reader of an edition, as this layer.
pub fn fracture_by(
    edition: Edition,
    layer: u32,
    file: &[u8],
    before: &[i32],
    before_scratch: &[i32],
) -> (u64, Vec<i32>) {
    let (mut out, mut scratch) = (before.to_vec(), before_scratch.to_vec());
    let (mut expected, mut expected_scratch) = (out.clone(), scratch.clone());
    let (answer, right) = match edition {
        Edition::New => (
            raw::fracture(layer, file, &mut out, &mut scratch),
            reference::fracture::fracture(layer, file, &mut expected, &mut expected_scratch),
        ),
        Edition::First => (
            raw::fracture_first_edition(layer, file, &mut out, &mut scratch),
            reference::fracture::fracture_first_edition(
                layer,
                file,
                &mut expected,
                &mut expected_scratch,
            ),
        ),
    };
    let describe = || {
        format!(
            "{edition:?} layer {layer} output {} scratch {} file {file:?}\n{:?}",
            before.len(),
            before_scratch.len(),
            read_polygons(file, edition)
        )
    };
    assert!(
        answer == right,
        "answer {answer:#x}, not {right:#x}\n{}",
        describe()
    );
    assert!(
        out == expected,
        "output {out:?}\nnot {expected:?}\n{}",
        describe()
    );
    assert!(
        scratch == expected_scratch,
        "scratch {scratch:?}\n{}",
        describe()
    );
    (answer, out)
}
