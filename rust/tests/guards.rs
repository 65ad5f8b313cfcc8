//! Calls every function with words on both sides of every buffer, in random and damaged cases: a call
//! writes within what it is given, nothing of what it only reads, and nothing at all where it is refused
//! with 1 to 11, 13 or 14.

mod reference;
mod support;

use support::calls::{any_call, Borrowed, Buffer, Call, Function};
use support::outcomes::Outcomes;
use support::{rounds, Random};

/// Elements before and after each buffer.
const GUARD: usize = 40;

/// The buffer with random elements on both sides, and where it starts. Bytes start at any address.
fn guarded(random: &mut Random, buffer: &Buffer) -> (Buffer, usize) {
    fn between<T: Clone>(guards: &mut dyn FnMut() -> T, start: usize, inner: &[T]) -> Vec<T> {
        let mut all: Vec<T> = (0..start).map(|_| guards()).collect();
        all.extend_from_slice(inner);
        all.extend((0..GUARD).map(|_| guards()));
        all
    }
    match buffer {
        Buffer::Bytes(inner) => {
            let start = GUARD + random.below(8);
            let all = between(&mut || random.next() as u8, start, inner);
            (Buffer::Bytes(all), start)
        }
        Buffer::Words(inner) => {
            let all = between(&mut || random.next() as i32, GUARD, inner);
            (Buffer::Words(all), GUARD)
        }
        Buffer::Numbers(inner) => {
            let all = between(&mut || random.next() as u32, GUARD, inner);
            (Buffer::Numbers(all), GUARD)
        }
    }
}

/// The elements of a buffer from `start` to `end`.
fn part(buffer: &Buffer, start: usize, end: usize) -> Buffer {
    match buffer {
        Buffer::Bytes(all) => Buffer::Bytes(all[start..end].to_vec()),
        Buffer::Words(all) => Buffer::Words(all[start..end].to_vec()),
        Buffer::Numbers(all) => Buffer::Numbers(all[start..end].to_vec()),
    }
}

/// Makes the call between guards and gives the answer.
fn check(random: &mut Random, call: &Call) -> u64 {
    let (mut all, starts): (Vec<Buffer>, Vec<usize>) =
        call.buffers.iter().map(|b| guarded(random, b)).unzip();
    let before = all.clone();
    let mut borrowed: Vec<Borrowed> = Vec::new();
    for ((all, &start), buffer) in all.iter_mut().zip(&starts).zip(&call.buffers) {
        borrowed.push(all.part(start, start + buffer.len()));
    }
    let answer = call.make(&mut borrowed);
    let (right, expected) = call.expected();
    assert_eq!(answer, right, "{call:?}");

    let refused = (answer >> 63 == 1).then_some(answer >> 32 & 0xff);
    for (i, after) in all.iter().enumerate() {
        let (start, end) = (starts[i], starts[i] + call.buffers[i].len());
        let (first, last) = (part(after, 0, start), part(after, end, after.len()));
        assert_eq!(first, part(&before[i], 0, start), "buffer {i} of {call:?}");
        assert_eq!(
            last,
            part(&before[i], end, after.len()),
            "buffer {i} of {call:?}"
        );
        let inner = part(after, start, end);
        let changed = inner != call.buffers[i];
        let output = i >= call.function.inputs();
        assert!(output || !changed, "input {i} of {call:?}");
        assert!(inner == expected[i], "buffer {i} of {call:?}");
        match refused {
            Some(12) if output => assert!(inner.is_zero(), "buffer {i} of {call:?}"),
            Some(1..=11 | 13 | 14) => assert!(!changed, "buffer {i} of {call:?}"),
            _ => {}
        }
    }
    answer
}

#[test]
fn random_calls() {
    let random = &mut Random(91);
    let rounds = rounds(1);
    for function in Function::ALL {
        let mut met = Outcomes::default();
        for _ in 0..rounds {
            let call = any_call(random, function);
            met.note(check(random, &call));
        }
        let name = format!("{function:?}");
        met.assert_refusals(&name, function.rows(), rounds, 500);
        assert!(met.done() > rounds / 10, "{name}: {met:?}");
    }
}

/// Every buffer in turn without elements, then all of them.
#[test]
fn empty_buffers() {
    let random = &mut Random(92);
    let empty = |buffer: &mut Buffer| buffer.truncate(0);
    for function in Function::ALL {
        for _ in 0..200 {
            let call = any_call(random, function);
            for i in 0..call.buffers.len() {
                let mut call = call.clone();
                empty(&mut call.buffers[i]);
                check(random, &call);
            }
            let mut call = call.clone();
            call.buffers.iter_mut().for_each(empty);
            check(random, &call);
        }
    }
}
