//! Makes every call from C and from C++, through include/loxurfa.h, and compares what came of it with
//! the Rust crate; and the examples of docs/CALLS.md.

mod reference;
mod support;

use loxurfa::{combine, deoverlap, equal, transistors};
use loxurfa::{raw, refused, MAX_LAYER_FILE_BYTES, MAX_LAYER_FILE_WORDS, STACK_BYTES};
use loxurfa::{Code, Done, Equality, Refusal, Transistors, TRAPEZOID_WORDS};
use std::fs;
use std::path::{Path, PathBuf};
use std::process::Command;
use support::calls::{any_call, Buffer, Call, Function};
use support::files::{file_bytes, layer_file_words, layers_words};
use support::programs::{file, root, run};
use support::{rectangle, Random};

/// tests/c/calls.c, compiled so and linked with the functions in that file.
fn compiled(compiler: &str, options: &[&str], functions: &str, name: &str) -> PathBuf {
    let program = Path::new(env!("CARGO_TARGET_TMPDIR")).join(name);
    let status = Command::new(compiler)
        .current_dir(root())
        .args(options)
        .args(["-Wall", "-Wextra", "-Wpedantic", "-Werror", "-pthread"])
        .args(["-Iinclude", "rust/tests/c/calls.c", "-x", "none"])
        .args([functions, "-o"])
        .arg(&program)
        .status()
        .expect("a compiler");
    assert!(status.success(), "{compiler} {options:?}");
    program
}

/// A call in the form that calls.c reads.
fn written(call: &Call) -> Vec<u8> {
    let mut bytes = (call.function as u32).to_ne_bytes().to_vec();
    bytes.extend(call.code.to_ne_bytes());
    bytes.extend(call.point.iter().flat_map(|word| word.to_ne_bytes()));
    for i in 0..6 {
        let (size, count): (u32, usize) = match call.buffers.get(i) {
            Some(Buffer::Bytes(all)) => (1, all.len()),
            Some(buffer) => (4, buffer.len()),
            None => (4, 0),
        };
        bytes.extend(size.to_ne_bytes());
        bytes.extend((count as u32).to_ne_bytes());
        bytes.extend(call.buffers.get(i).map_or(vec![], elements));
    }
    bytes
}

fn elements(buffer: &Buffer) -> Vec<u8> {
    match buffer {
        Buffer::Bytes(all) => all.clone(),
        Buffer::Words(all) => all.iter().flat_map(|word| word.to_ne_bytes()).collect(),
        Buffer::Numbers(all) => all.iter().flat_map(|word| word.to_ne_bytes()).collect(),
    }
}

/// Makes the calls with the program and by the crate; gives the bytes of stack that a call wrote to.
fn compare(program: &Path, calls: &[Call]) -> usize {
    let input: Vec<u8> = calls.iter().flat_map(written).collect();
    let output = run::<&str>(program, &[], &input, input.len());
    assert!(output.status.success(), "{output:?}");
    let mut rest = &output.stdout[..];
    let mut take = |bytes: usize| {
        let (first, later) = rest.split_at(bytes);
        rest = later;
        first.to_vec()
    };
    let mut deepest = 0;
    for call in calls {
        let answer = u64::from_ne_bytes(take(8).try_into().expect("8 bytes"));
        let mut part = || u32::from_ne_bytes(take(4).try_into().expect("4 bytes"));
        let parts = [part(), part(), part(), part(), part()];
        assert_parts(answer, parts.map(u64::from));
        let depth = part();
        let mut by_crate = call.clone();
        assert_eq!(answer, by_crate.perform(), "{call:?}");
        for (i, buffer) in by_crate.buffers.iter().enumerate() {
            let right = elements(buffer);
            assert!(take(right.len()) == right, "buffer {i} of {call:?}");
        }
        deepest = deepest.max(depth as usize);
    }
    assert!(rest.is_empty());
    deepest
}

/// What the header's functions read in an answer makes up the answer, as crates/calls/specs/Packed.antt
/// has it.
fn assert_parts(answer: u64, [refused, number, place, value, overlays]: [u64; 5]) {
    let packed = match refused {
        1 => (1 << 63) + (number << 32) + place,
        _ => (value << 32) + overlays,
    };
    assert_eq!(answer, packed);
    assert_eq!(answer >> 63, refused);
}

/// Random calls of every function, and some with the most trapezoids.
fn calls(random: &mut Random, of_each: usize) -> Vec<Call> {
    let mut calls = Vec::new();
    for function in Function::ALL {
        calls.extend((0..of_each).map(|_| any_call(random, function)));
    }
    let upright: Vec<i32> = (0..20)
        .flat_map(|k| rectangle(2 * k, 2 * k + 1, 0, 60))
        .collect();
    let lying: Vec<i32> = (0..20)
        .flat_map(|k| rectangle(0, 60, 2 * k, 2 * k + 1))
        .collect();
    let both = [upright.clone(), lying.clone()].concat();
    let words = |words: &Vec<i32>| Buffer::Words(words.clone());
    let room = || Buffer::Words(random_words(512 * TRAPEZOID_WORDS));
    let layers = [both.clone(), both.clone()];
    let file = layers_words(&layers, TRAPEZOID_WORDS);
    let on_file = layer_file_words(&layers);
    for code in 0..5 {
        let mut with = |function: Function, buffers: Vec<Buffer>| {
            calls.push(Call {
                function,
                code,
                point: [1, 1, 2],
                buffers,
            })
        };
        let layers = vec![words(&upright), words(&lying)];
        with(Function::Contains, layers.clone());
        with(
            Function::Combine,
            [layers.clone(), vec![room(), room()]].concat(),
        );
        with(Function::Equal, [layers, vec![room(), room()]].concat());
        with(Function::Deoverlap, vec![words(&both), room(), room()]);
        with(
            Function::Components,
            vec![words(&upright), Buffer::Numbers(vec![7; 20])],
        );
        let layers = [&lying, &upright, &lying].map(words).to_vec();
        let rest = vec![Buffer::Numbers(vec![7; 60]), room(), room()];
        with(Function::Transistors, [layers, rest].concat());
        // Both in one layer overlap, and are refused.
        with(
            Function::Combine,
            vec![words(&lying), words(&both), room(), room()],
        );
        with(
            Function::Components,
            vec![words(&both), Buffer::Numbers(vec![7; 40])],
        );
        with(
            Function::ReadLayers,
            vec![
                Buffer::Bytes(file_bytes(&on_file)),
                Buffer::Words(vec![7; MAX_LAYER_FILE_WORDS]),
            ],
        );
        with(
            Function::WriteLayers,
            vec![words(&file), Buffer::Bytes(vec![7; MAX_LAYER_FILE_BYTES])],
        );
    }
    calls
}

fn random_words(words: usize) -> Vec<i32> {
    Random(94).garbage(words)
}

#[test]
fn calls_from_c() {
    let calls = calls(&mut Random(93), 200);
    for (compiler, options, name) in [
        ("cc", &["-std=c99", "-O2"][..], "calls"),
        ("c++", &["-x", "c++"], "calls++"),
    ] {
        let program = compiled(compiler, options, env!("LOXURFA_ARCHIVE"), name);
        let deepest = compare(&program, &calls);
        println!("{name}: {deepest} bytes of stack");
        assert!(deepest > 1000 && deepest < STACK_BYTES, "{deepest} bytes");
        fs::remove_file(program).expect("removed");
    }
}

/// A buffer without elements is NULL in calls.c, and an address by the time it gets to the archive.
#[test]
fn no_null() {
    let functions = "rust/tests/c/addresses.c";
    let program = compiled("cc", &["-std=c99"], functions, "addresses");
    let random = &mut Random(95);
    let mut calls: Vec<Call> = Vec::new();
    for function in Function::ALL {
        for _ in 0..20 {
            let mut call = any_call(random, function);
            calls.push(call.clone());
            call.buffers
                .iter_mut()
                .for_each(|buffer| buffer.truncate(0));
            calls.push(call);
        }
    }
    let input: Vec<u8> = calls.iter().flat_map(written).collect();
    let output = run::<&str>(&program, &[], &input, input.len());
    let mut rest = &output.stdout[..];
    for call in &calls {
        let buffers: usize = call.buffers.iter().map(|b| elements(b).len()).sum();
        let (outcome, later) = rest.split_at(8 + 4 * 6 + buffers);
        assert_eq!(outcome[..8], 1u64.to_ne_bytes(), "{:?}", call.function);
        rest = later;
    }
    assert!(rest.is_empty());
    fs::remove_file(program).expect("removed");
}

/// The names of the functions that a text calls or declares.
fn named(text: &str, before: &str) -> Vec<String> {
    let starts = text
        .match_indices(before)
        .map(|(at, _)| &text[at + before.len()..]);
    let mut names: Vec<String> = starts
        .map(|rest| {
            rest.chars()
                .take_while(|c| c.is_alphanumeric() || *c == '_')
        })
        .map(|name| format!("loxurfa_{}", name.collect::<String>()))
        .collect();
    names.sort();
    names.dedup();
    names
}

/// calls.c has every function that the header declares, and docs/CALLS.md declares the same ones in
/// the same words.
#[test]
fn every_function() {
    let text = |path: &str| String::from_utf8(file(path)).expect("text");
    let header = text("include/loxurfa.h");
    let declared = named(&header, "\nuint64_t loxurfa_");
    assert_eq!(declared.len(), Function::ALL.len());
    let program = text("rust/tests/c/calls.c");
    assert_eq!(declared, named(&program, "return loxurfa_"));

    let one_line = |text: &str| text.split_whitespace().collect::<Vec<_>>().join(" ");
    let page = text("docs/CALLS.md");
    let prototypes: Vec<&str> = page
        .lines()
        .filter_map(|line| line.strip_prefix("    uint64_t "))
        .collect();
    assert_eq!(prototypes.len(), declared.len());
    for line in prototypes {
        assert!(one_line(&header).contains(&one_line(line)), "{line}");
    }
}

// ---------------------------------------------------------------------------------------------
// What docs/CALLS.md says of single calls.

fn refusal<T>(number: u8, place: u32) -> Result<T, Refusal> {
    Err(Refusal { number, place })
}

/// `combine` into so many records.
fn into(records: usize, code: Code, a: &[i32], b: &[i32]) -> Result<Done, Refusal> {
    let room = || vec![1; TRAPEZOID_WORDS * records];
    combine(code, a, b, &mut room(), &mut room())
}

#[test]
fn the_example_that_surprises() {
    let one = rectangle(0, 1, 0, 1);
    let two = [one.clone(), rectangle(2, 3, 0, 1)].concat();
    let done = |pieces, overlays| Ok(Done { pieces, overlays });
    assert_eq!(into(2, Code::Union, &two, &two), refusal(refused::SPACE, 0));
    assert_eq!(into(3, Code::Union, &two, &two), done(2, 3));
    assert_eq!(into(0, Code::Union, &one, &one), refusal(refused::SPACE, 0));
    assert_eq!(into(1, Code::Union, &one, &one), done(1, 1));
    assert_eq!(
        into(0, Code::AMinusB, &two, &two),
        refusal(refused::SPACE, 0)
    );
    assert_eq!(into(1, Code::AMinusB, &two, &two), done(0, 3));
    let same = |records: usize| {
        let room = || vec![1; TRAPEZOID_WORDS * records];
        equal(&two, &two, &mut room(), &mut room())
    };
    assert_eq!(same(0), refusal(refused::SPACE, 0));
    assert_eq!(same(1), Ok(Equality::Same { overlays: 6 }));
    // Deoverlapping two that are apart needs no more than the two.
    let mut room = [vec![1; 50], vec![1; 50]];
    let [out, scratch] = &mut room;
    assert_eq!(deoverlap(&two, out, scratch), done(2, 1));
}

#[test]
fn the_order_of_rows() {
    let mut room = [vec![1; 25], vec![1; 25]];
    let [out, scratch] = &mut room;
    let answer = raw::combine(9, &[0; 24], &[], out, scratch);
    assert_eq!(answer, support::outcomes::refusal(1, 0));
    let mut first = rectangle(0, 1, 0, 1);
    first.copy_within(0..4, 4);
    let mut second = rectangle(0, 1, 0, 1);
    second[23] = 2049;
    let answer = raw::combine(0, &[first, second].concat(), &[], out, scratch);
    assert_eq!(answer, support::outcomes::refusal(9, 0));
    // Overlaps: 0 and 3, 1 and 2. There is one record only.
    let square = |x: i32| rectangle(x, x + 1, 0, 1);
    let pairs = [square(0), square(2), square(2), square(0)].concat();
    let answer = raw::combine(0, &pairs, &[], out, scratch);
    assert_eq!(answer, support::outcomes::refusal(13, 2));
    let mut sides = square(0);
    sides.copy_within(16..20, 20);
    let answer = raw::combine(0, &pairs, &sides, out, scratch);
    assert_eq!(answer, support::outcomes::refusal(11, 4));
}

/// What docs/CALLS.md says of a transistor's space.
#[test]
fn space_of_transistors() {
    let square = |x: i32, width: i32| rectangle(x, x + width, x, x + width);
    let cell = [square(0, 9), square(1, 7), square(2, 5)];
    let into = |[c, b, e]: [&[i32]; 3], records: usize, words: usize| {
        let room = || vec![1; TRAPEZOID_WORDS * records];
        transistors(c, b, e, &mut vec![1; words], &mut room(), &mut room())
    };
    let done = |triples, overlays| Ok(Transistors { triples, overlays });
    let one = cell.each_ref().map(|layer| &layer[..]);
    assert_eq!(into(one, 0, 3), done(1, 2));
    assert_eq!(into(one, 0, 2), refusal(refused::SPACE, 0));
    let two = cell.map(|layer| [layer, square(20, 1)].concat());
    let two = two.each_ref().map(|layer| &layer[..]);
    assert_eq!(into(two, 1, 6), done(2, 8));
    assert_eq!(into(two, 0, 6), refusal(refused::SPACE, 0));
    assert_eq!(into(two, 1, 5), refusal(refused::SPACE, 0));
}

/// What docs/CALLS.md says of touching: one corner in common is not enough, part of an edge is.
#[test]
fn touching_by_more_than_a_corner() {
    let q = || rectangle(0, 4, 0, 4);
    let mut numbers = [7; 2];
    let corner = [q(), rectangle(4, 8, 4, 8)].concat();
    assert_eq!(loxurfa::components(&corner, &mut numbers), Ok(2));
    assert_eq!(numbers, [0, 1]);
    let edge = [q(), rectangle(4, 8, 3, 8)].concat();
    assert_eq!(loxurfa::components(&edge, &mut numbers), Ok(1));
    assert_eq!(numbers, [0, 0]);
}
