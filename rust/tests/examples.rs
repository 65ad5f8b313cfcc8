//! Runs the examples on the files in examples/ and compares what they print and write with the
//! reference.

mod reference;
mod support;

use loxurfa::fracture_first_edition;
use reference::listing::{list, listing};
use reference::{read_layer, FILE_WORDS, WORDS};
use std::fs::{self, File, OpenOptions};
use std::path::{Path, PathBuf};
use std::process::Command;
use std::sync::atomic::{AtomicUsize, Ordering};
use support::files::{damage_bytes, damage_file, file_bytes, layer_file_words, leave_out};
use support::polygons::{any_polygons, polygon_words};
use support::programs::{example, file, root, run, written};
use support::{rectangle, Random};

/// A polygon file listed by the example: by its path, and from standard input. Refused, it ends with 1.
fn listed(bytes: &[u8]) -> String {
    let path = temporary();
    fs::write(&path, bytes).expect("written");
    let by_path = run(&example("list"), &[&path], &[], 1);
    fs::remove_file(&path).expect("removed");
    let by_input = run::<&str>(&example("list"), &[], bytes, 1 << 20);
    assert!(by_path.stderr.is_empty() && by_input.stderr.is_empty());
    let (text, status) = written(by_path);
    assert_eq!(status, Some(text.starts_with("refused ") as i32));
    assert_eq!((text.clone(), status), written(by_input));
    text
}

/// A path for a file of a test, another one each time.
fn temporary() -> PathBuf {
    static COUNT: AtomicUsize = AtomicUsize::new(0);
    let number = COUNT.fetch_add(1, Ordering::Relaxed);
    let name = format!("examples-{}-{number}", std::process::id());
    PathBuf::from(env!("CARGO_TARGET_TMPDIR")).join(name)
}

/// The words that examples/README.md gives for a file: the first block under its heading.
fn words_in_readme(name: &str) -> Vec<i32> {
    let text = String::from_utf8(file("examples/README.md")).expect("text");
    let heading = format!("## {name}");
    let lines = text.lines().skip_while(|line| *line != heading);
    let block = lines
        .skip_while(|line| !line.starts_with("    "))
        .take_while(|line| line.starts_with("    "));
    let words = block.flat_map(str::split_whitespace);
    words
        .map(|word| word.parse().expect("a decimal number"))
        .collect()
}

#[test]
fn files_have_the_words_of_the_readme() {
    for name in ["plate.polygons", "plate-new.polygons", "two.layers"] {
        let bytes = file_bytes(&words_in_readme(name));
        assert!(bytes == file(&format!("examples/{name}")), "{name}");
    }
}

#[test]
fn list_plate() {
    let plate = file("examples/plate.polygons");
    let text = listed(&plate);
    assert_eq!(text, list(&plate));
    assert_eq!(text.as_bytes(), file("examples/plate.listing"));
    assert!(text.starts_with("pieces 13\n"));
}

/// The same polygons in a file of the new edition, which the first edition's reader refuses.
#[test]
fn list_plate_of_the_new_edition() {
    let plate = file("examples/plate-new.polygons");
    assert_eq!(listed(&plate).as_bytes(), file("examples/plate.listing"));
    let (mut out, mut scratch) = (vec![0; 512 * WORDS], vec![0; 512 * WORDS]);
    let refused = fracture_first_edition(0, &plate, &mut out, &mut scratch);
    let refused = refused.map_err(|r| r.to_string());
    assert_eq!(refused, Err("refused 6 place 0".to_string()));
}

/// The paper's example of a listing.
#[test]
fn list_triangle() {
    let triangle = file_bytes(&[1, 0, 3, 0, 0, 2, 0, 0, 2]);
    let line = [
        0, 0, 1, 0, 0, 0, 1, 1, 0, 0, 1, 0, 2, 0, 3, 1, 0, 0, 2, 0, 0, 2, 2, 0, 1,
    ];
    let text = "pieces 1\n0 0 1 0 0 0 1 1 0 0 1 0 2 0 3 1 0 0 2 0 0 2 2 0\n";
    assert_eq!(listing(&line), text);
    assert_eq!(listed(&triangle), text);
    assert_eq!(listed(&file_bytes(&[0])), "pieces 0\n");
}

#[test]
fn list_refused() {
    for bytes in [0, 1, 3, 65_533, 65_536, 200_000] {
        let text = listed(&vec![0; bytes]);
        assert_eq!(text, "refused 4 place 0\n", "{bytes} bytes");
    }
    // A fit file, made longer.
    let plate = file("examples/plate.polygons");
    for bytes in [65_533, 65_536, 65_536 + plate.len(), 200_000] {
        let mut longer = plate.clone();
        longer.resize(bytes, 0);
        assert_eq!(listed(&longer), "refused 4 place 0\n");
    }
    // One coordinate of each polygon.
    let words = words_in_readme("plate.polygons");
    let count = words[0] as usize;
    for polygon in 0..count {
        let vertex = words[1 + 2 * polygon] as usize;
        for beyond in [2049, -2049, i32::MIN, i32::MAX] {
            let mut words = words.clone();
            words[1 + 2 * count + 2 * vertex] = beyond;
            // A later one doesn't matter.
            *words.last_mut().expect("there is one") = beyond;
            let text = listed(&file_bytes(&words));
            assert_eq!(text, format!("refused 7 place {polygon}\n"));
        }
    }
}

#[test]
fn list_random_files() {
    let random = &mut Random(71);
    for _ in 0..60 {
        let mut words = polygon_words(&any_polygons(random));
        if random.once_in(2) {
            leave_out(random, &mut words);
        }
        if random.once_in(4) {
            damage_file(random, &mut words, 2);
        }
        let mut file = file_bytes(&words);
        if random.once_in(6) {
            damage_bytes(random, &mut file);
        }
        assert_eq!(listed(&file), list(&file));
    }
}

#[test]
fn list_in_trouble() {
    for arguments in [vec!["one", "two"], vec!["no/such/file"]] {
        let output = run(&example("list"), &arguments, &[], 1);
        assert!(!output.stderr.is_empty());
        assert_eq!(written(output), (String::new(), Some(2)));
    }
}

/// Runs a program on examples/two.layers with standard output, and then standard error too, on a device that
/// is always full: a line on standard error and status 2. Nothing where there is no such device.
fn assert_full_device(program: &Path, arguments: &[&str]) {
    let full = || OpenOptions::new().write(true).open("/dev/full").ok();
    let input = || File::open(root().join("examples/two.layers")).expect("there");
    let start = || {
        let mut command = Command::new(program);
        command.current_dir(root()).args(arguments).stdin(input());
        command
    };
    let (Some(out), Some(also), Some(error)) = (full(), full(), full()) else {
        return;
    };
    let output = start().stdout(out).output().expect("run");
    let text = String::from_utf8(output.stderr).expect("text");
    assert!(
        text.contains("standard output") && text.lines().count() == 1,
        "{text}"
    );
    assert_eq!(output.status.code(), Some(2));
    let output = start().stdout(also).stderr(error).output().expect("run");
    assert_eq!(output.status.code(), Some(2));
}

#[test]
fn full_devices() {
    assert_full_device(&example("list"), &["examples/plate.polygons"]);
    // Refused: two.layers is no polygon file.
    assert_full_device(&example("list"), &[]);
    let out = temporary();
    let path = out.to_str().expect("text");
    let two = "examples/two.layers";
    assert_full_device(&example("combine"), &[two, path, "0", "0", "1"]);
    assert_full_device(&example("combine"), &[two, path, "5", "0", "1"]);
    fs::remove_file(&out).expect("the file was written before its line");
    // The file that is to be written, on a full device.
    if Path::new("/dev/full").exists() {
        let arguments = [two, "/dev/full", "0", "0", "1"];
        let started = Command::new(example("combine"))
            .current_dir(root())
            .args(arguments)
            .output();
        let output = started.expect("run");
        assert!(output.stderr.starts_with(b"/dev/full: "), "{output:?}");
        assert_eq!(written(output), (String::new(), Some(2)));
    }
}

/// A layer file with these words combined by the example into another one: what it printed, its
/// status, and what it wrote.
fn combined(words: &[i32], arguments: [&str; 3]) -> ((String, Option<i32>), Option<Vec<u8>>) {
    let (input, output) = (temporary(), temporary());
    let before = file_bytes(words);
    fs::write(&input, &before).expect("written");
    let paths = [&input, &output].map(|path| path.to_str().expect("text"));
    let printed = run(
        &example("combine"),
        &[&paths[..], &arguments].concat(),
        &[],
        1,
    );
    let after = fs::read(&output).ok();
    assert!(fs::read(&input).expect("still there") == before);
    fs::remove_file(&input).expect("removed");
    let _ = fs::remove_file(&output);
    (written(printed), after)
}

/// The layers in words of a layer file, with empty sets.
fn layers_in(words: &[i32]) -> Vec<Vec<i32>> {
    let count = words[0] as usize;
    let (pairs, body) = words[1..].split_at(2 * count);
    let layer = |pair: &[i32]| {
        let (offset, length) = (pair[0] as usize, pair[1] as usize);
        let body = &body[offset * FILE_WORDS..(offset + length) * FILE_WORDS];
        let records = body.chunks(FILE_WORDS);
        records.flat_map(|lines| [lines, &[0]].concat()).collect()
    };
    pairs.chunks(2).map(layer).collect()
}

#[test]
fn combine_two_layers() {
    let words = words_in_readme("two.layers");
    let layers = layers_in(&words);
    assert_eq!(layers.len(), 2);
    for code in 0..5 {
        for a in 0..2 {
            for b in 0..2 {
                let (first, second) = (read_layer(&layers[a]), read_layer(&layers[b]));
                let result = reference::result(code, &first, &second);
                let mut expected = layers.clone();
                expected.push(reference::layer_words(&result));
                let arguments = [code.to_string(), a.to_string(), b.to_string()];
                let (printed, file) = combined(&words, arguments.each_ref().map(|x| &x[..]));
                let text = format!("layer 2 pieces {}\n", result.len());
                assert_eq!(printed, (text, Some(0)));
                let right = file_bytes(&layer_file_words(&expected));
                assert!(file == Some(right), "{arguments:?}");
            }
        }
    }
    // What examples/README.md says of them.
    let pieces = ["0", "1", "2", "3", "4"].map(|code| combined(&words, [code, "0", "1"]).0 .0);
    let said = [3, 1, 2, 2, 4].map(|pieces| format!("layer 2 pieces {pieces}\n"));
    assert_eq!(pieces, said);
}

/// Results used again, in one file.
#[test]
fn combine_in_place() {
    let path = temporary();
    fs::write(&path, file("examples/two.layers")).expect("written");
    let path = path.to_str().expect("text");
    let mut layers = layers_in(&words_in_readme("two.layers"));
    for (code, a, b) in [(0, 0, 1), (4, 0, 1), (1, 2, 3), (2, 2, 4), (3, 5, 5)] {
        let (first, second) = (read_layer(&layers[a]), read_layer(&layers[b]));
        let result = reference::result(code, &first, &second);
        let numbers = [code.to_string(), a.to_string(), b.to_string()];
        let arguments = [&[path, path][..], &numbers.each_ref().map(|x| &x[..])].concat();
        let printed = written(run(&example("combine"), &arguments, &[], 1));
        let text = format!("layer {} pieces {}\n", layers.len(), result.len());
        assert_eq!(printed, (text, Some(0)));
        layers.push(reference::layer_words(&result));
        let right = file_bytes(&layer_file_words(&layers));
        assert!(fs::read(path).expect("there") == right);
    }
    fs::remove_file(path).expect("removed");
}

#[test]
fn combine_refused() {
    let refused = |words: &[i32], arguments: [&str; 3], text: &str| {
        let printed = (format!("{text}\n"), Some(1));
        assert_eq!(combined(words, arguments), (printed, None));
    };
    let two = words_in_readme("two.layers");
    refused(&two, ["5", "0", "1"], "refused 2 place 0");
    refused(&two, ["4294967295", "1", "0"], "refused 2 place 0");
    // The file.
    refused(&[], ["0", "0", "0"], "refused 4 place 0");
    refused(&[0; 16_384], ["0", "0", "1"], "refused 4 place 0");
    refused(&[17], ["0", "0", "1"], "refused 5 place 0");
    refused(&two[..52], ["0", "0", "1"], "refused 6 place 2");
    let mut beyond = two.clone();
    beyond[52] = 2049;
    refused(&beyond, ["0", "0", "0"], "refused 7 place 1");
    let mut level = two.clone();
    level[50] = 2;
    level[52] = 2;
    refused(&level, ["0", "0", "0"], "refused 11 place 1");
    // No space in the result: 23 strips across 23 strips.
    let upright: Vec<i32> = (0..23)
        .flat_map(|k| rectangle(2 * k, 2 * k + 1, 0, 60))
        .collect();
    let lying: Vec<i32> = (0..23)
        .flat_map(|k| rectangle(0, 60, 2 * k, 2 * k + 1))
        .collect();
    let words = layer_file_words(&[upright, lying]);
    refused(&words, ["1", "0", "1"], "refused 12 place 0");
    // Two trapezoids of a layer that overlap: the file is read, the layer is refused.
    let square = rectangle(0, 4, 0, 4);
    let overlapping = [square.clone(), rectangle(2, 6, 2, 6)].concat();
    let words = layer_file_words(&[square, overlapping]);
    refused(&words, ["0", "0", "1"], "refused 13 place 2");
    refused(&words, ["1", "1", "0"], "refused 13 place 1");
    // The result is one layer, or some trapezoids, too many for a file.
    let words = layer_file_words(&vec![rectangle(0, 1, 0, 1); 16]);
    refused(&words, ["0", "0", "1"], "refused 5 place 0");
    let row: Vec<i32> = (0..257)
        .flat_map(|k| rectangle(2 * k, 2 * k + 1, 0, 1))
        .collect();
    let words = layer_file_words(&[row, vec![]]);
    refused(&words, ["0", "0", "1"], "refused 6 place 2");
}

#[test]
fn combine_in_trouble() {
    let two = root().join("examples/two.layers");
    let two = two.to_str().expect("text");
    let out = temporary();
    let path = out.to_str().expect("text");
    for arguments in [
        &[][..],
        &[two, path, "0", "0"],
        &[two, path, "0", "0", "1", "1"],
        &[two, path, "union", "0", "1"],
        &[two, path, "-1", "0", "1"],
        &[two, path, "0", "zero", "1"],
        &[two, path, "0", "0", "4294967296"],
        &[two, path, "0", "0", "2"],
        &[two, path, "0", "4294967295", "0"],
        &["no/such/file", path, "0", "0", "1"],
        &[two, "no/such/directory/out", "0", "0", "1"],
    ] {
        let output = run(&example("combine"), arguments, &[], 1);
        assert!(!output.stderr.is_empty(), "{arguments:?}");
        assert_eq!(written(output), (String::new(), Some(2)), "{arguments:?}");
        assert!(!out.exists(), "{arguments:?}");
    }
}

#[test]
fn union_in_c() {
    let words = words_in_readme("two.layers");
    let layers = layers_in(&words);
    let (first, second) = (read_layer(&layers[0]), read_layer(&layers[1]));
    let union = reference::result(0, &first, &second);
    let expected = listing(&reference::layer_words(&union));

    let program = temporary();
    let compiled = Command::new("cc")
        .current_dir(root())
        .args([
            "-std=c99",
            "-Wall",
            "-Wextra",
            "-pedantic",
            "-Werror",
            "-Iinclude",
        ])
        .args(["examples/union.c", env!("LOXURFA_ARCHIVE"), "-o"])
        .arg(&program)
        .status()
        .expect("a C compiler");
    assert!(compiled.success());
    let file = file("examples/two.layers");
    let run_on = |input: &[u8]| written(run::<&str>(&program, &[], input, 4096));
    assert_eq!(run_on(&file), (expected, Some(0)));
    assert_full_device(&program, &[]);
    assert_eq!(
        run_on(&file[1..]),
        ("refused 4 place 0\n".to_string(), Some(1))
    );
    fs::remove_file(&program).expect("removed");
}
