//! Compares what the proved program `lister` prints with the reference, byte for byte.
//!
//! `rt ci`, and `rt run` in crates/lister, leave it at crates/lister/out/lister. LOXURFA_LISTER names
//! another program to be tested in its place.

mod reference;
mod support;

use reference::files::Polygon;
use reference::fracture::fracture_polygon;
use reference::listing::list;
use reference::LIMIT;
use std::env;
use std::fs::File;
use std::io::Write;
use std::os::fd::OwnedFd;
use std::os::unix::net::UnixStream;
use std::path::{Path, PathBuf};
use std::process::{Command, Output, Stdio};
use std::thread;
use std::time::Duration;
use support::files::{damage_bytes, damage_file, file_bytes, leave_out};
use support::polygons::{any_polygons, polygon_file, polygon_words};
use support::programs::{file, root, run};
use support::{assert_met, rounds, Random};

/// Where the program is, from the repository's root.
const LISTER: &str = "crates/lister/out/lister";

/// No file is longer, in bytes.
const LONGEST: usize = 65_532;

fn lister() -> PathBuf {
    let given = env::var_os("LOXURFA_LISTER").filter(|text| !text.is_empty());
    let path = root().join(given.unwrap_or(LISTER.into()));
    assert!(
        path.is_file(),
        "{} is missing: `rt run` in crates/lister builds it, LOXURFA_LISTER names another",
        path.display()
    );
    path
}

/// Asserts that the program printed the text and nothing else, and ended well.
fn assert_printed(output: Output, text: &str, bytes: &[u8]) {
    let start = &bytes[..bytes.len().min(400)];
    let describe = || format!("{} bytes: {start:?}", bytes.len());
    let printed = String::from_utf8_lossy(&output.stdout);
    assert!(
        output.stdout == text.as_bytes(),
        "printed\n{printed}\nnot\n{text}\n{}",
        describe()
    );
    assert!(output.stderr.is_empty(), "{output:?}\n{}", describe());
    assert!(output.status.success(), "{output:?}\n{}", describe());
}

/// Lists a file, written `step` bytes at a time, and gives the text.
fn listed(bytes: &[u8], step: usize) -> String {
    let text = list(bytes);
    let output = run::<&str>(&lister(), &[], bytes, step);
    assert_printed(output, &text, bytes);
    text
}

/// The paper's example, the file in examples/, and each start of them.
#[test]
fn known_files() {
    let triangle = file_bytes(&[1, 0, 3, 0, 0, 2, 0, 0, 2]);
    let text = "pieces 1\n0 0 1 0 0 0 1 1 0 0 1 0 2 0 3 1 0 0 2 0 0 2 2 0\n";
    assert_eq!(listed(&triangle, 1000), text);
    assert_eq!(listed(&triangle, 1), text);
    assert_eq!(listed(&file_bytes(&[0]), 1), "pieces 0\n");
    for bytes in 0..triangle.len() {
        let text = listed(&triangle[..bytes], 1000);
        assert!(text.starts_with("refused "));
    }
    let plate = file("examples/plate.polygons");
    let listing = file("examples/plate.listing");
    for step in [1000, 64, 7, 1] {
        assert_eq!(listed(&plate, step).as_bytes(), listing);
    }
    // Standard input that is a file, or nothing.
    let path = root().join("examples/plate.polygons");
    for (input, text) in [
        (Stdio::from(File::open(path).expect("there")), &listing[..]),
        (Stdio::null(), b"refused 4 place 0\n"),
    ] {
        let output = Command::new(lister()).stdin(input).output();
        let text = std::str::from_utf8(text).expect("text");
        assert_printed(output.expect("run"), text, &[]);
    }
}

/// A file whose parts come one after the other, with a wait between them.
#[test]
fn in_parts() {
    let plate = file("examples/plate.polygons");
    let listing = file("examples/plate.listing");
    for step in [1, 3, 100, 227] {
        let (mut writer, reader) = UnixStream::pair().expect("a pair");
        let output = thread::scope(|scope| {
            let plate = &plate;
            scope.spawn(move || {
                for part in plate.chunks(step) {
                    writer.write_all(part).expect("read");
                    thread::sleep(Duration::from_micros(if step < 100 { 100 } else { 50_000 }));
                }
            });
            run_on(Stdio::from(OwnedFd::from(reader)))
        });
        assert_eq!(output.stdout, listing);
        assert!(output.stderr.is_empty(), "{output:?}");
    }
}

fn run_on(input: Stdio) -> Output {
    Command::new(lister()).stdin(input).output().expect("run")
}

/// Asserts that the program wrote on standard error what failed and why, and nothing else, and ended with 1.
fn assert_failed(output: Output, what: &str, why: &str) {
    assert!(output.stdout.is_empty(), "{output:?}");
    let text = format!("Error: {what}\n\nCaused by:\n    {why}\n");
    assert_eq!(String::from_utf8_lossy(&output.stderr), text);
    assert_eq!(output.status.code(), Some(1), "{output:?}");
}

/// Input that can't be read is not listed, be it from the start or after a part.
#[test]
fn read_errors() {
    let assert_unread = |output, why| assert_failed(output, "standard input", why);
    let directory = File::open(root()).expect("there");
    assert_unread(run_on(directory.into()), "Is a directory (os error 21)");
    let path =
        Path::new(env!("CARGO_TARGET_TMPDIR")).join(format!("lister-{}", std::process::id()));
    let no_reader = File::create(&path).expect("made");
    assert_unread(run_on(no_reader.into()), "Bad file descriptor (os error 9)");
    std::fs::remove_file(path).expect("removed");
    let closed = Command::new("sh")
        .args(["-c", "exec \"$0\" <&-"])
        .arg(lister())
        .output();
    assert_unread(closed.expect("run"), "Bad file descriptor (os error 9)");

    // The whole file is there, but not the end of it.
    let plate = file("examples/plate.polygons");
    for bytes in [0, 4, plate.len() / 2, plate.len()] {
        let (mut writer, reader) = UnixStream::pair().expect("a pair");
        writer.write_all(&plate[..bytes]).expect("taken");
        reader.set_nonblocking(true).expect("set");
        let output = run_on(Stdio::from(OwnedFd::from(reader)));
        assert_unread(output, "Resource temporarily unavailable (os error 11)");
        drop(writer);
    }
}

/// A read that fails, and more bytes after it, which change nothing. When they come is a matter of time, so it is tried
/// again where they came before the read failed, and the file was listed.
#[test]
fn bytes_after_a_read_error() {
    let plate = file("examples/plate.polygons");
    let wait = Duration::from_millis(200);
    for _ in 0..50 {
        let (mut writer, reader) = UnixStream::pair().expect("a pair");
        writer.write_all(&plate[..100]).expect("taken");
        reader.set_read_timeout(Some(wait)).expect("set");
        let output = thread::scope(|scope| {
            let rest = &plate[100..];
            scope.spawn(move || {
                thread::sleep(wait * 3 / 2);
                // Too late, nobody reads it.
                let _ = writer.write_all(rest);
                thread::sleep(wait);
            });
            run_on(Stdio::from(OwnedFd::from(reader)))
        });
        if !output.status.success() {
            let why = "Resource temporarily unavailable (os error 11)";
            assert_failed(output, "standard input", why);
            return;
        }
        assert_eq!(output.stdout, file("examples/plate.listing"));
    }
    panic!("never in time");
}

/// A listing that can't be written.
#[test]
fn write_errors() {
    let full = File::options()
        .write(true)
        .open("/dev/full")
        .expect("there");
    let plate = File::open(root().join("examples/plate.polygons")).expect("there");
    let output = Command::new(lister())
        .stdin(plate)
        .stdout(full)
        .stderr(Stdio::piped())
        .spawn()
        .expect("run")
        .wait_with_output();
    let why = "No space left on device (os error 28)";
    assert_failed(output.expect("ended"), "standard output", why);
}

/// Lengths about the longest file and its multiples, with a count of 0, with a fit file at the start,
/// and with random bytes.
#[test]
fn lengths() {
    let random = &mut Random(61);
    let plate = file("examples/plate.polygons");
    let mut lengths: Vec<usize> = (0..14).collect();
    lengths.extend(LONGEST - 6..LONGEST + 16);
    for turn in [1 << 16, 2 << 16, 15 << 16] {
        lengths.extend([turn - 4, turn, turn + 4, turn + 8, turn + plate.len()]);
    }
    lengths.extend([16_900, 70_000, 100_000, 200_000, 1_000_000, 1 << 20]);
    for &bytes in &lengths {
        let mut with_plate = plate.clone();
        with_plate.resize(bytes, 0);
        let noise: Vec<u8> = (0..bytes).map(|_| random.next() as u8).collect();
        for file in [vec![0; bytes], with_plate, noise] {
            // In few parts, the first of them shorter than a file.
            let step = *random.pick(&[1 << 20, 50_000, 65_536, 65_532, 4096 * 8]);
            let text = listed(&file, step);
            if bytes > LONGEST || bytes % 4 > 0 || bytes == 0 {
                assert_eq!(text, "refused 4 place 0\n", "{bytes} bytes");
            }
        }
    }
}

/// Polygons with vertices anywhere, on a grid from -reach to reach.
fn anywhere(random: &mut Random, number: usize, count: usize, reach: i32) -> Vec<Polygon> {
    let mut vertex = || [random.range(-reach, reach), random.range(-reach, reach)];
    (0..number)
        .map(|_| (0..count).map(|_| vertex()).collect())
        .collect()
}

/// The trapezoids of polygons, before their overlaps are taken out.
fn fractured(polygons: &[Polygon]) -> usize {
    polygons.iter().map(|p| fracture_polygon(p).len()).sum()
}

/// Polygons: mostly few, now and then many.
fn polygons(random: &mut Random) -> Vec<Polygon> {
    let reach = *random.pick(&[3, 30, 300, LIMIT]);
    match random.below(20) {
        0 => anywhere(random, 64, 32, reach),
        1 => anywhere(random, 1, 30, reach),
        // Enough that overlaps make them too many.
        2 => anywhere(random, 5, 13, reach),
        3 => anywhere(random, 64, 3, reach),
        _ => loop {
            let polygons = any_polygons(random);
            if fractured(&polygons) <= 60 {
                return polygons;
            }
        },
    }
}

/// What came of random files.
#[derive(Default)]
struct Met {
    refused: [usize; 13],
    none: usize,
    one: usize,
    more: usize,
    /// Refused for space by deoverlapping.
    too_many_overlaps: usize,
    negative: usize,
}

impl Met {
    fn note(&mut self, text: &str, polygons: &[Polygon]) {
        let mut words = text.split_whitespace();
        let (kind, number) = (words.next(), words.next());
        let number: usize = number.expect("two words").parse().expect("a number");
        match (kind, number) {
            (Some("refused"), number) => self.refused[number] += 1,
            (_, 0) => self.none += 1,
            (_, 1) => self.one += 1,
            _ => self.more += 1,
        }
        if text == "refused 12 place 0\n" && fractured(polygons) <= 512 {
            self.too_many_overlaps += 1;
        }
        self.negative += text.contains('-') as usize;
    }
}

/// Random files: fit, damaged, cut off and too long.
#[test]
fn random_files() {
    let random = &mut Random(62);
    let rounds = (rounds(100) / 1000).max(300);
    let mut met = Met::default();
    for _ in 0..rounds {
        let polygons = polygons(random);
        let mut words = polygon_words(&polygons);
        let body = 1 + 2 * polygons.len();
        if random.once_in(3) {
            leave_out(random, &mut words);
        }
        let kind = random.below(12);
        match kind {
            0 | 1 => damage_file(random, &mut words, 2),
            2 if words.len() > body => {
                let at = body + random.below(words.len() - body);
                words[at] = *random.pick(&[2049, -2049, 1 << 16, i32::MIN, i32::MAX]);
            }
            _ => {}
        }
        let mut file = file_bytes(&words);
        match kind {
            3 => damage_bytes(random, &mut file),
            4 => file.truncate(random.below(file.len() + 1)),
            5 => {
                let longer = LONGEST + random.below(1 << 20);
                file.resize(longer.min(1 << 20), random.next() as u8);
            }
            _ => {}
        }
        let step = match random.below(3) {
            0 => 1 << 20,
            _ => file.len() / (1 + random.below(20)) + 1,
        };
        met.note(&listed(&file, step), &polygons);
    }
    for number in [4, 5, 6, 7, 12] {
        let name = format!("refused {number}");
        assert_met(&name, met.refused[number], rounds, 100);
    }
    let others: usize = [1, 2, 3, 8, 9, 10, 11].map(|n| met.refused[n]).iter().sum();
    assert_eq!(others, 0);
    assert_met("none", met.none, rounds, 50);
    assert_met("one", met.one, rounds, 50);
    assert_met("more", met.more, rounds, 4);
    assert_met("negative words", met.negative, rounds, 4);
    assert_met("too many overlaps", met.too_many_overlaps, rounds, 150);
}

/// 512 trapezoids, and one more.
#[test]
fn most_trapezoids() {
    // Eight boxes above each other, in one polygon.
    let boxes = |x: i32, right: i32| -> Polygon {
        let rows = (0..8).map(|row| 200 * row - 2048);
        let corners = |y: i32| [[x, y], [right, y], [right, y + 99], [x, y + 99]];
        rows.flat_map(corners).collect()
    };
    let mut polygons: Vec<Polygon> = (0..64)
        .map(|k| boxes(60 * k - 2048, 60 * k - 2000))
        .collect();
    let text = listed(&polygon_file(&polygons), 1 << 20);
    assert!(text.starts_with("pieces 512\n"));
    assert_eq!(text.lines().count(), 513);
    // One box wider than the others: one trapezoid more.
    polygons[63][1][0] += 1;
    polygons[63][2][0] += 1;
    assert_eq!(
        listed(&polygon_file(&polygons), 1 << 20),
        "refused 12 place 0\n"
    );
    polygons.pop();
    let text = listed(&polygon_file(&polygons), 1 << 20);
    assert!(text.starts_with("pieces 504\n"));
    // 65 polygons are too many.
    polygons.resize(65, boxes(0, 1));
    assert_eq!(
        listed(&polygon_file(&polygons), 1 << 20),
        "refused 5 place 0\n"
    );
}

/// A text longer than a pipe holds: many trapezoids, most of them with bases at crossings, and words of
/// four digits and a sign.
#[test]
fn long_text() {
    let random = &mut Random(63);
    for _ in 0..20_000 {
        let count = random.range(20, 32) as usize;
        let mut polygon = anywhere(random, 1, count, 500).remove(0);
        polygon.iter_mut().flatten().for_each(|word| *word -= 1500);
        if !(480..513).contains(&fracture_polygon(&polygon).len()) {
            continue;
        }
        let file = polygon_file(&[polygon]);
        if list(&file).len() > 1 << 16 {
            listed(&file, 1 << 20);
            return;
        }
    }
    panic!("no long text found");
}
