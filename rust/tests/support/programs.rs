//! Runs programs for the tests.

use std::ffi::OsStr;
use std::io::{ErrorKind, Write};
use std::path::{Path, PathBuf};
use std::process::{Command, Output, Stdio};
use std::time::Duration;
use std::{env, fs, thread};

/// The repository's root.
pub fn root() -> PathBuf {
    Path::new(env!("CARGO_MANIFEST_DIR")).join("..")
}

/// A file of the repository.
pub fn file(path: &str) -> Vec<u8> {
    fs::read(root().join(path)).unwrap_or_else(|error| panic!("{path}: {error}"))
}

/// An example of this package, built beside the test that runs.
pub fn example(name: &str) -> PathBuf {
    let test = env::current_exe().expect("a test has a path");
    let profile = test.parent().and_then(Path::parent).expect("in deps/");
    let path = profile.join("examples").join(name);
    assert!(
        path.is_file(),
        "{} is missing: `cargo test` or `cargo build --examples` builds it",
        path.display()
    );
    path
}

/// What a program wrote to standard output, and its exit status.
pub fn written(output: Output) -> (String, Option<i32>) {
    let text = String::from_utf8(output.stdout).expect("standard output is text");
    (text, output.status.code())
}

/// Runs a program with this standard input, written `step` bytes at a time with short waits between.
/// The program may end before it has read them all.
pub fn run<A: AsRef<OsStr>>(program: &Path, arguments: &[A], input: &[u8], step: usize) -> Output {
    let mut child = Command::new(program)
        .args(arguments)
        .stdin(Stdio::piped())
        .stdout(Stdio::piped())
        .stderr(Stdio::piped())
        .spawn()
        .unwrap_or_else(|error| panic!("{}: {error}", program.display()));
    let mut stdin = child.stdin.take().expect("piped");
    thread::scope(|scope| {
        scope.spawn(move || {
            for (number, part) in input.chunks(step).enumerate() {
                if number > 0 {
                    thread::sleep(Duration::from_micros(200));
                }
                match stdin.write_all(part) {
                    Err(error) if error.kind() == ErrorKind::BrokenPipe => break,
                    other => other.expect("standard input takes bytes"),
                }
            }
        });
        child.wait_with_output().expect("the program ends")
    })
}
