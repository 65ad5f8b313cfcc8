//! Holds the documents to the repository: references to lines, must-fail edits, crates and paths.
//!
//! A code span is what stands between two backticks.
//!
//! - A reference is a code span `path:line` with a path under crates/, rust/, include/ or docs/. The
//!   nearest code span before it that is no reference is its name (of `a::b` the `b`), and occurs as
//!   a whole word in that line.
//! - A fenced block quotes the file that the last reference before it names: its lines stand there, one after the
//!   other, at that line or below it.
//! - The section "Must-fail edits" of docs/AUDIT.md names each edit, crates/C/must-fail/E.edit, as a code
//!   span `C/E` in a table row whose last cell says something; and the document names none that isn't there.
//! - The section "Crates" of README.md has a table row for each crate of crates.txt, with the name as a
//!   code span in the first cell, and no other rows.
//! - Words of the documents that begin with crates/, rust/, include/, docs/ or examples/, in code spans
//!   or not, are paths that exist. Those with a `*` stand for several and are passed over.

use std::collections::BTreeSet;
use std::fs;
use std::path::{Path, PathBuf};

fn root() -> PathBuf {
    Path::new(env!("CARGO_MANIFEST_DIR")).join("..")
}

fn read(path: &str) -> Option<String> {
    fs::read_to_string(root().join(path)).ok()
}

fn document(path: &str) -> String {
    read(path).unwrap_or_else(|| panic!("{path} is missing"))
}

/// The code spans of a text, in order. Fenced blocks have none; a span ends in its paragraph.
fn spans(text: &str) -> Vec<String> {
    let mut spans = Vec::new();
    let mut fenced = false;
    let mut paragraph = String::new();
    for line in text.lines().chain([""]) {
        let fence = line.trim_start().starts_with("```");
        fenced ^= fence;
        if !fence && !fenced && !line.trim().is_empty() {
            paragraph += line.trim();
            paragraph += " ";
            continue;
        }
        let parts: Vec<&str> = paragraph.split('`').collect();
        assert!(parts.len() % 2 == 1, "a backtick is missing: {paragraph}");
        spans.extend(parts.iter().skip(1).step_by(2).map(|s| s.to_string()));
        paragraph.clear();
    }
    spans
}

/// The lines of the section under a heading of any level, up to the next heading.
fn section<'a>(text: &'a str, heading: &str) -> Vec<&'a str> {
    let is_heading = |line: &str| line.starts_with('#');
    let mut lines = text
        .lines()
        .skip_while(|line| !is_heading(line) || line.trim_start_matches('#').trim() != heading);
    assert!(lines.next().is_some(), "there is no section {heading}");
    lines.take_while(|line| !is_heading(line)).collect()
}

/// The cells of a table row; none of another line, or of the line under a table's head.
fn cells(line: &str) -> Option<Vec<&str>> {
    let inner = line.trim().strip_prefix('|')?.strip_suffix('|')?;
    let cells: Vec<&str> = inner.split('|').map(str::trim).collect();
    let dashes = |cell: &&str| cell.chars().all(|c| c == '-' || c == ':') && !cell.is_empty();
    if cells.iter().all(dashes) {
        return None;
    }
    Some(cells)
}

// ---------------------------------------------------------------------------------------------
// References

/// Path and line number of a reference; none of another code span.
fn reference(span: &str) -> Option<(&str, usize)> {
    let (path, line) = span.rsplit_once(':')?;
    let under = ["crates/", "rust/", "include/", "docs/"];
    let named = under.iter().any(|start| path.starts_with(start));
    let digits = !line.is_empty() && line.bytes().all(|byte| byte.is_ascii_digit());
    if !named || !digits || path.contains(char::is_whitespace) {
        return None;
    }
    Some((path, line.parse().ok()?))
}

/// Whether the name occurs in the line and isn't part of a longer one.
fn occurs(name: &str, line: &str) -> bool {
    let in_name = |c: char| c.is_alphanumeric() || "_-'·".contains(c);
    line.match_indices(name).any(|(at, _)| {
        let before = line[..at].chars().next_back();
        let after = line[at + name.len()..].chars().next();
        !before.is_some_and(in_name) && !after.is_some_and(in_name)
    })
}

/// The number of references in a text, and what is wrong with them.
fn check_references(text: &str, read: impl Fn(&str) -> Option<String>) -> (usize, Vec<String>) {
    let mut count = 0;
    let mut wrong = Vec::new();
    let mut name = None;
    for span in spans(text) {
        let Some((path, number)) = reference(&span) else {
            name = Some(span);
            continue;
        };
        count += 1;
        let Some(name) = &name else {
            wrong.push(format!("{span}: no name before it"));
            continue;
        };
        let short = name.rsplit("::").next().unwrap_or(name);
        let Some(file) = read(path) else {
            wrong.push(format!("{span}: there is no such file"));
            continue;
        };
        let line = number.checked_sub(1).and_then(|n| file.lines().nth(n));
        match line {
            None => wrong.push(format!("{span}: there is no such line")),
            Some(line) if !occurs(short, line) => {
                let mut places = file.lines().enumerate();
                let found = places.find(|(_, line)| occurs(short, line));
                let hint = found.map_or("nowhere".to_string(), |(n, _)| format!("{}", n + 1));
                wrong.push(format!("{span}: no `{short}` there (first in line {hint})"));
            }
            Some(_) => {}
        }
    }
    (count, wrong)
}

#[test]
fn references() {
    let (count, wrong) = check_references(&document("docs/AUDIT.md"), read);
    assert!(wrong.is_empty(), "docs/AUDIT.md:\n{}", wrong.join("\n"));
    assert!(count > 0, "docs/AUDIT.md has no references `path:line`");
}

#[test]
fn references_of_a_sample() {
    let read = |path: &str| match path {
        "crates/a/specs/A.antt" => Some("-- first\npub Exact : Type\nexact-all = x\n".into()),
        "crates/a/src/lib.rt" => Some("pub fn put(a: u8) {}\n".into()),
        _ => None,
    };
    let right = "It is `Exact` (`crates/a/specs/A.antt:2`), proved as `exact-all`,
        `crates/a/specs/A.antt:3`.\n\n| `a::put` | `crates/a/src/lib.rt:1` `crates/a/src/lib.rt:1` |";
    assert_eq!(check_references(right, read), (4, vec![]));
    for (text, complaint) in [
        ("`Exact` `crates/a/specs/A.antt:3`", "(first in line 2)"),
        (
            "`exact` `crates/a/specs/A.antt:3`",
            "(first in line nowhere)",
        ),
        ("`Exact` `crates/a/specs/A.antt:0`", "no such line"),
        ("`Exact` `crates/a/specs/A.antt:4`", "no such line"),
        ("`Exact` `crates/a/specs/B.antt:2`", "no such file"),
        ("`crates/a/specs/A.antt:2` `Exact`", "no name"),
        ("`Exact` `x` `crates/a/specs/A.antt:2`", "no `x` there"),
    ] {
        let (count, wrong) = check_references(text, read);
        assert_eq!((count, wrong.len()), (1, 1), "{text}");
        assert!(wrong[0].contains(complaint), "{wrong:?}");
    }
    // No references: another folder, no line, in a fenced block.
    let none = "`a` `target/x:3` `crates/a` `crates/a:b` `crates/a b:3`\n```\n`crates/a:1`\n```\n";
    assert_eq!(check_references(none, read), (0, vec![]));
}

// ---------------------------------------------------------------------------------------------
// Quotations

/// The number of fenced blocks in a text, and those that aren't in the file.
fn check_quotations(text: &str, read: impl Fn(&str) -> Option<String>) -> (usize, Vec<String>) {
    let trimmed = |text: &str| -> Vec<String> {
        let lines = text.lines().map(str::trim);
        lines.map(str::to_string).collect()
    };
    let mut count = 0;
    let mut wrong = Vec::new();
    let mut last = None;
    for (i, part) in text.split("```").enumerate() {
        if i % 2 == 0 {
            let named = spans(part).into_iter().filter(|s| reference(s).is_some());
            last = named.last().or(last);
            continue;
        }
        count += 1;
        // The first line names the language.
        let quoted = trimmed(part.split_once('\n').map_or("", |(_, block)| block));
        let file = last
            .as_deref()
            .and_then(reference)
            .and_then(|(path, line)| {
                let lines = trimmed(&read(path)?);
                Some(lines.get(line - 1..)?.to_vec())
            });
        let found = file.is_some_and(|lines| lines.windows(quoted.len()).any(|w| w == quoted));
        if quoted.is_empty() || !found {
            wrong.push(format!("{last:?} has no\n{}", quoted.join("\n")));
        }
    }
    (count, wrong)
}

#[test]
fn quotations() {
    let (count, wrong) = check_quotations(&document("docs/AUDIT.md"), read);
    assert!(wrong.is_empty(), "docs/AUDIT.md:\n{}", wrong.join("\n"));
    assert!(count > 0, "docs/AUDIT.md quotes nothing");
}

#[test]
fn quotations_of_a_sample() {
    let read = |path: &str| match path {
        "crates/a/specs/A.antt" => Some("pub Exact : Type\nExact =\n    a\n    → b\n".into()),
        _ => None,
    };
    let text = |line: usize, block: &str| {
        format!("`Exact` `crates/a/specs/A.antt:{line}`:\n\n```antt\n{block}\n```\n\nNext.\n")
    };
    let right = text(1, "Exact =\n  a\n  → b");
    assert_eq!(check_quotations(&right, read), (1, vec![]));
    for wrong in [
        text(1, "Exact =\n  → b"),
        text(3, "Exact =\n  a"),
        text(9, "a"),
        text(1, ""),
        "```antt\na\n```\n".to_string(),
    ] {
        assert_eq!(check_quotations(&wrong, read).1.len(), 1, "{wrong}");
    }
}

// ---------------------------------------------------------------------------------------------
// Must-fail edits

/// Each edit of the repository, as crate/edit.
fn edits() -> BTreeSet<String> {
    let mut edits = BTreeSet::new();
    for folder in entries(&root().join("crates")) {
        let edited = folder.join("must-fail");
        if !edited.is_dir() {
            continue;
        }
        for path in entries(&edited) {
            if path
                .extension()
                .is_some_and(|extension| extension == "edit")
            {
                let name = |path: &Path| path.file_stem().map(|s| s.to_string_lossy().into_owned());
                let (folder, edit) = (name(&folder), name(&path));
                edits.insert(format!("{}/{}", folder.unwrap(), edit.unwrap()));
            }
        }
    }
    edits
}

fn entries(folder: &Path) -> Vec<PathBuf> {
    let entries = fs::read_dir(folder).expect("a folder");
    entries
        .map(|entry| entry.expect("an entry").path())
        .collect()
}

/// A code span of the form crate/edit.
fn names_an_edit(span: &str) -> bool {
    let word = |text: &str| {
        let small = |c: char| c.is_ascii_lowercase() || c.is_ascii_digit() || c == '_';
        !text.is_empty() && text.chars().all(small)
    };
    span.split_once('/')
        .is_some_and(|(a, b)| word(a) && word(b))
}

/// What is wrong with the section on must-fail edits, and with edits named elsewhere.
fn check_edits(text: &str, edits: &BTreeSet<String>) -> Vec<String> {
    let lines = section(text, "Must-fail edits");
    let of = |edit: &str| edit.split_once('/').map(|(folder, _)| folder.to_string());
    let edited: BTreeSet<_> = edits.iter().map(|edit| of(edit)).collect();
    let elsewhere = spans(text)
        .into_iter()
        .filter(|span| edited.contains(&of(span)));
    let all = spans(&lines.join("\n")).into_iter().chain(elsewhere);
    let named: BTreeSet<String> = all.filter(|span| names_an_edit(span)).collect();
    let mut explained = BTreeSet::new();
    for row in lines.iter().filter_map(|line| cells(line)) {
        let last = row.last().filter(|cell| row.len() > 1 && !cell.is_empty());
        if last.is_some() {
            explained.extend(spans(&row.join(" ")));
        }
    }
    let mut wrong = Vec::new();
    for edit in named.difference(edits) {
        wrong.push(format!("`{edit}` is no edit"));
    }
    for edit in edits.difference(&explained) {
        wrong.push(format!("`{edit}` stands in no row"));
    }
    wrong
}

#[test]
fn must_fail_edits() {
    let wrong = check_edits(&document("docs/AUDIT.md"), &edits());
    assert!(wrong.is_empty(), "docs/AUDIT.md:\n{}", wrong.join("\n"));
}

#[test]
fn must_fail_edits_of_a_sample() {
    let edits = ["a/one", "a/two", "b_c/one"].map(String::from).into();
    let text = |rows: &str| {
        format!("# Audit\n`x/y`\n## Must-fail edits\n\n| edit | breaks |\n|---|---|\n{rows}\n## Next\n`z/z`\n")
    };
    let right = text("| `a/one`, `a/two` | this `f` |\n| `b_c/one` | that |");
    assert!(check_edits(&right, &edits).is_empty());
    for (rows, complaint) in [
        ("| `a/one`, `a/two` | this |", "`b_c/one` stands in no row"),
        (
            "| `a/one`, `a/two` | this |\n\n`b_c/one`",
            "`b_c/one` stands in no row",
        ),
        (
            "| `a/one`, `a/two` | this |\n| `b_c/one` | |",
            "`b_c/one` stands in no row",
        ),
        (
            "| `a/one`, `a/two`, `b_c/one`, `b_c/two` | x |",
            "`b_c/two` is no edit",
        ),
    ] {
        assert_eq!(check_edits(&text(rows), &edits), [complaint]);
    }
    assert_eq!(check_edits(&text("| a, `one` | x |"), &edits).len(), 3);
    let elsewhere = right.replace("`x/y`", "`a/three`");
    assert_eq!(check_edits(&elsewhere, &edits), ["`a/three` is no edit"]);
}

// ---------------------------------------------------------------------------------------------
// Crates

/// The crates that crates.txt names. A static library has the word staticlib after its name.
fn crates(text: &str) -> BTreeSet<String> {
    let lines = text.lines().filter(|line| !line.starts_with('#'));
    let names = lines.filter_map(|line| line.split_once(':'));
    names
        .filter_map(|(name, _)| name.split_whitespace().next())
        .map(String::from)
        .collect()
}

/// What is wrong with the table of crates.
fn check_crates(text: &str, crates: &BTreeSet<String>) -> Vec<String> {
    let lines = section(text, "Crates");
    let mut rows = BTreeSet::new();
    let mut wrong = Vec::new();
    // The first row is the table's head.
    for row in lines.iter().filter_map(|line| cells(line)).skip(1) {
        match &spans(row[0])[..] {
            [name] if row.len() > 1 && !row[1].is_empty() => {
                if !rows.insert(name.clone()) {
                    wrong.push(format!("two rows for `{name}`"));
                }
            }
            _ => wrong.push(format!("not a crate and what it holds: {row:?}")),
        }
    }
    for name in crates.difference(&rows) {
        wrong.push(format!("no row for `{name}`"));
    }
    for name in rows.difference(crates) {
        wrong.push(format!("`{name}` is no crate"));
    }
    wrong
}

#[test]
fn table_of_crates() {
    let wrong = check_crates(&document("README.md"), &crates(&document("crates.txt")));
    assert!(wrong.is_empty(), "README.md:\n{}", wrong.join("\n"));
}

#[test]
fn table_of_crates_of_a_sample() {
    let crates = crates("# Each crate: and what it uses.\na:\nb_c: a\nd staticlib: a b_c\n");
    assert_eq!(crates, ["a", "b_c", "d"].map(String::from).into());
    let text = |rows: &str| format!("# X\n## Crates\n\n| crate | holds |\n|:--|---|\n{rows}\n");
    let right =
        text("| `a` | one |\n| `b_c` | two, with `a` |\n| `d` | three |\n\n## Next\n| `e` | f |");
    assert!(check_crates(&right, &crates).is_empty());
    for (rows, complaint) in [
        ("| `a` | one |\n| `b_c` | two |", "no row for `d`"),
        (
            "| `a` | x |\n| `b_c` | x |\n| `d` | x |\n| `e` | x |",
            "`e` is no crate",
        ),
        (
            "| `a` | x |\n| `b_c` | x |\n| `d` | x |\n| `a` | x |",
            "two rows for `a`",
        ),
    ] {
        assert_eq!(check_crates(&text(rows), &crates), [complaint]);
    }
    assert_eq!(
        check_crates(&text("| a | x |\n| `d` | |"), &crates).len(),
        5
    );
}

// ---------------------------------------------------------------------------------------------
// Paths

/// The paths that a text names.
fn paths(text: &str) -> Vec<&str> {
    let between = |c: char| c.is_whitespace() || "`()[]{}<>|,;\"'".contains(c);
    let under = ["crates/", "rust/", "include/", "docs/", "examples/"];
    let mut paths = Vec::new();
    for word in text.split(between) {
        let word = reference(word).map_or(word, |(path, _)| path);
        let word = word.trim_end_matches(['.', ':', '!', '?']);
        let named = under.iter().any(|start| word.starts_with(start));
        if named && !word.contains('*') {
            paths.push(word);
        }
    }
    paths
}

/// The paths that a text names and that aren't there.
fn missing_paths(text: &str, exists: impl Fn(&str) -> bool) -> Vec<&str> {
    let mut missing = paths(text);
    missing.retain(|path| !exists(path));
    missing
}

#[test]
fn named_paths() {
    for name in [
        "README.md",
        "docs/AUDIT.md",
        "docs/CALLS.md",
        "docs/DECISIONS.md",
        "docs/FORMATS.md",
        "examples/README.md",
    ] {
        let text = document(name);
        let missing = missing_paths(&text, |path| root().join(path).exists());
        assert!(missing.is_empty(), "{name} names\n{}", missing.join("\n"));
    }
}

#[test]
fn named_paths_of_a_sample() {
    let text =
        "See `crates/a/b.antt:12`, (docs/X.md). Or rust/; [here](examples/y.z), `rt crates/c`
        ../examples/no, crates/*/must-fail, https://x/docs/no, include/loxurfa.h:";
    let expected = [
        "crates/a/b.antt",
        "docs/X.md",
        "rust/",
        "examples/y.z",
        "crates/c",
        "include/loxurfa.h",
    ];
    assert_eq!(paths(text), expected);
    let missing = missing_paths(text, |path| path != "rust/" && path != "crates/c");
    assert_eq!(missing, ["rust/", "crates/c"]);
}
