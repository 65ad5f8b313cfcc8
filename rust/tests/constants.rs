//! Holds the numbers in include/loxurfa.h, docs/CALLS.md, docs/FORMATS.md, README.md and the Rust crate to
//! the definitions under crates/.

mod reference;
mod support;

use loxurfa::{refused, Code};
use std::collections::BTreeMap;
use support::calls::Function;
use support::programs::file;

fn text(path: &str) -> String {
    String::from_utf8(file(path)).expect("text")
}

/// The number at the start of a text, with commas or without.
fn leading(text: &str) -> Option<i64> {
    let digits = |c: &char| c.is_ascii_digit() || *c == ',';
    let number: String = text.chars().take_while(digits).collect();
    number.replace(',', "").parse().ok()
}

/// The number that stands between two texts, each time the same.
fn between(path: &str, before: &str, after: &str) -> i64 {
    let text = text(path);
    let places = text
        .match_indices(before)
        .map(|(at, _)| &text[at + before.len()..]);
    let mut numbers: Vec<i64> = places
        .filter(|rest| {
            rest.trim_start_matches(|c: char| c.is_ascii_digit())
                .starts_with(after)
        })
        .filter_map(leading)
        .collect();
    numbers.dedup();
    match numbers[..] {
        [number] => number,
        _ => panic!("{path}: {numbers:?} between {before:?} and {after:?}"),
    }
}

/// The number that a definition `name = number` gives.
fn defined(path: &str, name: &str) -> i64 {
    between(path, &format!("\n{name} = "), "\n")
}

const LIMITS: &str = "crates/records/specs/Limits.antt";
const FORMATS: &str = "crates/files/specs/Formats.antt";

/// The numbers of a format, by name; its last field says whether lengths are left out. A format of layers is one
/// for a width, `layers_in`, at a width.
fn format(name: &str) -> BTreeMap<String, i64> {
    let text = text(FORMATS);
    let by_width = format!("\n{name} = layers_in ");
    if let Some((_, rest)) = text.split_once(&by_width) {
        let width = rest.lines().next().expect("a width");
        let mut fields = fields_of(&text, "layers_in width", "width");
        fields.insert("unit".to_string(), size(width));
        return fields;
    }
    fields_of(&text, name, "")
}

/// A number of LIMITS. The width in memory is given as one more than the width in a file.
fn size(name: &str) -> i64 {
    match name {
        "memory_width" => {
            assert!(text(LIMITS).contains("\nmemory_width = file_width + 1\n"));
            defined(LIMITS, "file_width") + 1
        }
        _ => defined(LIMITS, name),
    }
}

/// The fields of a format that have numbers; the one with this value is passed over.
fn fields_of(text: &str, name: &str, without: &str) -> BTreeMap<String, i64> {
    let start = format!("\n{name} = record {{ ");
    let (_, rest) = text.split_once(&start).expect("the format");
    let (fields, _) = rest.split_once(" }").expect("its end");
    let (numbers, _) = fields.rsplit_once("; found = ").expect("the last field");
    numbers
        .split("; ")
        .map(|field| field.split_once(" = ").expect("a field"))
        .filter(|(_, value)| *value != without)
        .map(|(name, value)| {
            let number = leading(value).unwrap_or_else(|| size(value));
            (name.to_string(), number)
        })
        .collect()
}

/// The constants: name, value by the definitions, value in the Rust crate.
fn constants() -> Vec<(&'static str, i64, i64)> {
    let (width, in_file) = (size("memory_width"), size("file_width"));
    let most = size("max_records");
    let sources = defined("crates/sources/specs/Sets.antt", "source_layers");
    let plate = defined("crates/calls/specs/Rows.antt", "plate_limit");
    let denominator = defined("crates/geometry/specs/Limit.antt", "max_denominator");
    let (polygons, layers) = (format("polygon_file edition"), format("layer_file"));
    let bytes = between(FORMATS, "leb n ", ")");
    assert!(text(LIMITS).contains("\nmax_words = memory_width * max_records\n"));
    let units = |unit: i64| 1 + 2 * layers["count"] + unit * layers["total"];
    let words = units(format("layer_words")["unit"]);
    let file_bytes = 4 * units(layers["unit"]);
    let extraction = "crates/extraction/specs/Extraction.antt";
    let triple = between(extraction, "triple_codec = record { width = ", ";");
    vec![
        ("TRAPEZOID_WORDS", width, loxurfa::TRAPEZOID_WORDS as i64),
        (
            "FILE_TRAPEZOID_WORDS",
            in_file,
            loxurfa::FILE_TRAPEZOID_WORDS as i64,
        ),
        ("MAX_TRAPEZOIDS", most, loxurfa::MAX_TRAPEZOIDS as i64),
        (
            "MAX_LAYER_WORDS",
            width * most,
            loxurfa::MAX_LAYER_WORDS as i64,
        ),
        ("SOURCE_LAYERS", sources, loxurfa::SOURCE_LAYERS.into()),
        ("PLATE_LIMIT", plate, loxurfa::PLATE_LIMIT.into()),
        (
            "MAX_DENOMINATOR",
            denominator,
            loxurfa::MAX_DENOMINATOR.into(),
        ),
        (
            "MAX_POLYGONS",
            polygons["count"],
            loxurfa::MAX_POLYGONS as i64,
        ),
        (
            "MIN_VERTICES",
            polygons["least"],
            loxurfa::MIN_VERTICES as i64,
        ),
        (
            "MAX_VERTICES",
            polygons["most"],
            loxurfa::MAX_VERTICES as i64,
        ),
        ("MAX_LAYERS", layers["count"], loxurfa::MAX_LAYERS as i64),
        ("MAX_FILE_BYTES", bytes, loxurfa::MAX_FILE_BYTES as i64),
        (
            "MAX_LAYER_FILE_WORDS",
            words,
            loxurfa::MAX_LAYER_FILE_WORDS as i64,
        ),
        (
            "MAX_LAYER_FILE_BYTES",
            file_bytes,
            loxurfa::MAX_LAYER_FILE_BYTES as i64,
        ),
        ("TRIPLE_WORDS", triple, loxurfa::TRIPLE_WORDS as i64),
        // Measured: tests/calls.rs.
        ("STACK_BYTES", 262_144, loxurfa::STACK_BYTES as i64),
    ]
}

/// The codes: name, number by the definitions, number in the Rust crate.
fn codes() -> Vec<(&'static str, i64, i64)> {
    let text = text("crates/boolean/specs/Operations.antt");
    let (_, rest) = text.split_once("\ncodes = ").expect("the codes");
    let (list, _) = rest.split_once(" ∷ []").expect("the list's end");
    let names = [
        ("union", "UNION", Code::Union),
        ("intersect", "INTERSECTION", Code::Intersection),
        ("a_minus_b", "A_MINUS_B", Code::AMinusB),
        ("b_minus_a", "B_MINUS_A", Code::BMinusA),
        (
            "symmetric_difference",
            "SYMMETRIC_DIFFERENCE",
            Code::SymmetricDifference,
        ),
    ];
    assert_eq!(list.split(" ∷ ").count(), names.len());
    names
        .map(|(name, constant, code)| {
            let number = list.split(" ∷ ").position(|other| other == name);
            (constant, number.expect("a code") as i64, code as i64)
        })
        .to_vec()
}

/// The refusals: name, number by the definitions, number in the Rust crate.
fn refusals() -> Vec<(&'static str, i64, i64)> {
    let rows = "crates/calls/specs/Rows.antt";
    let files = "crates/files/specs/Rows.antt";
    let directory = "crates/files/specs/Directory.antt";
    let fitness = "crates/geometry/specs/Fitness.antt";
    let outcomes = "crates/calls/specs/Outcomes.antt";
    let overlaps = "crates/overlay/specs/Overlaps.antt";
    let grid = between(fitness, "pass (all (line_on_grid L) (lines_of t)) ", " ");
    assert_eq!(
        grid,
        between(files, "grid_row false i below = refused_by ", " i")
    );
    let space = between(outcomes, "answer = refused ", " 0;");
    assert_eq!(
        space,
        between(
            "crates/files/specs/Outcomes.antt",
            "answer = refused ",
            " 0;"
        )
    );
    let pair = between(directory, "after_pair None i rest = wrong_by ", " i");
    assert_eq!(
        pair,
        between(directory, "at_end false n total = wrong_by ", " n")
    );
    vec![
        (
            "LENGTH",
            between(rows, "row ", " (buffers_sized"),
            refused::LENGTH.into(),
        ),
        (
            "CODE",
            between(rows, "row ", " (is_code"),
            refused::CODE.into(),
        ),
        (
            "POINT",
            between(rows, "row ", " (point_passes"),
            refused::POINT.into(),
        ),
        (
            "FILE",
            between(files, "size_row false below = refused_by ", " 0"),
            refused::FILE.into(),
        ),
        (
            "COUNT",
            between(directory, "directory_by f ws None = wrong_by ", " 0"),
            refused::COUNT.into(),
        ),
        ("PAIR", pair, refused::PAIR.into()),
        ("GRID", grid, refused::GRID.into()),
        (
            "LINE",
            between(fitness, "pass (all is_line (lines_of t)) ", " "),
            refused::LINE.into(),
        ),
        (
            "BASE",
            between(fitness, "base_crosses t.right) ", "\n"),
            refused::BASE.into(),
        ),
        (
            "BASES",
            between(fitness, "pass (left_of t.left t.right) ", "\n"),
            refused::BASES.into(),
        ),
        (
            "SIDES",
            between(fitness, "t.bottom t.top) ", "\n"),
            refused::SIDES.into(),
        ),
        ("SPACE", space, refused::SPACE.into()),
        (
            "OVERLAP",
            between(overlaps, "refuse_overlap true i c = refused_by ", " i"),
            refused::OVERLAP.into(),
        ),
        (
            "LAYER",
            between(rows, "row ", " (is_source_layer"),
            refused::LAYER.into(),
        ),
    ]
}

/// The macros of the header with a number, without LOXURFA_.
fn macros() -> BTreeMap<String, i64> {
    text("include/loxurfa.h")
        .lines()
        .filter_map(|line| line.strip_prefix("#define LOXURFA_"))
        .filter_map(|line| {
            let (name, rest) = line.split_once(' ')?;
            Some((name.to_string(), leading(rest).expect("a number")))
        })
        .collect()
}

/// The cells of the rows of the tables of a page.
fn rows(page: &str) -> Vec<Vec<String>> {
    page.lines()
        .filter_map(|line| line.strip_prefix("| ")?.strip_suffix('|'))
        .map(|line| {
            let cells = line.trim_end().split('|');
            cells.map(|cell| cell.trim().to_string()).collect()
        })
        .collect()
}

/// The number of `name` in a table of docs/CALLS.md, in the column after it.
fn in_page(rows: &[Vec<String>], name: &str) -> Option<i64> {
    let row = rows.iter().find(|row| row[0] == name)?;
    leading(&row[1])
}

#[test]
fn header_page_and_crate() {
    let mut macros = macros();
    let page = rows(&text("docs/CALLS.md"));
    for (name, right, by_crate) in [constants(), codes()].concat() {
        assert_eq!(by_crate, right, "{name} in Rust");
        assert_eq!(macros.remove(name), Some(right), "{name} in the header");
        assert_eq!(in_page(&page, name), Some(right), "{name} in CALLS.md");
    }
    for (name, right, by_crate) in refusals() {
        assert_eq!(by_crate, right, "{name} in Rust");
        let macro_name = format!("REFUSED_{name}");
        assert_eq!(macros.remove(&macro_name), Some(right), "{macro_name}");
        let mut rows = page.iter().filter(|row| row.len() == 4 && row[1] == name);
        let number = rows.next().and_then(|row| leading(&row[0]));
        assert_eq!(number, Some(right), "{name} in CALLS.md");
        assert!(rows.all(|row| leading(&row[0]) == Some(right)), "{name}");
    }
    // The values of `equal`: operand 0 is 1, operand 1 is 2.
    let packed = text("crates/calls/specs/Packed.antt");
    assert!(packed.contains("packed_equality (same overlays) = success 0 overlays"));
    assert!(packed
        .contains("packed_equality (differs operand overlays) = success (operand + 1) overlays"));
    for (name, value) in [("SAME", 0), ("DIFFERS_IN_A", 1), ("DIFFERS_IN_B", 2)] {
        assert_eq!(macros.remove(name), Some(value), "{name}");
        let said = |row: &Vec<String>| row.iter().any(|cell| cell.contains(&format!("({name})")));
        assert!(page.iter().any(said), "{name}");
    }
    assert!(macros.is_empty(), "{macros:?}");
}

/// The bits of an answer: tests/calls.rs holds the header to them.
#[test]
fn bits() {
    let packed = text("crates/calls/specs/Packed.antt");
    assert!(packed.contains("refusal number place = 2 ^ 63 + 2 ^ 32 * number + place"));
    assert!(packed.contains("success pieces overlays = 2 ^ 32 * pieces + overlays"));
}

/// The numbers in the functions: the contracts hold the functions to the definitions, so this is about
/// names that stand in both.
#[test]
fn functions() {
    let constant = |path: &str, name: &str| between(path, &format!("const {name} = "), ";");
    let records = "crates/records/src/lib.rt";
    let named: BTreeMap<&str, i64> = constants().iter().map(|c| (c.0, c.1)).collect();
    let width = named["TRAPEZOID_WORDS"];
    let text = text(records);
    assert!(text.contains("const MEMORY_WIDTH: usize = FILE_WIDTH + 1;"));
    let in_file = constant(records, "FILE_WIDTH: usize");
    assert_eq!(in_file, named["FILE_TRAPEZOID_WORDS"]);
    assert_eq!(in_file, format("layer_file")["unit"]);
    assert_eq!(width, in_file + 1);
    assert_eq!(width, format("layer_words")["unit"]);
    let most = named["MAX_TRAPEZOIDS"];
    assert_eq!(constant(records, "MAX_RECORDS: usize"), most);
    let calls = "crates/calls/src/lib.rt";
    let limit = named["PLATE_LIMIT"];
    assert_eq!(constant(calls, "PLATE_LIMIT: u32"), limit);
    let directory = "crates/directory_code/src/lib.rt";
    let bytes = between(directory, "4 <= n && n <= ", "\n");
    assert_eq!(bytes, named["MAX_FILE_BYTES"]);
    let rows = "crates/rows_code/src/lib.rt";
    assert_eq!(constant(rows, "CODES: u32"), codes().len() as i64);
    let sources = constant(rows, "SOURCE_LAYERS: u32");
    assert_eq!(sources, named["SOURCE_LAYERS"]);
    let denominator = constant(calls, "MAX_DENOMINATOR: u32");
    assert_eq!(denominator, named["MAX_DENOMINATOR"]);
}

/// A number with a comma before its last three digits.
fn said(number: i64) -> String {
    match (number / 1000, number % 1000) {
        (0, below) => below.to_string(),
        (thousands, below) => format!("{thousands},{below:03}"),
    }
}

/// The sentences with numbers in docs/CALLS.md, docs/FORMATS.md and README.md.
#[test]
fn sentences() {
    let named: BTreeMap<&str, String> = constants().iter().map(|c| (c.0, said(c.1))).collect();
    let width = &named["TRAPEZOID_WORDS"];
    let most = &named["MAX_TRAPEZOIDS"];
    let limit = &named["PLATE_LIMIT"];
    let (polygons, layers) = (format("polygon_file edition"), format("layer_file"));
    let (count, layer_count) = (polygons["count"], layers["count"]);
    let (least, largest) = (polygons["least"], polygons["most"]);
    let in_file = &named["FILE_TRAPEZOID_WORDS"];
    let words = &named["MAX_LAYER_WORDS"];
    let last = loxurfa::SOURCE_LAYERS - 1;
    let list = said(loxurfa::TRIPLE_WORDS as i64 * size("max_records"));
    let file_bytes =
        |f: &BTreeMap<String, i64>| said(4 * (1 + 2 * f["count"] + f["unit"] * f["total"]));

    let calls = [
        format!("words, {width} to a trapezoid"),
        format!("trapezoids of a layer, of an output, of all layers of a layer file; {words} words"),
        format!("coordinates run from −{limit} to {limit}"),
        format!("u is {} in a polygon file, {} in a layer file and {} in the words that `write_layers` takes", polygons["unit"], layers["unit"], format("layer_words")["unit"]),
        format!("the layer is not 0 to {last}"),
        format!("{in_file} words of lines"),
        format!("is not a multiple of {width} words or is above {words}"),
        format!("the code is not 0 to {}", codes().len() - 1),
        format!("d is not 1 to {}, or x or y is below −{limit}·d or above {limit}·d", named["MAX_DENOMINATOR"]),
        format!("or is under 4 or over {}", named["MAX_FILE_BYTES"]),
        format!("is below 0 or above {count} (layers: {layer_count})"),
        format!("its length is not {least} to {largest} (layers: not {} to {}, or the sum with it is above {})", layers["least"], layers["most"], layers["total"]),
        format!("a coordinate is below −{limit} or above {limit}"),
        format!("records of {width} words"),
        format!("give an output the {most} records"),
        format!("LOXURFA_STACK_BYTES, {},", named["STACK_BYTES"]),
        format!("three words for each trapezoid of `emitters`, at most {list},"),
    ];
    let formats = [
        format!("| entries (N) | 0 to {count} | 0 to {layer_count} |"),
        format!(
            "| units of an entry (length) | {least} to {largest} | {} to {} |",
            layers["least"], layers["most"]
        ),
        format!(
            "| a unit is | a vertex, {} words x y | a trapezoid, {} words |",
            polygons["unit"], layers["unit"]
        ),
        format!("In memory a trapezoid has {width} words"),
        format!("source layers 0 to {last}"),
        format!(
            "| units in all | at most {} ({count} times {largest}) | at most {} |",
            said(polygons["total"]),
            said(layers["total"])
        ),
        format!(
            "| longest file that passes | {} bytes | {} bytes |",
            file_bytes(&polygons),
            file_bytes(&layers)
        ),
        format!("A **grid coordinate** is a whole number from −{limit} to {limit}"),
    ];
    let readme = [
        format!("from −{limit} to {limit}"),
        format!("{count} polygons of {least} to {largest} vertices"),
        format!("{most} trapezoids"),
        format!("{layer_count} layers"),
        format!("source layers are 0 to {last}"),
    ];
    for (path, sentences) in [
        ("docs/CALLS.md", &calls[..]),
        ("docs/FORMATS.md", &formats),
        ("README.md", &readme),
    ] {
        let page = text(path);
        let page = page.split_whitespace().collect::<Vec<_>>().join(" ");
        for sentence in sentences {
            assert!(page.contains(sentence), "{path} does not say: {sentence}");
        }
    }
}

/// The table of docs/CALLS.md with each call's rows, against those that the tests meet.
#[test]
fn rows_of_each_call() {
    let page = rows(&text("docs/CALLS.md"));
    let names = [
        "fracture",
        "fracture_first_edition",
        "combine",
        "deoverlap",
        "equal",
        "contains",
        "components",
        "transistors",
        "read_layers",
        "write_layers",
    ];
    for (function, name) in Function::ALL.into_iter().zip(names) {
        let is_row =
            |row: &&Vec<String>| row[0] == format!("`{name}`") && leading(&row[1]).is_some();
        let row = page.iter().find(is_row).expect("a row for each call");
        let mut listed = Vec::new();
        for part in row[1].split(", ") {
            match part.split_once(" to ") {
                Some((first, last)) => {
                    let number = |text: &str| leading(text).expect("a number") as usize;
                    listed.extend(number(first)..=number(last));
                }
                None => listed.push(leading(part).expect("a number") as usize),
            }
        }
        assert_eq!(listed, function.rows(), "{name}");
    }
}
