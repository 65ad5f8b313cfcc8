//! Compares fracture with the reference: the whole answer, the whole output and the whole scratch
//! area; and its trapezoids with the winding number. Cases worked out by hand are in polygons.rs.

mod reference;
mod support;

use loxurfa::{raw, Done, Refusal};
use reference::files::{Edition, Polygon};
use reference::fracture::{edges, events, fracture_polygon, winding};
use reference::listing::{list, list_answer};
use reference::{read_layer, Fraction, Line, Point, FILE_WORDS, WORDS};
use std::cmp::Ordering;
use support::files::{about, damage_bytes, damage_file, file_bytes, leave_out};
use support::outcomes::{refusal, Outcomes};
use support::outputs::{fracture, fracture_by};
use support::polygons::{any_polygons, point_near_polygon, polygon_file, polygon_words, Window};
use support::{assert_met, rounds, Random};

/// Fractures polygons with room for some records.
fn fractured(polygons: &[Polygon], records: usize) -> (u64, Vec<i32>) {
    let (out, scratch) = (vec![7; records * WORDS], vec![9; records * WORDS]);
    let (answer, mut out) = fracture(&polygon_file(polygons), &out, &scratch);
    if answer >> 63 == 0 {
        out.truncate((answer >> 32) as usize * WORDS);
    }
    (answer, out)
}

fn pieces(count: u64) -> u64 {
    count << 32
}

/// What to see in the tests.
#[derive(Default)]
struct Seen {
    crossing_names: usize,
    crossings_at_vertices: usize,
    crossings_level: usize,
    right_limit: usize,
    coinciding: usize,
    inside: usize,
    outside: usize,
    wound_twice: usize,
    wound_back: usize,
}

impl Seen {
    /// Notes what a polygon's events show.
    fn note(&mut self, polygon: &Polygon) {
        let edges = edges(polygon);
        let names = events(polygon, &edges);
        let mark = [0, 0, 1, 0];
        let crossed = |words: [i32; 4]| words != mark;
        let named = names.iter().filter(|e| crossed(e.lines[0].words)).count();
        self.crossing_names += (named > 0) as usize;
        let limit = names.last().map_or(mark, |e| e.lines[1].words);
        self.right_limit += (limit == [2047, 1, 2048, 0]) as usize;
        // Crossings, for the ones that lend no name.
        let mut all = 0;
        let mut at_vertices = 0;
        for (number, first) in edges.iter().enumerate() {
            for second in &edges[number + 1..] {
                let Some(x) = first.line.crossing(second.line) else {
                    let level = Fraction::new(0, 1);
                    let same = first.line.height(level).compare(second.line.height(level));
                    self.coinciding += same.is_eq() as usize;
                    continue;
                };
                let inside = |words: [i32; 4]| {
                    let end = |k: i32| Fraction::new(k.into(), 1);
                    end(words[0]).less(x) && x.less(end(words[2]))
                };
                if inside(first.line.words) && inside(second.line.words) {
                    all += 1;
                    let whole = |v: &[i32; 2]| x.num == v[0] as i64 * x.den;
                    at_vertices += polygon.iter().any(whole) as usize;
                }
            }
        }
        self.crossings_at_vertices += (at_vertices > 0) as usize;
        self.crossings_level += (all > at_vertices + named) as usize;
    }
}

/// The winding number at a point that lies on no edge, by a ray to the left; none on an edge.
fn winding_to_the_left(polygon: &Polygon, p: Point) -> Option<i32> {
    let whole = |k: i32| Fraction::new(k.into(), 1);
    let mut sum = 0;
    for (number, &first) in polygon.iter().enumerate() {
        let second = polygon[(number + 1) % polygon.len()];
        let (low, high, direction) = if first[1] < second[1] {
            (first, second, -1)
        } else {
            (second, first, 1)
        };
        if low[1] == high[1] {
            let (from, to) = (whole(low[0].min(high[0])), whole(low[0].max(high[0])));
            if p.y.compare(whole(low[1])).is_eq() && from.at_most(p.x) && p.x.at_most(to) {
                return None;
            }
            continue;
        }
        if p.y.less(whole(low[1])) || whole(high[1]).less(p.y) {
            continue;
        }
        // x over y.
        let x = Line::new(&[low[1], low[0], high[1], high[0]]).height(p.y);
        match x.compare(p.x) {
            Ordering::Equal => return None,
            Ordering::Less if p.y.less(whole(high[1])) => sum += direction,
            _ => {}
        }
    }
    Some(sum)
}

/// The reference's own winding number, counted in another way.
#[test]
fn winding_of_the_reference() {
    let random = &mut Random(36);
    let rounds = rounds(40);
    let mut met = [0; 5];
    let mut on_an_edge = 0;
    for _ in 0..rounds {
        let window = Window::new(random);
        let polygon = window.polygon(random, 16);
        let [x, y] = *random.pick(&polygon);
        let [x1, y1] = *random.pick(&polygon);
        let d = random.range(1, 7);
        let p = Point::new(
            x * d + (x1 - x) / 3 + random.range(-9, 9),
            y * d + (y1 - y) / 2 + random.range(-9, 9),
            d,
        );
        let Some(number) = winding_to_the_left(&polygon, p) else {
            on_an_edge += 1;
            continue;
        };
        assert_eq!(winding(&polygon, p), number, "{p:?} {polygon:?}");
        met[(number.clamp(-2, 2) + 2) as usize] += 1;
    }
    for (number, &times) in met.iter().enumerate() {
        let name = format!("winding number {}", number as i32 - 2);
        assert_met(&name, times, rounds, 1000);
    }
    assert_met("on an edge", on_an_edge, rounds, 50);
}

/// Random polygons: the same words as the reference, and the points that the winding number says,
/// each once.
#[test]
fn polygons() {
    let random = &mut Random(31);
    let rounds = rounds(100);
    let mut met = Outcomes::default();
    let mut seen = Seen::default();
    for _ in 0..rounds {
        let polygons = any_polygons(random);
        let parts: Vec<usize> = polygons.iter().map(|p| fracture_polygon(p).len()).collect();
        let needed = parts.iter().sum::<usize>();
        let records = about(random, needed).min(512);
        let (out, scratch) = (
            random.garbage(records * WORDS),
            random.garbage(records * WORDS),
        );
        let (answer, out) = fracture(&polygon_file(&polygons), &out, &scratch);
        met.note(answer);
        if records < needed {
            assert_eq!(answer, refusal(12, 0));
            continue;
        }
        assert_eq!(answer, pieces(needed as u64));
        let mut records = out.chunks(WORDS);
        for (polygon, &count) in polygons.iter().zip(&parts) {
            let own: Vec<i32> = records.by_ref().take(count).flatten().copied().collect();
            for record in own.chunks(WORDS) {
                assert_eq!(reference::unfit(record), None, "{polygon:?}");
            }
            let own = read_layer(&own);
            if random.once_in(2) {
                seen.note(polygon);
            }
            for _ in 0..4 {
                let p = point_near_polygon(random, polygon);
                let number = winding(polygon, p);
                let holders = reference::holders(&own, p);
                assert!(
                    holders == (number != 0) as usize,
                    "{p:?}: winding number {number}, {holders} trapezoids\n{polygon:?}"
                );
                seen.inside += (number != 0) as usize;
                seen.outside += (number == 0) as usize;
                seen.wound_twice += (number.abs() > 1) as usize;
                seen.wound_back += (number < 0) as usize;
            }
        }
    }
    met.assert_refusals("fracture", &[12], rounds, 10);
    met.assert_values("fracture", rounds, 50);
    for (name, times) in [
        ("events named by crossings", seen.crossing_names),
        ("crossings at vertices", seen.crossings_at_vertices),
        ("crossings of one position", seen.crossings_level),
        ("events at 2048", seen.right_limit),
        ("edges that coincide", seen.coinciding),
        ("points inside", seen.inside),
        ("points outside", seen.outside),
        ("points wound twice", seen.wound_twice),
        ("points wound backward", seen.wound_back),
    ] {
        assert_met(name, times, rounds, 100);
    }
}

/// Polygons of many vertices on a full grid, with more trapezoids than fit, or nearly.
#[test]
fn many_vertices() {
    let random = &mut Random(32);
    let rounds = rounds(100) / 1000;
    let mut met = Outcomes::default();
    for _ in 0..rounds {
        let reach = *random.pick(&[5, 30, 2048]);
        let count = *random.pick(&[32, 31, 28, 20]);
        let number = *random.pick(&[1, 1, 2, 64]);
        let mut vertex = || [random.range(-reach, reach), random.range(-reach, reach)];
        let polygons: Vec<Polygon> = (0..number)
            .map(|_| (0..count).map(|_| vertex()).collect())
            .collect();
        met.note(fractured(&polygons, 512).0);
        let needed: usize = polygons.iter().map(|p| fracture_polygon(p).len()).sum();
        if needed <= 512 {
            assert_eq!(fractured(&polygons, needed).0, pieces(needed as u64));
            assert_eq!(fractured(&polygons, needed - 1).0, refusal(12, 0));
        }
    }
    met.assert_refusals("many", &[12], rounds, 10);
    assert_met("many done", met.done(), rounds, 10);
}

/// Files and lengths with one to three things wrong, for the reader of the new edition, with and without
/// lengths left out, and for that of the first.
#[test]
fn refusals() {
    for (edition, seed, left_out) in [
        (Edition::New, 33, 0),
        (Edition::New, 37, 1),
        (Edition::First, 38, 4),
    ] {
        refusals_by(edition, seed, left_out, rounds(60) / 2);
    }
}

/// Lengths are left out in one of `left_out` files, or in none.
fn refusals_by(edition: Edition, seed: u64, left_out: usize, rounds: usize) {
    let random = &mut Random(seed);
    let mut met = Outcomes::default();
    let (mut at_the_end, mut at_a_pair) = (0, 0);
    for _ in 0..rounds {
        let window = Window::new(random);
        let count = random.below(6);
        let polygons: Vec<Polygon> = (0..count).map(|_| window.polygon(random, 8)).collect();
        let mut words = polygon_words(&polygons);
        if left_out > 0 && random.once_in(left_out) {
            leave_out(random, &mut words);
        }
        let records = match random.below(3) {
            0 => random.below(3),
            _ => random.below(40),
        };
        let mut out = random.garbage(records * WORDS);
        let mut scratch = random.garbage(records * WORDS);
        let mut cut = false;
        for _ in 0..random.range(1, 3) {
            match random.below(16) {
                0 => {
                    let length = random.below(records * WORDS + 50);
                    scratch = random.garbage(length);
                    if random.once_in(2) {
                        out = random.garbage(length);
                    }
                }
                1 => {
                    let length = *random.pick(&[1, 24, 26, 12_288, 12_800, 12_801, 12_825]);
                    out = random.garbage(length);
                    scratch = out.clone();
                }
                2 => cut = true,
                3..=8 => damage_file(random, &mut words, 2),
                9..=13 => {
                    let body = (1 + 2 * count).min(words.len());
                    if body < words.len() {
                        let at = body + random.below(words.len() - body);
                        let beyond = [2049, -2049, 4096, 1 << 16, i32::MIN, i32::MAX];
                        words[at] = *random.pick(&beyond);
                    }
                }
                _ => {}
            }
        }
        let mut file = file_bytes(&words);
        if cut {
            damage_bytes(random, &mut file);
        }
        let layer = match random.below(8) {
            0 => *random.pick(&[32, 33, 64, 255, 1 << 31, u32::MAX]),
            _ => random.below(32) as u32,
        };
        let (answer, out) = fracture_by(edition, layer, &file, &out, &scratch);
        met.note(answer);
        if answer >> 63 == 0 {
            let mut written = out.chunks(WORDS).take((answer >> 32) as usize);
            assert!(written.all(|record| record[FILE_WORDS] == 1 << layer));
        }
        if answer >> 32 == refusal(6, 0) >> 32 {
            let end = (answer as u32).to_le_bytes() == file[..4];
            at_the_end += end as usize;
            at_a_pair += !end as usize;
        }
    }
    met.assert_refusals("fracture", &[1, 4, 5, 6, 7, 12, 14], rounds, 100);
    met.assert_later("fracture", &[6, 7], rounds, 100);
    met.assert_values("fracture", rounds, 1000);
    assert_met("6 at a pair", at_a_pair, rounds, 50);
    assert_met("6 at the end", at_the_end, rounds, 50);
}

/// Small files, cut off after each byte, lengthened, and with each word changed: by both readers, as they are
/// and with all lengths left out.
#[test]
fn every_place_of_small_files() {
    for edition in [Edition::First, Edition::New] {
        every_place(edition, false);
        every_place(edition, true);
    }
}

fn every_place(edition: Edition, left_out: bool) {
    let fracture =
        |file: &[u8], out: &[i32], scratch: &[i32]| fracture_by(edition, 31, file, out, scratch);
    let triangle = || vec![[0, 0], [4, 1], [1, 3]];
    let square = || vec![[0, 0], [2, 0], [2, 2], [0, 2]];
    let room = vec![3; 40 * WORDS];
    let mut met = Outcomes::default();
    for polygons in [
        vec![],
        vec![triangle()],
        vec![square(), triangle()],
        vec![triangle(), square(), triangle()],
    ] {
        let mut words = polygon_words(&polygons);
        for pair in 0..polygons.len() {
            words[2 + 2 * pair] *= !left_out as i32;
        }
        let file = file_bytes(&words);
        for bytes in 0..=file.len() {
            met.note(fracture(&file[..bytes], &room, &room).0);
        }
        for more in 1..12 {
            let mut longer = file.clone();
            longer.resize(file.len() + more, 0);
            met.note(fracture(&longer, &room, &room).0);
        }
        for place in 0..words.len() {
            let mut changed = words.clone();
            let near = [words[place] + 1, words[place] - 1];
            let wrong = [
                i32::MIN,
                i32::MAX,
                -1,
                0,
                2,
                3,
                32,
                33,
                64,
                65,
                2048,
                2049,
                -2048,
                -2049,
                1 << 16,
                -(1 << 24),
            ];
            for word in wrong.into_iter().chain(near) {
                changed[place] = word;
                met.note(fracture(&file_bytes(&changed), &room, &room).0);
            }
        }
    }
    // One word is changed at a time, so that the older reader meets a length 0 before any coordinate.
    if edition == Edition::First && left_out {
        met.assert_refusals("fracture", &[4, 5, 6], 1, 1);
        return;
    }
    met.assert_refusals("fracture", &[4, 5, 6, 7], 1, 1);
    met.assert_later("fracture", &[6, 7], 1, 1);
    met.assert_values("fracture", 1, 1);
}

// ---------------------------------------------------------------------------------------------
// Limits

/// 2 vertices are too few, 33 too many.
#[test]
fn numbers_of_vertices() {
    let zigzag = |count: i32| -> Polygon { (0..count).map(|k| [k % 2, k * k % 7]).collect() };
    let fit = || zigzag(5);
    assert!(fractured(&[zigzag(3)], 512).0 >> 63 == 0);
    assert!(fractured(&[fit(), zigzag(32)], 512).0 >> 63 == 0);
    for count in [0, 1, 2, 33, 34, 64] {
        assert_eq!(fractured(&[zigzag(count)], 512).0, refusal(6, 0));
        assert_eq!(
            fractured(&[fit(), zigzag(count), fit()], 512).0,
            refusal(6, 1)
        );
    }
}

/// Squares above each other, run through in one polygon; the last one `width` wide.
fn squares(width: i32) -> Polygon {
    let mut polygon = Vec::new();
    for k in 0..8 {
        let right = if k == 7 { width } else { 1 };
        polygon.extend([
            [0, 2 * k],
            [right, 2 * k],
            [right, 2 * k + 1],
            [0, 2 * k + 1],
        ]);
    }
    polygon
}

/// 64 polygons of 32 vertices and 512 trapezoids fit; 65 polygons or 513 trapezoids don't.
#[test]
fn numbers_of_polygons_and_trapezoids() {
    assert_eq!(fractured(&[], 0).0, pieces(0));
    assert_eq!(fractured(&[], 3).0, pieces(0));
    assert_eq!(fractured(&vec![squares(1); 64], 512).0, pieces(512));
    assert_eq!(fractured(&vec![squares(1); 64], 511).0, refusal(12, 0));
    assert_eq!(fractured(&vec![squares(1); 65], 512).0, refusal(5, 0));
    let mut polygons = vec![squares(1); 64];
    for place in [0, 30, 63] {
        polygons[place] = squares(2);
        assert_eq!(fractured(&polygons, 512).0, refusal(12, 0));
        polygons[place] = squares(1);
    }
    polygons[63].truncate(28);
    assert_eq!(fractured(&polygons, 512).0, pieces(511));
    let upright = vec![[5, 0], [5, 9], [5, 3]];
    assert_eq!(fractured(&vec![upright.clone(); 64], 0).0, pieces(0));
    assert_eq!(fractured(&vec![upright; 65], 0).0, refusal(5, 0));
}

/// Lengths of outputs and of files.
#[test]
fn lengths() {
    let file = polygon_file(&[vec![[0, 0], [2, 0], [0, 2]]]);
    let lent = |file: &[u8], out: usize, scratch: usize| {
        fracture(file, &vec![5; out], &vec![6; scratch]).0
    };
    assert_eq!(lent(&file, 25, 25), pieces(1));
    assert_eq!(lent(&file, 12_800, 12_800), pieces(1));
    assert_eq!(lent(&file, 0, 0), refusal(12, 0));
    for (out, scratch) in [
        (25, 0),
        (0, 25),
        (25, 50),
        (50, 25),
        (24, 24),
        (26, 26),
        (25, 26),
        // As before there were sets.
        (48, 48),
        (12_288, 12_288),
        (12_801, 12_801),
        (12_825, 12_825),
        (12_800, 12_825),
        (12_825, 12_800),
        (25_600, 25_600),
    ] {
        assert_eq!(lent(&file, out, scratch), refusal(1, 0));
        // Row 1 comes first.
        assert_eq!(lent(&[], out, scratch), refusal(1, 0));
        assert_eq!(lent(&[255; 4], out, scratch), refusal(1, 0));
    }
    for bytes in [0, 1, 2, 3, 5, 6, 7, 65_533, 65_536, 1 << 20] {
        assert_eq!(lent(&vec![0; bytes], 25, 25), refusal(4, 0));
    }
    assert_eq!(lent(&[0; 65_532], 25, 25), refusal(6, 0));
    assert_eq!(lent(&[0; 8], 25, 25), refusal(6, 0));
    assert_eq!(lent(&[0; 4], 25, 25), pieces(0));
    let mut long = vec![0; 65_532];
    long[0] = 65;
    assert_eq!(lent(&long, 25, 25), refusal(5, 0));
    long[0] = 64;
    assert_eq!(lent(&long, 25, 25), refusal(6, 0));
}

/// The lister's text by the library: fracture, as any layer, then deoverlap, each into 512 records.
fn list_by_library(file: &[u8]) -> String {
    let (mut fractured, mut out) = (vec![1; 512 * WORDS], vec![1; 512 * WORDS]);
    let mut scratch = vec![1; 512 * WORDS];
    let mut answer = raw::fracture(31, file, &mut fractured, &mut scratch);
    if answer >> 63 == 0 {
        let words = (answer >> 32) as usize * WORDS;
        answer = raw::deoverlap(&fractured[..words], &mut out, &mut scratch);
    }
    list_answer(answer, &out)
}

#[test]
fn lister_example() {
    let file = file_bytes(&[1, 0, 3, 0, 0, 2, 0, 0, 2]);
    let text = "pieces 1\n0 0 1 0 0 0 1 1 0 0 1 0 2 0 3 1 0 0 2 0 0 2 2 0\n";
    assert_eq!(list(&file), text);
    assert_eq!(list_by_library(&file), text);
    assert_eq!(list(&file_bytes(&[0])), "pieces 0\n");
    assert_eq!(list(&file[..34]), "refused 4 place 0\n");
    assert_eq!(list(&file[..32]), "refused 6 place 1\n");
    let beyond = file_bytes(&[1, 0, 3, 0, 0, -2049, 0, 0, 2]);
    assert_eq!(list(&beyond), "refused 7 place 0\n");
}

/// Fracture and deoverlap one after the other.
#[test]
fn lister_texts() {
    let random = &mut Random(34);
    let left_out = &mut Random(39);
    let rounds = rounds(2);
    let (mut listed, mut no_space, mut refused) = (0, 0, 0);
    for _ in 0..rounds {
        let polygons = any_polygons(random);
        let needed: usize = polygons.iter().map(|p| fracture_polygon(p).len()).sum();
        if needed > 60 && random.below(100) > 0 {
            continue;
        }
        let mut words = polygon_words(&polygons);
        if left_out.once_in(4) {
            leave_out(left_out, &mut words);
        }
        if random.once_in(10) {
            damage_file(random, &mut words, 2);
        }
        let file = file_bytes(&words);
        let text = list(&file);
        assert_eq!(list_by_library(&file), text, "{polygons:?}");
        if text.starts_with("pieces") {
            listed += 1;
        } else if text.starts_with("refused 12") {
            no_space += 1;
        } else {
            refused += 1;
        }
    }
    assert_met("listed", listed, rounds, 2);
    assert_met("no space", no_space, rounds, 5000);
    assert_met("refused", refused, rounds, 50);
}

/// The safe wrappers read the answer as it is meant.
#[test]
fn wrapper() {
    let random = &mut Random(35);
    let rounds = rounds(2);
    let mut met = Outcomes::default();
    for _ in 0..rounds {
        let window = Window::new(random);
        let count = random.below(4);
        let polygons: Vec<Polygon> = (0..count).map(|_| window.polygon(random, 8)).collect();
        let mut words = polygon_words(&polygons);
        if random.once_in(2) {
            leave_out(random, &mut words);
        }
        if random.once_in(2) {
            damage_file(random, &mut words, 2);
        }
        let file = file_bytes(&words);
        let records = random.below(30);
        let before = random.garbage(records * WORDS);
        let edition = *random.pick(&[Edition::First, Edition::New]);
        let layer = random.below(33) as u32;
        let (answer, expected) = fracture_by(edition, layer, &file, &before, &before);
        let (mut out, mut scratch) = (before.clone(), before);
        let typed = match edition {
            Edition::First => loxurfa::fracture_first_edition(layer, &file, &mut out, &mut scratch),
            Edition::New => loxurfa::fracture(layer, &file, &mut out, &mut scratch),
        };
        let low = (answer & 0xffff_ffff) as u32;
        let meant = if answer >> 63 == 1 {
            Err(Refusal {
                number: (answer >> 32 & 0xff) as u8,
                place: low,
            })
        } else {
            Ok(Done {
                pieces: (answer >> 32) as u32,
                overlays: low,
            })
        };
        assert_eq!(typed, meant);
        assert!(out == expected);
        met.note(answer);
    }
    met.assert_values("fracture", rounds, 50);
    assert_met("refused", met.refusals.iter().sum(), rounds, 10);
}
