//! Compares the library with the reference, call by call: the whole answer, the whole output and
//! the whole scratch area.

mod reference;
mod support;

use loxurfa::{raw, Code, Done, Equality, Refusal};
use reference::{read_layer, Trapezoid, FILE_WORDS, WORDS};
use support::outcomes::refusal;
use support::{assert_met, damage, point_near, rectangle, rounds, whole_point, Random, Scene};

/// How often each outcome came up.
#[derive(Default, Debug)]
struct Met {
    refusals: [usize; 14],
    values: [usize; 3],
}

impl Met {
    /// Notes an answer. Values from 2 on are noted together.
    fn note(&mut self, answer: u64) {
        if answer >> 63 == 1 {
            self.refusals[(answer >> 32) as u8 as usize] += 1;
        } else {
            self.values[((answer >> 32) as usize).min(2)] += 1;
        }
    }

    fn done(&self) -> usize {
        self.values.iter().sum()
    }
}

/// One call's inputs.
struct Call {
    code: u32,
    a: Vec<i32>,
    b: Vec<i32>,
    /// A is lent in the place of B too.
    twice: bool,
    out: Vec<i32>,
    scratch: Vec<i32>,
}

impl Call {
    fn b(&self) -> &[i32] {
        if self.twice {
            &self.a
        } else {
            &self.b
        }
    }

    fn describe(&self) -> String {
        format!(
            "code {} out {} scratch {}\na {:?}\nb {:?}",
            self.code,
            self.out.len(),
            self.scratch.len(),
            self.a,
            self.b()
        )
    }

    /// Runs an operation of the library and of the reference and gives the answer they agree on,
    /// with the output.
    fn compare(
        &self,
        library: impl Fn(&mut [i32], &mut [i32]) -> u64,
        reference: impl Fn(&mut [i32], &mut [i32]) -> u64,
    ) -> (u64, Vec<i32>) {
        let (mut out, mut scratch) = (self.out.clone(), self.scratch.clone());
        let (mut expected, mut expected_scratch) = (self.out.clone(), self.scratch.clone());
        let answer = library(&mut out, &mut scratch);
        let right = reference(&mut expected, &mut expected_scratch);
        assert!(
            answer == right,
            "answer {answer:#x}, not {right:#x}\n{}",
            self.describe()
        );
        assert!(
            out == expected,
            "output {out:?}\nnot {expected:?}\n{}",
            self.describe()
        );
        assert!(
            scratch == expected_scratch,
            "scratch area\n{}",
            self.describe()
        );
        (answer, out)
    }

    fn combine(&self) -> (u64, Vec<i32>) {
        self.compare(
            |out, scratch| raw::combine(self.code, &self.a, self.b(), out, scratch),
            |out, scratch| reference::combine(self.code, &self.a, self.b(), out, scratch),
        )
    }

    fn deoverlap(&self) -> (u64, Vec<i32>) {
        self.compare(
            |out, scratch| raw::deoverlap(&self.a, out, scratch),
            |out, scratch| reference::deoverlap(&self.a, out, scratch),
        )
    }

    fn equal(&self) -> (u64, Vec<i32>) {
        self.compare(
            |out, scratch| raw::equal(&self.a, self.b(), out, scratch),
            |out, scratch| reference::equal(&self.a, self.b(), out, scratch),
        )
    }

    fn contains(&self, x: i32, y: i32, d: i32) -> u64 {
        let answer = raw::contains(x, y, d, &self.a, self.b(), self.code);
        let right = reference::contains(x, y, d, &self.a, self.b(), self.code);
        assert!(
            answer == right,
            "({x}, {y}, {d}): answer {answer:#x}, not {right:#x}\n{}",
            self.describe()
        );
        answer
    }
}

/// Records for an output, mostly about as many as needed.
fn about(random: &mut Random, needed: usize) -> usize {
    let records = match random.below(10) {
        0 | 1 => needed,
        2 | 3 => needed.saturating_sub(1),
        4 => needed + 1,
        5 => random.below(needed + 1),
        6 => random.below(needed + 6),
        7 => random.below(40),
        8 => 0,
        _ => random.below(513),
    };
    records.min(512)
}

/// A way to make a layer of at most so many trapezoids, or parts of them.
type Maker = fn(&Scene, &mut Random, usize) -> Vec<i32>;

/// Layers, buffers to be chosen.
fn layers(random: &mut Random, most: usize, layer: Maker) -> Call {
    let scene = Scene::new(random);
    let a = layer(&scene, random, most);
    let b = if random.once_in(4) {
        scene.kin(random, &a)
    } else {
        layer(&scene, random, most)
    };
    let (a, b) = if random.once_in(2) { (a, b) } else { (b, a) };
    Call {
        code: random.below(5) as u32,
        a,
        b,
        twice: random.once_in(20),
        out: Vec::new(),
        scratch: Vec::new(),
    }
}

fn buffers(random: &mut Random, call: &mut Call, records: usize) {
    call.out = random.garbage(records * WORDS);
    call.scratch = random.garbage(records * WORDS);
}

fn pieces(answer: u64) -> usize {
    (answer >> 32) as usize
}

/// What the safe wrappers should make of an answer that counts trapezoids.
fn as_done(answer: u64) -> Result<Done, Refusal> {
    let low = (answer & 0xffff_ffff) as u32;
    if answer >> 63 == 1 {
        Err(Refusal {
            number: (answer >> 32 & 0xff) as u8,
            place: low,
        })
    } else {
        Ok(Done {
            pieces: pieces(answer) as u32,
            overlays: low,
        })
    }
}

/// The reference's own overlay: each point in exactly the part that its tag says, at most 15 parts.
#[test]
fn overlay_of_the_reference() {
    let random = &mut Random(9);
    let rounds = rounds(40);
    let mut parts = Vec::new();
    let mut met = [0; 16];
    let mut tags = [0; 4];
    for _ in 0..rounds {
        let scene = Scene::new(random);
        let a = read_layer(&scene.trapezoid(random));
        let b = read_layer(&scene.trapezoid(random));
        // The quick way out is taken exactly where no part is in both.
        parts.clear();
        reference::divide(&a[0], &b[0], &mut parts);
        let both = parts.iter().any(|part| part.tag == 3);
        assert_eq!(both, !reference::plainly_apart(&a[0], &b[0]));

        reference::overlay(&a[0], &b[0], &mut parts);
        met[parts.len()] += 1;
        for part in &parts {
            let mut words = [0; WORDS];
            part.trapezoid.write(&mut words);
            assert_eq!(reference::unfit(&words), None, "{a:?} {b:?}");
        }
        for _ in 0..6 {
            let p = point_near(random, &[&a, &b]);
            let tag = a[0].holds(p) as u8 + 2 * b[0].holds(p) as u8;
            let mut holders = parts.iter().filter(|part| part.trapezoid.holds(p));
            let found = holders.next().map_or(0, |part| part.tag);
            assert!(found == tag && holders.next().is_none(), "{a:?} {b:?}");
            tags[tag as usize] += 1;
        }
    }
    assert_met("apart", met[2], rounds, 10);
    for (number, &times) in met.iter().enumerate().skip(1) {
        assert_met(&format!("{number} parts"), times, rounds, 5000);
    }
    for (tag, &times) in tags.iter().enumerate() {
        assert_met(&format!("tag {tag}"), times, rounds, 4);
    }
}

/// The trapezoid at this place of the layers, numbered on, has a rational point in common with an earlier
/// one of its layer.
fn assert_overlap_at(layers: &[&[Trapezoid]], mut place: usize) {
    for layer in layers {
        if place < layer.len() {
            let apart = |earlier| reference::plainly_apart(&layer[place], earlier);
            assert!(!layer[..place].iter().all(apart), "{layer:?} {place}");
            return;
        }
        place -= layer.len();
    }
    panic!("there is no such place");
}

#[test]
fn combine() {
    let random = &mut Random(1);
    let rounds = rounds(100);
    let mut met: [Met; 5] = Default::default();
    let mut overlaps = [0; 2];
    let (mut yes, mut no) = (0, 0);
    for _ in 0..rounds {
        let mut call = layers(random, 12, Scene::mostly_disjoint_layer);
        let (a, b) = (read_layer(&call.a), read_layer(call.b()));
        let needed = reference::room_to_combine(call.code, &a, &b);
        let records = about(random, needed);
        buffers(random, &mut call, records);
        let (answer, out) = call.combine();
        met[call.code as usize].note(answer);
        // Overlaps come before the space.
        if answer >> 32 == refusal(13, 0) >> 32 {
            let place = answer as u32 as usize;
            assert_overlap_at(&[&a, &b], place);
            overlaps[(place >= a.len()) as usize] += 1;
            continue;
        }
        assert_eq!(answer >> 63 == 1, records < needed);
        if answer >> 63 == 1 {
            continue;
        }

        // The points of the library's result, by the set words.
        let result = read_layer(&out[..pieces(answer) * WORDS]);
        for _ in 0..6 {
            let p = point_near(random, &[&a, &b]);
            let (in_a, in_b) = (reference::holders(&a, p), reference::holders(&b, p));
            assert!(in_a <= 1 && in_b <= 1, "{p:?}\n{}", call.describe());
            let said = reference::set_word(call.code, in_a > 0, in_b > 0);
            let times = reference::holders(&result, p);
            assert!(times == said as usize, "{p:?}\n{}", call.describe());
            if said {
                yes += 1;
            } else {
                no += 1;
            }
        }
    }
    for (code, met) in met.iter().enumerate() {
        let name = format!("code {code}");
        assert_met(&format!("{name} refused 12"), met.refusals[12], rounds, 100);
        assert_met(&format!("{name} refused 13"), met.refusals[13], rounds, 400);
        assert_met(&format!("{name} empty"), met.values[0], rounds, 400);
        assert_met(&format!("{name} one"), met.values[1], rounds, 400);
        assert_met(&format!("{name} more"), met.values[2], rounds, 50);
        let both = met.refusals[12] + met.refusals[13];
        assert_eq!(met.refusals.iter().sum::<usize>(), both);
    }
    assert_met("overlaps in A", overlaps[0], rounds, 100);
    assert_met("overlaps in B", overlaps[1], rounds, 100);
    assert_met("points in", yes, rounds, 4);
    assert_met("points out", no, rounds, 4);
}

#[test]
fn deoverlap() {
    let random = &mut Random(2);
    let rounds = rounds(40);
    let mut met = Met::default();
    for _ in 0..rounds {
        let mut call = layers(random, 14, Scene::any_layer);
        let a = read_layer(&call.a);
        let needed = reference::room_to_deoverlap(&a);
        let records = about(random, needed);
        buffers(random, &mut call, records);
        let (answer, out) = call.deoverlap();
        met.note(answer);
        assert_eq!(answer >> 63 == 1, records < needed);
        if answer >> 63 == 1 {
            continue;
        }
        let result = read_layer(&out[..pieces(answer) * WORDS]);
        for _ in 0..6 {
            let p = point_near(random, &[&a]);
            let times = reference::holders(&result, p);
            let said = reference::lies_in(&a, p) as usize;
            assert!(times == said, "{p:?}\n{}", call.describe());
        }
    }
    assert_met("refused 12", met.refusals[12], rounds, 20);
    assert_met("empty", met.values[0], rounds, 50);
    assert_met("one", met.values[1], rounds, 50);
    assert_met("more", met.values[2], rounds, 5);
}

#[test]
fn equal() {
    let random = &mut Random(3);
    let rounds = rounds(60);
    let mut met = Met::default();
    for _ in 0..rounds {
        let scene = Scene::new(random);
        let a = scene.mostly_disjoint_layer(random, 8);
        let b = match random.below(3) {
            0 => scene.mostly_disjoint_layer(random, 8),
            _ => scene.kin(random, &a),
        };
        let mut call = Call {
            code: 0,
            a,
            b,
            twice: random.once_in(30),
            out: Vec::new(),
            scratch: Vec::new(),
        };
        if random.once_in(2) {
            std::mem::swap(&mut call.a, &mut call.b);
        }
        let (a, b) = (read_layer(&call.a), read_layer(call.b()));
        let needed = reference::room_to_equal(&a, &b);
        let records = about(random, needed);
        buffers(random, &mut call, records);
        let (answer, out) = call.equal();
        met.note(answer);
        if answer >> 32 == refusal(13, 0) >> 32 {
            assert_overlap_at(&[&a, &b], answer as u32 as usize);
            continue;
        }
        assert_eq!(answer >> 63 == 1, records < needed);
        assert!(out.iter().all(|&word| word == 0));
        if answer >> 63 == 1 {
            continue;
        }
        // No point tells the same layers apart.
        if answer >> 32 == 0 {
            for _ in 0..6 {
                let p = point_near(random, &[&a, &b]);
                let same = reference::lies_in(&a, p) == reference::lies_in(&b, p);
                assert!(same, "{p:?}\n{}", call.describe());
            }
        }
    }
    assert_met("refused 12", met.refusals[12], rounds, 20);
    assert_met("refused 13", met.refusals[13], rounds, 50);
    assert_met("same", met.values[0], rounds, 20);
    assert_met("differs 0", met.values[1], rounds, 20);
    assert_met("differs 1", met.values[2], rounds, 20);
}

#[test]
fn contains() {
    let random = &mut Random(4);
    let rounds = rounds(60);
    let mut met: [Met; 5] = Default::default();
    let mut on_limits = 0;
    for _ in 0..rounds {
        let call = layers(random, 8, Scene::any_layer);
        let (a, b) = (read_layer(&call.a), read_layer(call.b()));
        for _ in 0..2 {
            let mut chosen = None;
            for _ in 0..4 {
                chosen = chosen.or_else(|| whole_point(point_near(random, &[&a, &b])));
            }
            on_limits += chosen.is_some() as usize;
            let (x, y, d) = chosen.unwrap_or_else(|| {
                let d = random.range(1, 1024);
                (random.range(-9 * d, 9 * d), random.range(-9 * d, 9 * d), d)
            });
            let answer = call.contains(x, y, d);
            met[call.code as usize].note(answer);
            // The result without room, by the set words.
            let p = reference::Point::new(x, y, d);
            let (in_a, in_b) = (reference::lies_in(&a, p), reference::lies_in(&b, p));
            let said = reference::set_word(call.code, in_a, in_b);
            assert!(answer == (said as u64) << 32, "{p:?}\n{}", call.describe());
        }
    }
    for (code, met) in met.iter().enumerate() {
        assert_met(&format!("code {code} no"), met.values[0], rounds, 20);
        assert_met(&format!("code {code} yes"), met.values[1], rounds, 40);
        assert_eq!(met.values[2], 0);
    }
    assert_met("points by bases and sides", on_limits, rounds, 2);
}

/// A length that row 1 refuses.
fn odd_length(random: &mut Random, length: usize) -> usize {
    match random.below(4) {
        0 => length + 1 + random.below(24),
        1 => (length + 1 + random.below(24)).saturating_sub(25),
        2 => 12_800 + 25 * (1 + random.below(3)),
        _ => 12_800 + random.below(30),
    }
}

#[test]
fn refusals() {
    let random = &mut Random(5);
    let rounds = rounds(100);
    let mut met_combine = Met::default();
    let mut met_deoverlap = Met::default();
    let mut met_equal = Met::default();
    let mut met_contains = Met::default();
    let mut later_places = 0;
    let mut places_in_b = 0;
    for _ in 0..rounds {
        let mut call = layers(random, 5, Scene::mostly_disjoint_layer);
        let records = match random.below(4) {
            0 => 0,
            1 => random.below(4),
            _ => random.below(30),
        };
        buffers(random, &mut call, records);
        let (mut x, mut y, mut d) = (random.range(-4, 4), random.range(-4, 4), random.range(1, 3));
        // One to three things wrong.
        for _ in 0..random.range(1, 3) {
            match random.below(24) {
                0 => {
                    let length = odd_length(random, call.a.len());
                    call.a.resize(length, 0);
                }
                1 => {
                    let length = odd_length(random, call.b.len());
                    call.b.resize(length, 0);
                }
                2 => {
                    let length = odd_length(random, call.out.len());
                    call.out = random.garbage(length);
                    if random.once_in(2) {
                        call.scratch = random.garbage(length);
                    }
                }
                3 => {
                    let length = odd_length(random, call.scratch.len());
                    call.scratch = random.garbage(length);
                }
                4 => {
                    let length = random_records(random) * WORDS;
                    call.scratch = random.garbage(length);
                }
                5 | 6 => {
                    let codes = [5, 6, 255, 256, 1 << 31, u32::MAX, u32::MAX - 3];
                    call.code = *random.pick(&codes);
                }
                7 => {
                    d = *random.pick(&[0, -1, 1025, i32::MIN, i32::MAX, -1024]);
                }
                8 => {
                    d = *random.pick(&[1, 2, 3, 1023, 1024]);
                    let most = 2048 * d;
                    let far = [most + 1, -most - 1, i32::MIN, i32::MAX, most, -most];
                    x = *random.pick(&far);
                    if random.once_in(3) {
                        y = *random.pick(&far);
                    }
                }
                9 => {
                    d = *random.pick(&[1, 2, 3, 1023, 1024]);
                    let most = 2048 * d;
                    y = *random.pick(&[most + 1, -most - 1, i32::MIN, i32::MAX, most, -most]);
                }
                10..=16 => damage(random, &mut call.a),
                _ => damage(random, &mut call.b),
            }
        }

        let (answer, _) = call.combine();
        met_combine.note(answer);
        if answer >> 63 == 1 && answer as u32 > 0 {
            later_places += 1;
            if answer as u32 as usize >= call.a.len() / WORDS {
                places_in_b += 1;
            }
        }
        met_deoverlap.note(call.deoverlap().0);
        met_equal.note(call.equal().0);
        met_contains.note(call.contains(x, y, d));
    }
    for (name, met, numbers) in [
        (
            "combine",
            &met_combine,
            &[1, 2, 7, 8, 9, 10, 11, 12, 13][..],
        ),
        ("deoverlap", &met_deoverlap, &[1, 7, 8, 9, 10, 11, 12][..]),
        ("equal", &met_equal, &[1, 7, 8, 9, 10, 11, 12, 13][..]),
        ("contains", &met_contains, &[1, 2, 3, 7, 8, 9, 10, 11][..]),
    ] {
        assert_met(&format!("{name} done"), met.done(), rounds, 50);
        for number in 1..14 {
            let times = met.refusals[number];
            if numbers.contains(&number) {
                assert_met(&format!("{name} refused {number}"), times, rounds, 200);
            } else {
                assert_eq!(times, 0, "{name} refused {number}");
            }
        }
    }
    assert_met("places past 0", later_places, rounds, 20);
    assert_met("places in B", places_in_b, rounds, 50);
}

fn random_records(random: &mut Random) -> usize {
    match random.below(3) {
        0 => random.below(3),
        1 => random.below(40),
        _ => random.below(513),
    }
}

/// Random words, nearly always unfit.
#[test]
fn noise() {
    let random = &mut Random(6);
    let rounds = rounds(20);
    let mut met = Met::default();
    for _ in 0..rounds {
        let reach = *random.pick(&[1, 2, 5, 2048, 2049, 3000]);
        let mut noise = |records: usize| -> Vec<i32> {
            (0..records * WORDS)
                .map(|_| match random.below(400) {
                    0 => random.next() as i32,
                    _ => random.range(-reach, reach),
                })
                .collect()
        };
        let mut call = Call {
            code: 0,
            a: noise(2),
            b: noise(1),
            twice: false,
            out: Vec::new(),
            scratch: Vec::new(),
        };
        // Lines from left to right, so that later rows are reached.
        if random.below(8) > 0 {
            let records = call.a.chunks_mut(WORDS).chain(call.b.chunks_mut(WORDS));
            for line in records.flat_map(|record| record[..FILE_WORDS].chunks_mut(4)) {
                if line[0] > line[2] {
                    line.swap(0, 2);
                } else if line[0] == line[2] && line[2] < 2048 {
                    line[2] += 1;
                }
            }
        }
        call.code = random.below(5) as u32;
        buffers(random, &mut call, 20);
        met.note(call.combine().0);
        met.note(call.equal().0);
        met.note(call.deoverlap().0);
        call.contains(0, 0, 1);
    }
    for number in [7, 8, 9, 10, 11] {
        assert_met(
            &format!("refused {number}"),
            met.refusals[number],
            rounds,
            50,
        );
    }
}

/// The layer's first trapezoid in the place of its last.
fn end_with_the_first(layer: &mut [i32]) {
    let last = layer.len() - WORDS;
    layer.copy_within(..WORDS, last);
}

/// Layers of many trapezoids, up to 512 and past it.
#[test]
fn large() {
    let random = &mut Random(7);
    let rounds = (rounds(100) / 1000).max(20);
    let mut met = Met::default();
    let mut full = 0;
    for round in 0..rounds {
        // Tiles in rows, a random choice of them, some slanted; each within a place of its own.
        let mut tiles = |count: usize| -> Vec<i32> {
            let mut places: Vec<i32> = (0..32 * 32).collect();
            random.shuffle(&mut places);
            places.truncate(count);
            let mut words = Vec::new();
            for place in places {
                let (x, y) = (place % 32 * 60 - 960, place / 32 * 60 - 960);
                let (dx, dy) = (random.range(0, 30), random.range(10, 30));
                let slope = random.range(-10, 10);
                let line = |y: i32| reference::Line::new(&[x, y, x + 60, y + slope]);
                words.extend(support::six_lines(
                    support::mark(x + dx),
                    support::mark(x + dx + 25),
                    line(y + dy),
                    line(y + dy + 20),
                ));
            }
            words
        };
        let counts = [512, 511, 513, 300, 255, 200, 40, 1];
        let (a, b) = match round % 4 {
            0 => (tiles(512), tiles(512)),
            1 => {
                let a = tiles(counts[round / 4 % 8]);
                (a.clone(), a)
            }
            _ => (tiles(counts[round % 8]), tiles(counts[round / 4 % 8])),
        };
        // Now and then the first tile in the place of the last.
        let (mut a, mut b) = (a, b);
        match round % 8 {
            5 => end_with_the_first(&mut a),
            6 => end_with_the_first(&mut b),
            _ => {}
        }
        let mut call = Call {
            code: round as u32 % 5,
            a,
            b,
            twice: false,
            out: Vec::new(),
            scratch: Vec::new(),
        };
        let records = *random.pick(&[512, 512, 511, 400]);
        buffers(random, &mut call, records);
        for (answer, _) in [call.combine(), call.equal(), call.deoverlap()] {
            met.note(answer);
            full += (answer >> 32 == 512) as usize;
        }
        call.contains(random.range(-900, 900), random.range(-900, 900), 1);
    }
    assert!(met.refusals[1] > 0 && met.refusals[12] > 0 && met.done() > rounds / 2);
    assert_met("refused 13", met.refusals[13], rounds, 8);
    assert!(full > 0, "{met:?}");
}

/// A call with room for 40 records.
fn call(code: u32, a: &[i32], b: &[i32]) -> Call {
    Call {
        code,
        a: a.to_vec(),
        b: b.to_vec(),
        twice: false,
        out: vec![7; 40 * WORDS],
        scratch: vec![9; 40 * WORDS],
    }
}

/// The answers of the four calls that take layers: `combine`, `deoverlap`, `equal`, and `contains` at
/// (1, 1).
fn answers(call: &Call) -> [u64; 4] {
    [
        call.combine().0,
        call.deoverlap().0,
        call.equal().0,
        call.contains(1, 1, 1),
    ]
}

fn is_refused(answer: u64) -> bool {
    answer >> 63 == 1
}

/// Row 1: each lent length, one at a time, and two that are equal and wrong.
#[test]
fn lengths() {
    let (q, r) = (rectangle(0, 4, 0, 4), rectangle(2, 6, 2, 6));
    let bad = refusal(1, 0);
    for code in 0..5 {
        assert!(!answers(&call(code, &q, &r)).into_iter().any(is_refused));
        for length in [1, 24, 26, 48, 49, 12_288, 12_799, 12_801, 12_825, 25_600] {
            let mut wrong = call(code, &q, &r);
            wrong.a.resize(length, 0);
            assert_eq!(answers(&wrong), [bad; 4], "A {length}");
            let mut wrong = call(code, &q, &r);
            wrong.b.resize(length, 0);
            let [combine, deoverlap, equal, contains] = answers(&wrong);
            assert_eq!([combine, equal, contains], [bad; 3], "B {length}");
            assert!(!is_refused(deoverlap));
            for (out, scratch) in [(length, 1000), (1000, length), (length, length)] {
                let mut wrong = call(code, &q, &r);
                wrong.out.resize(out, 7);
                wrong.scratch.resize(scratch, 9);
                let [combine, deoverlap, equal, contains] = answers(&wrong);
                assert_eq!([combine, deoverlap, equal], [bad; 3], "{out} {scratch}");
                assert!(!is_refused(contains));
            }
        }
        // Fit by themselves, but unlike.
        for (out, scratch) in [(1000, 975), (975, 1000), (0, 25), (25, 0), (12_800, 0)] {
            let mut wrong = call(code, &q, &r);
            wrong.out.resize(out, 7);
            wrong.scratch.resize(scratch, 9);
            let [combine, deoverlap, equal, _] = answers(&wrong);
            assert_eq!([combine, deoverlap, equal], [bad; 3], "{out} {scratch}");
        }
        let mut longest = call(code, &q, &r);
        longest.out.resize(12_800, 7);
        longest.scratch.resize(12_800, 9);
        assert!(!answers(&longest).into_iter().any(is_refused));
    }
}

/// Row 2: codes past 4. Row 1 comes before it, rows 3 and 7 after it.
#[test]
fn codes() {
    let q = rectangle(0, 4, 0, 4);
    let bad = refusal(2, 0);
    for code in [5, 6, 7, 8, 255, 256, 1 << 16, 1 << 31, u32::MAX] {
        let mut wrong = call(code, &q, &q);
        assert_eq!(wrong.combine().0, bad);
        assert_eq!(wrong.contains(1, 1, 1), bad);
        assert_eq!(wrong.contains(1, 1, 0), bad);
        let (mut out, mut scratch) = (wrong.out.clone(), wrong.scratch.clone());
        let typed = loxurfa::combine_by_number(code, &q, &q, &mut out, &mut scratch);
        assert_eq!(typed, as_done(bad));
        assert!(out == wrong.out && scratch == wrong.scratch);
        let typed = loxurfa::contains_by_number(1, 1, 1, &q, &q, code);
        assert_eq!(typed.map_err(|refusal| refusal.number), Err(2));
        wrong.b[0] = 2049;
        assert_eq!(wrong.combine().0, bad);
        assert_eq!(wrong.contains(1, 1, 1), bad);
        wrong.b.push(0);
        assert_eq!(wrong.combine().0, refusal(1, 0));
        assert_eq!(wrong.contains(1, 1, 1), refusal(1, 0));
    }
}

/// Row 3: D from 1 to 1024, X and Y within 2048 times D. Row 7 comes after it.
#[test]
fn points() {
    let q = rectangle(0, 4, 0, 4);
    let bad = refusal(3, 0);
    let fit = call(0, &q, &[]);
    let mut unfit = call(0, &q, &q);
    unfit.b[0] = -2049;
    for d in [0, -1, -1024, 1025, 1026, 1 << 20, i32::MIN, i32::MAX] {
        for (x, y) in [(0, 0), (1, 1), (d, d)] {
            assert_eq!(fit.contains(x, y, d), bad, "{x} {y} {d}");
            assert_eq!(unfit.contains(x, y, d), bad, "{x} {y} {d}");
        }
    }
    for d in [1, 2, 3, 1023, 1024] {
        let most = 2048 * d;
        for (x, y) in [(most, 0), (0, most), (-most, 0), (0, -most), (most, -most)] {
            assert_eq!(fit.contains(x, y, d), 0, "{x} {y} {d}");
            assert_eq!(unfit.contains(x, y, d), refusal(7, 1), "{x} {y} {d}");
        }
        assert_eq!(fit.contains(d, 4 * d - 1, d), 1 << 32);
        for beyond in [most + 1, -most - 1, i32::MIN, i32::MAX] {
            for (x, y) in [(beyond, 0), (0, beyond), (beyond, beyond)] {
                assert_eq!(fit.contains(x, y, d), bad, "{x} {y} {d}");
                assert_eq!(unfit.contains(x, y, d), bad, "{x} {y} {d}");
            }
        }
    }
}

/// Rows 7 to 11 at each place of A and of B; the lowest place first, whatever the rows.
#[test]
fn places() {
    let fit = |k: i32| rectangle(k, k + 1, 0, 1);
    // One trapezoid for each row, made from a fit one.
    let mut unfit: Vec<(u64, Vec<i32>)> = Vec::new();
    let mut change = |number: u64, at: usize, words: &[i32]| {
        let mut wrong = fit(0);
        wrong[at..at + words.len()].copy_from_slice(words);
        unfit.push((number, wrong));
    };
    change(7, 23, &[2049]);
    change(8, 16, &[1]);
    // Two lines that are the same; two that are parallel.
    change(9, 4, &[0, 0, 1, 0]);
    change(9, 12, &[0, 5, 1, 5]);
    // Level, and the wrong way round.
    change(10, 4, &[1, 0, 2, 1]);
    change(10, 4, &[2, 0, 3, 1]);
    // Coinciding sides, a top below the bottom, and sides that cross in the middle.
    change(11, 20, &[0, 0, 1, 0]);
    change(11, 20, &[0, -1, 1, -1]);
    change(11, 20, &[0, 1, 1, -1]);
    for (number, wrong) in &unfit {
        assert_eq!(reference::unfit(wrong), Some(*number as u8));
    }

    let whole = [fit(0), fit(2), fit(4)].concat();
    for (index, (number, wrong)) in unfit.iter().enumerate() {
        let (later_number, later) = &unfit[unfit.len() - 1 - index];
        for place in 0..6 {
            let mut both = [whole.clone(), whole.clone()].concat();
            both[place * WORDS..(place + 1) * WORDS].copy_from_slice(wrong);
            let mut answer = refusal(*number, place as u64);
            for _ in 0..2 {
                for code in 0..5 {
                    let (a, b) = both.split_at(3 * WORDS);
                    let [combine, deoverlap, equal, contains] = answers(&call(code, a, b));
                    assert_eq!([combine, equal, contains], [answer; 3]);
                    let in_a = place < 3 || (answer as u32) < 3;
                    assert_eq!(is_refused(deoverlap), in_a);
                    assert!(!in_a || deoverlap == answer);
                }
                // Another one, the first or the last.
                let other = if place == 0 { 5 } else { 0 };
                both[other * WORDS..(other + 1) * WORDS].copy_from_slice(later);
                if other == 0 {
                    answer = refusal(*later_number, 0);
                }
            }
        }
    }
}

/// A refusal as text.
#[test]
fn refusal_as_text() {
    let refusal = Refusal {
        number: 12,
        place: 4_294_967_295,
    };
    assert_eq!(refusal.to_string(), "refused 12 place 4294967295");
    let done = Done {
        pieces: 512,
        overlays: 7,
    };
    assert_eq!(done.words(), 12_800);
}

/// The safe wrappers read the answers as they are meant.
#[test]
fn wrappers() {
    let random = &mut Random(8);
    let rounds = rounds(10);
    let mut met = Met::default();
    for _ in 0..rounds {
        let mut call = layers(random, 5, Scene::mostly_disjoint_layer);
        let records = random_records(random).min(30);
        buffers(random, &mut call, records);
        if random.once_in(6) {
            damage(random, &mut call.b);
        }
        if random.once_in(12) {
            call.scratch.push(0);
        }
        let fresh = || (call.out.clone(), call.scratch.clone());

        let (answer, words) = call.combine();
        met.note(answer);
        let (mut out, mut scratch) = fresh();
        let code = Code::ALL[call.code as usize];
        let typed = loxurfa::combine(code, &call.a, call.b(), &mut out, &mut scratch);
        assert_eq!(typed, as_done(answer));
        assert!(out == words);
        let (mut out, mut scratch) = fresh();
        let typed =
            loxurfa::combine_by_number(call.code, &call.a, call.b(), &mut out, &mut scratch);
        assert_eq!(typed, as_done(answer));

        let (answer, words) = call.deoverlap();
        let (mut out, mut scratch) = fresh();
        let typed = loxurfa::deoverlap(&call.a, &mut out, &mut scratch);
        assert_eq!(typed, as_done(answer));
        assert!(out == words);

        let (answer, _) = call.equal();
        let (mut out, mut scratch) = fresh();
        let typed = loxurfa::equal(&call.a, call.b(), &mut out, &mut scratch);
        let expected = as_done(answer).map(|done| match done.pieces {
            0 => Equality::Same {
                overlays: done.overlays,
            },
            1 => Equality::Differs {
                operand: 0,
                overlays: done.overlays,
            },
            _ => Equality::Differs {
                operand: 1,
                overlays: done.overlays,
            },
        });
        assert_eq!(typed, expected);

        let (x, y, d) = (random.range(-9, 9), random.range(-9, 9), random.range(0, 3));
        let answer = call.contains(x, y, d);
        let expected = as_done(answer).map(|done| done.pieces == 1);
        assert_eq!(
            loxurfa::contains(x, y, d, &call.a, call.b(), code),
            expected
        );
        assert_eq!(
            loxurfa::contains_by_number(x, y, d, &call.a, call.b(), call.code),
            expected
        );
    }
    assert_met("refused", met.refusals.iter().sum(), rounds, 10);
    assert_met("refused 13", met.refusals[13], rounds, 100);
    assert_met("done", met.done(), rounds, 10);
}
