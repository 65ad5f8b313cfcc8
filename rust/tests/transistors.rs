//! Transistors from three layers: cases worked out by hand, and the library compared with the reference,
//! the whole answer, the whole list, the whole output and the whole scratch area.

mod reference;
mod support;

use loxurfa::{raw, Code, Refusal, Transistors, Triple, TRIPLE_WORDS};
use reference::transistors::{extraction, shapes, Extraction};
use reference::{lies_in, read_layer, Line, WORDS};
use support::cells::{cells, ring};
use support::outcomes::{refusal, Outcomes};
use support::shapes::{apart, comb, far_bases, reordered, snake, tiles};
use support::{assert_met, damage, layer_of, level, mark, mostly_disjoint, point_near, rectangle};
use support::{repeat_one, rounds, six_lines};
use support::{Random, Scene};

/// Collectors, bases and emitters.
type Layers = [Vec<i32>; 3];

/// What a call is given.
struct Call {
    layers: Layers,
    list: Vec<u32>,
    out: Vec<i32>,
    scratch: Vec<i32>,
}

impl Call {
    /// A list of so many words and an output of so many records, none of them 0.
    fn new(layers: &Layers, list: usize, records: usize) -> Call {
        Call {
            layers: layers.clone(),
            list: vec![5; list],
            out: vec![7; records * WORDS],
            scratch: vec![9; records * WORDS],
        }
    }

    /// The answer and the list by the library, which are those of the reference, and what is said of every
    /// call: refused with 1 to 11 or 13 nothing changes, else output and scratch area are 0, and the list past
    /// the triples.
    fn perform(&self) -> (u64, Vec<u32>) {
        let [c, b, e] = self.layers.each_ref();
        let fresh = || (self.list.clone(), self.out.clone(), self.scratch.clone());
        let (mut list, mut out, mut scratch) = fresh();
        let answer = raw::transistors(c, b, e, &mut list, &mut out, &mut scratch);
        let (mut right_list, mut right_out, mut right_scratch) = fresh();
        let right = reference::transistors::transistors(
            c,
            b,
            e,
            &mut right_list,
            &mut right_out,
            &mut right_scratch,
        );
        let describe = || {
            format!(
                "list {} out {} scratch {}\n{:?}",
                self.list.len(),
                self.out.len(),
                self.scratch.len(),
                self.layers
            )
        };
        assert!(
            answer == right,
            "answer {answer:#x}, not {right:#x}\n{}",
            describe()
        );
        assert!(list == right_list, "list {list:?}\n{}", describe());
        assert!(out == right_out, "output\n{}", describe());
        assert!(scratch == right_scratch, "scratch area\n{}", describe());

        if answer >> 63 == 1 && answer != NO_SPACE {
            assert!((&list, &out, &scratch) == (&self.list, &self.out, &self.scratch));
            return (answer, list);
        }
        let triples = match answer >> 63 {
            1 => 0,
            _ => (answer >> 32) as usize,
        };
        assert!(list[TRIPLE_WORDS * triples..].iter().all(|&word| word == 0));
        assert!(out.iter().chain(&scratch).all(|&word| word == 0));
        (answer, list)
    }
}

const NO_SPACE: u64 = 1 << 63 | 12 << 32;

fn done(triples: usize, overlays: u32) -> u64 {
    (triples as u64) << 32 | overlays as u64
}

/// The call has these triples, makes so many overlays, and needs an output of just so many records: with
/// lists and outputs that just suffice, that are longer, and that are too short.
fn assert_listed(layers: &Layers, triples: &[[u32; 3]], overlays: u32, records: usize) {
    let right = done(triples.len(), overlays);
    let words = triples.len() * TRIPLE_WORDS;
    for (more, room) in [
        (0, records),
        (1, records + 1),
        (2, records),
        (3, 512),
        (2000, records),
    ] {
        let (answer, list) = Call::new(layers, words + more, room).perform();
        assert_eq!(answer, right, "{answer:#x}");
        assert_eq!(list[..words], triples.concat());
    }
    let refused = |list: usize, records: usize| {
        let (answer, _) = Call::new(layers, list, records).perform();
        assert_eq!(answer, NO_SPACE, "list {list} records {records}");
    };
    for list in [0, words / 2, words.saturating_sub(2), words - words.min(1)] {
        if list < words {
            refused(list, records);
            refused(list, 512);
        }
    }
    for less in [0, records / 2, records.saturating_sub(1)] {
        if less < records {
            refused(words, less);
            refused(words + 30, less);
            refused(0, less);
        }
    }
}

fn square(x: i32, y: i32, width: i32) -> Vec<i32> {
    rectangle(x, x + width, y, y + width)
}

/// [0,12) by [0,12), in it [2,10) by [2,10), in that [4,6) by [4,6).
fn cell() -> Layers {
    [square(0, 0, 12), square(2, 2, 8), square(4, 4, 2)]
}

/// The same, so far to the right.
fn cell_at(x: i32) -> Layers {
    [square(x, 0, 12), square(x + 2, 2, 8), square(x + 4, 4, 2)]
}

fn two(a: Vec<i32>, b: Vec<i32>) -> Vec<i32> {
    [a, b].concat()
}

// ---------------------------------------------------------------------------------------------
// By hand

/// One difference each, which leaves nothing: no record is needed.
#[test]
fn one_cell() {
    assert_listed(&cell(), &[[0, 0, 0]], 2, 0);
}

/// B - C and two of E - B.
#[test]
fn two_emitters() {
    let [c, b, e] = cell();
    let emitters = two(e, square(7, 7, 2));
    assert_listed(&[c, b, emitters], &[[0, 0, 0], [0, 0, 1]], 3, 0);
}

/// Four differences of bases and collectors, four of emitters and bases. Those of shapes that are apart
/// leave one trapezoid.
#[test]
fn two_cells() {
    let (first, second) = (cell(), cell_at(20));
    let both = |k: usize| two(first[k].clone(), second[k].clone());
    let turned = |k: usize| two(second[k].clone(), first[k].clone());
    let (c, b, e) = (both(0), both(1), both(2));
    let straight = [[0, 0, 0], [1, 1, 1]];
    assert_listed(&[c.clone(), b.clone(), e.clone()], &straight, 8, 1);
    // Each layer in turn the other way round.
    let triples = [[0, 1, 1], [1, 0, 0]];
    assert_listed(&[turned(0), b.clone(), e.clone()], &triples, 8, 1);
    let triples = [[0, 1, 0], [1, 0, 1]];
    assert_listed(&[c.clone(), turned(1), e], &triples, 8, 1);
    let triples = [[0, 0, 1], [1, 1, 0]];
    assert_listed(&[c, b, turned(2)], &triples, 8, 1);
}

/// Ascending by collector, then base, then emitter, whatever the order in which the differences are made.
#[test]
fn ascending() {
    let c = two(square(0, 0, 12), square(20, 0, 12));
    // In the second, the first, the second.
    let b = [square(21, 1, 4), square(1, 1, 8), square(26, 6, 4)].concat();
    // In the third, the second, the first, the third, the first, the second.
    let e = [(27, 7), (2, 2), (22, 2), (29, 9), (24, 4), (4, 4)];
    let e = e.map(|(x, y)| square(x, y, 1)).concat();
    let triples = [
        [0, 1, 1],
        [0, 1, 5],
        [1, 0, 2],
        [1, 0, 4],
        [1, 2, 0],
        [1, 2, 3],
    ];
    assert_listed(&[c, b, e], &triples, 6 + 18, 1);
}

/// Right angles at (0,0), (1,1) and (2,2), legs of 12, 8 and 3.
#[test]
fn triangles() {
    let triangle = |at: i32, leg: i32| {
        let slope = Line::new(&[at, at + leg, at + leg, at]);
        six_lines(mark(at), mark(at + leg), level(at), slope)
    };
    let layers = [triangle(0, 12), triangle(1, 8), triangle(2, 3)];
    assert_listed(&layers, &[[0, 0, 0]], 2, 0);
    // The legs from (1,1) may be 10 long.
    let layers = [triangle(0, 12), triangle(1, 10), triangle(2, 3)];
    assert_listed(&layers, &[[0, 0, 0]], 2, 0);
    // 11 long they leave a strip as far as 11, and a tip from there on.
    let layers = [triangle(0, 12), triangle(1, 11), triangle(2, 3)];
    assert_listed(&layers, &[], 2, 2);
    // [0,12) by [0,6) is within as far as 6, and partly above from there on.
    let layers = [triangle(0, 12), rectangle(0, 12, 0, 6), square(1, 1, 2)];
    assert_listed(&layers, &[], 2, 1);
    // A corner on the slope, and one beyond it.
    let layers = [triangle(0, 12), rectangle(5, 7, 1, 5), square(5, 1, 1)];
    assert_listed(&layers, &[[0, 0, 0]], 2, 0);
    let layers = [triangle(0, 12), rectangle(5, 8, 1, 5), square(5, 1, 1)];
    assert_listed(&layers, &[], 2, 1);
    // Two triangles make a square.
    let slope = Line::new(&[0, 0, 12, 12]);
    let halves = two(
        six_lines(mark(0), mark(12), level(0), slope),
        six_lines(mark(0), mark(12), slope, level(12)),
    );
    // What is above the slope is left by the first half, for the second.
    assert_listed(
        &[halves, square(2, 2, 8), square(4, 4, 2)],
        &[[0, 0, 0]],
        3,
        1,
    );
}

/// Four trapezoids that touch: left, right, below and above [4,8) by [4,8).
#[test]
fn rings() {
    let around = || ring([0, 12, 0, 12], [4, 8, 4, 8]);
    // In the hole: apart from all four.
    assert_listed(&[around(), square(5, 5, 2), square(5, 5, 1)], &[], 4 + 1, 1);
    // The hole itself, which the ring touches everywhere.
    assert_listed(&[around(), square(4, 4, 4), square(5, 5, 1)], &[], 4 + 1, 1);
    // In the left part: nothing is left after one overlay. In the upper one: after four.
    let layers = [around(), square(1, 1, 2), square(1, 1, 1)];
    assert_listed(&layers, &[[0, 0, 0]], 1 + 1, 0);
    let layers = [around(), square(5, 9, 2), square(5, 9, 1)];
    assert_listed(&layers, &[[0, 0, 0]], 4 + 1, 1);
    // From the left part into the hole.
    let layers = [around(), rectangle(3, 7, 5, 7), square(3, 5, 1)];
    assert_listed(&layers, &[], 4 + 1, 1);
    // The ring cut in another way, as a base: below and above the hole from 0 to 12, then left and right
    // of it. They meet 3, 4, 1 and 2 parts of the collector before nothing is left. The emitter is in the
    // last.
    let base = [
        rectangle(0, 12, 0, 4),
        rectangle(0, 12, 8, 12),
        rectangle(0, 4, 4, 8),
        rectangle(8, 12, 4, 8),
    ];
    let layers = [around(), base.concat(), square(9, 5, 2)];
    assert_listed(&layers, &[[0, 0, 0]], 10 + 4, 1);
    // A ring as the base: an emitter in its hole, then one in its right part too.
    assert_listed(
        &[square(0, 0, 12), around(), square(5, 5, 2)],
        &[],
        4 + 4,
        1,
    );
    let both = two(square(5, 5, 2), square(9, 9, 2));
    let layers = [square(0, 0, 12), around(), both];
    assert_listed(&layers, &[[0, 0, 1]], 4 + 4 + 2, 1);
}

/// Shapes of several trapezoids.
#[test]
fn in_pieces() {
    let halves = || two(rectangle(2, 6, 2, 10), rectangle(6, 10, 2, 10));
    // An emitter across both halves: the first leaves one part.
    let layers = [square(0, 0, 12), halves(), rectangle(5, 7, 4, 6)];
    assert_listed(&layers, &[[0, 0, 0]], 2 + 2, 1);
    // An emitter of two, both in the first half, then the other way round.
    let emitter = two(square(3, 3, 1), square(4, 3, 1));
    let layers = [square(0, 0, 12), halves(), emitter];
    assert_listed(&layers, &[[0, 0, 0]], 2 + 2, 0);
    let emitter = two(square(7, 3, 1), square(5, 3, 2));
    let layers = [square(0, 0, 12), halves(), emitter];
    assert_listed(&layers, &[[0, 0, 0]], 2 + 4, 1);
    // One of the two in the base, the other not: it is one emitter.
    let emitter = two(square(8, 3, 2), square(10, 3, 1));
    let layers = [square(0, 0, 12), square(2, 2, 8), emitter];
    assert_listed(&layers, &[], 1 + 2, 1);
    // Two squares that share a corner are two bases, and one if they share part of an edge.
    let squares = |y: i32| two(square(2, 2, 3), square(5, y, 3));
    let layers = [square(0, 0, 12), squares(5), square(6, 6, 1)];
    assert_listed(&layers, &[[0, 1, 0]], 2 + 2, 1);
    let layers = [square(0, 0, 12), squares(4), square(6, 6, 1)];
    assert_listed(&layers, &[[0, 0, 0]], 2 + 2, 1);
    // An emitter across the corner lies in neither.
    let layers = [square(0, 0, 12), squares(5), square(4, 4, 2)];
    assert_listed(&layers, &[], 2 + 2, 2);
    // Two collectors that share a corner, with a base and an emitter in each.
    let cells = |less: i32| {
        let cell = |place: i32| square(place + less, place + less, 12 - 2 * less);
        two(cell(0), cell(12))
    };
    let layers = [cells(0), cells(2), cells(4)];
    assert_listed(&layers, &[[0, 0, 0], [1, 1, 1]], 4 + 4, 1);
    // Trapezoids that overlap are refused: the second of the bases, behind the collector.
    let twice = two(square(2, 2, 8), square(2, 2, 8));
    let layers = [square(0, 0, 12), twice, square(4, 4, 2)];
    assert_eq!(Call::new(&layers, 9, 4).perform().0, refusal(13, 2));
}

/// The number of a shape is the lowest of its trapezoids.
#[test]
fn numbers_that_are_skipped() {
    let emitters = [
        rectangle(4, 5, 4, 6),
        rectangle(5, 6, 4, 6),
        square(8, 8, 1),
    ];
    let layers = [square(0, 0, 12), square(2, 2, 8), emitters.concat()];
    assert_listed(&layers, &[[0, 0, 0], [0, 0, 2]], 1 + 3, 0);

    // Two cells whose collectors are in halves, by turns.
    let half = |x: i32| rectangle(x, x + 6, 0, 12);
    let collectors = [half(0), half(20), half(6), half(26)].concat();
    let bases = two(square(22, 2, 8), square(2, 2, 8));
    let emitters = two(square(4, 4, 2), square(24, 4, 2));
    let layers = [collectors, bases, emitters];
    assert_listed(&layers, &[[0, 1, 0], [1, 0, 1]], 8 + 4, 1);

    // The last trapezoid joins all before it: number 0, whatever it is that encloses.
    let teeth = comb(3);
    let layers = [teeth.clone(), square(-1000, 5, 1), square(-1000, 5, 1)];
    assert_listed(&layers, &[[0, 0, 0]], 1 + 1, 0);
    let layers = [teeth, square(5, 0, 5), square(6, 1, 1)];
    assert_listed(&layers, &[[0, 0, 0]], 4 + 1, 1);
}

/// What is level is enclosed, what sticks out is not.
#[test]
fn at_the_edge() {
    let [c, b, e] = cell();
    for layers in [
        [c.clone(), c.clone(), e.clone()],
        [c.clone(), b.clone(), b.clone()],
        [c.clone(), c.clone(), c.clone()],
    ] {
        assert_listed(&layers, &[[0, 0, 0]], 2, 0);
    }
    // [0,12) by [0,12) by other lines.
    let again = layer_of("0 0 1 1  0 0 1 2  0 12 12 0  0 0 1 0  0 0 8 0  0 12 8 12");
    assert_listed(&[c.clone(), again.clone(), e.clone()], &[[0, 0, 0]], 2, 0);
    assert_listed(&[again, c.clone(), e.clone()], &[[0, 0, 0]], 2, 0);
    // A base that sticks out to one side, and to all: four parts are left.
    for base in [
        rectangle(2, 13, 2, 10),
        rectangle(-1, 10, 2, 10),
        rectangle(2, 10, -1, 10),
        rectangle(2, 10, 2, 13),
    ] {
        assert_listed(&[c.clone(), base, e.clone()], &[], 2, 1);
    }
    assert_listed(&[c.clone(), square(-1, -1, 14), e.clone()], &[], 2, 4);
    // The same of an emitter: the last difference is the one without room.
    assert_listed(&[c.clone(), b.clone(), rectangle(9, 11, 4, 6)], &[], 2, 1);
    assert_listed(&[c.clone(), b.clone(), square(1, 1, 10)], &[], 2, 4);
    // In the collector, not in the base; in the base, which is in no collector.
    assert_listed(&[c.clone(), b.clone(), square(10, 10, 2)], &[], 2, 1);
    assert_listed(&[square(20, 20, 9), b, e], &[], 2, 1);
}

/// Without a layer there are no triples; the differences of the other two are made all the same.
#[test]
fn empty_layers() {
    let [c, b, e] = cell();
    let none = Vec::new;
    assert_listed(&[none(), none(), none()], &[], 0, 0);
    assert_listed(&[c.clone(), none(), none()], &[], 0, 0);
    assert_listed(&[none(), b.clone(), none()], &[], 0, 0);
    assert_listed(&[none(), none(), e.clone()], &[], 0, 0);
    assert_listed(&[c.clone(), none(), e.clone()], &[], 0, 0);
    assert_listed(&[c.clone(), b.clone(), none()], &[], 1, 0);
    assert_listed(&[none(), b.clone(), e.clone()], &[], 1, 0);
    // They count for the space too.
    assert_listed(&[b.clone(), c, none()], &[], 1, 4);
    assert_listed(&[none(), e, b], &[], 1, 4);
}

/// Shapes that are apart: as many overlays as trapezoids of the one times those of the other. The whole
/// of the other is left, so it needs as many records as it has trapezoids.
#[test]
fn shapes_apart() {
    let row = |x: i32, y: i32, n: i32| -> Vec<i32> {
        (0..n)
            .flat_map(|k| rectangle(x + k, x + k + 1, y, y + 1))
            .collect()
    };
    let layers = [row(0, 0, 3), row(0, 10, 4), row(0, 20, 5)];
    assert_listed(&layers, &[], 12 + 20, 5);
    let layers = [row(0, 0, 5), row(0, 10, 4), row(0, 20, 3)];
    assert_listed(&layers, &[], 20 + 12, 4);
    // Two shapes of 3 and 2, two of 1 and 4, one of 6.
    let collectors = two(row(0, 0, 3), row(10, 0, 2));
    let bases = two(row(0, 10, 1), row(10, 10, 4));
    let layers = [collectors, bases, row(0, 20, 6)];
    assert_listed(&layers, &[], 5 * 5 + 5 * 6, 6);
}

/// Each difference begins with nothing: ten bases in no collector need one record, not ten.
#[test]
fn nothing_is_kept() {
    let row = |y: i32| -> Vec<i32> { (0..10).flat_map(|k| square(4 * k, y, 2)).collect() };
    assert_listed(&[row(10), row(0), row(20)], &[], 200, 1);
    let mut triples = Vec::new();
    for k in 0..10 {
        triples.push([k, k, k]);
    }
    // The same layer three times.
    assert_listed(&[row(0), row(0), row(0)], &triples, 200, 1);
    let (layer, mut list) = (row(0), [1; 30]);
    let (mut out, mut scratch) = ([1; WORDS], [1; WORDS]);
    let lent = loxurfa::transistors(&layer, &layer, &layer, &mut list, &mut out, &mut scratch);
    let right = Transistors {
        triples: 10,
        overlays: 200,
    };
    assert_eq!(lent, Ok(right));
    assert_eq!(list[..], triples.concat());
}

// ---------------------------------------------------------------------------------------------
// Refusals

/// Row 1: each lent length, and two that are equal and wrong. A list has any length.
#[test]
fn lengths() {
    let bad = refusal(1, 0);
    for length in [1, 24, 26, 48, 49, 12_288, 12_799, 12_801, 12_825, 25_600] {
        for layer in 0..3 {
            let mut wrong = Call::new(&cell(), 9, 4);
            wrong.layers[layer].resize(length, 0);
            assert_eq!(wrong.perform().0, bad, "layer {layer} {length}");
        }
        for (out, scratch) in [(length, 100), (100, length), (length, length)] {
            let mut wrong = Call::new(&cell(), 9, 4);
            wrong.out.resize(out, 7);
            wrong.scratch.resize(scratch, 9);
            assert_eq!(wrong.perform().0, bad, "{out} {scratch}");
        }
        let (answer, _) = Call::new(&cell(), length + 2, 4).perform();
        assert_eq!(answer, done(1, 2), "list {length}");
    }
    // Fit by themselves, but unlike.
    for (out, scratch) in [(100, 75), (75, 100), (0, 25), (25, 0), (12_800, 0)] {
        let mut wrong = Call::new(&cell(), 9, 4);
        wrong.out.resize(out, 7);
        wrong.scratch.resize(scratch, 9);
        assert_eq!(wrong.perform().0, bad, "{out} {scratch}");
    }
    // Row 1 comes before row 7, and before a list that is too short.
    for layer in 0..3 {
        let mut wrong = Call::new(&cell(), 0, 0);
        wrong.layers[0][0] = 2049;
        assert_eq!(wrong.perform().0, refusal(7, 0));
        wrong.layers[layer].push(0);
        assert_eq!(wrong.perform().0, bad, "layer {layer}");
    }
    let mut wrong = Call::new(&cell(), 9, 4);
    wrong.layers[2][5] = -2049;
    wrong.scratch.push(9);
    assert_eq!(wrong.perform().0, bad);
}

/// Rows 7 to 11 at each place of the collectors, the bases and the emitters, numbered on; the lowest
/// place first, whatever the rows; all of them before 12.
#[test]
fn places() {
    let fit = |k: i32| rectangle(k, k + 1, 0, 1);
    let unfit: Vec<(u64, Vec<i32>)> = [
        (7, 23, &[2049][..]),
        (8, 16, &[1]),
        (9, 12, &[0, 5, 1, 5]),
        (10, 4, &[1, 0, 2, 1]),
        (11, 20, &[0, 0, 1, 0]),
        (11, 20, &[0, 1, 1, -1]),
    ]
    .map(|(number, at, words)| {
        let mut wrong = fit(0);
        wrong[at..at + words.len()].copy_from_slice(words);
        assert_eq!(reference::unfit(&wrong), Some(number as u8));
        (number, wrong)
    })
    .to_vec();

    // Layers of 3, 2 and 4; of none, 5 and 4; of 9 and none.
    for counts in [[3, 2, 4], [0, 5, 4], [9, 0, 0], [0, 0, 9]] {
        let whole: Vec<i32> = (0..9).flat_map(|k| fit(3 * k)).collect();
        let divided = |all: &[i32]| -> Layers {
            let (first, rest) = all.split_at(counts[0] * WORDS);
            let (second, third) = rest.split_at(counts[1] * WORDS);
            [first, second, third].map(<[i32]>::to_vec)
        };
        for (index, (number, wrong)) in unfit.iter().enumerate() {
            let (_, later) = &unfit[unfit.len() - 1 - index];
            for place in 0..9 {
                let mut all = whole.clone();
                all[place * WORDS..(place + 1) * WORDS].copy_from_slice(wrong);
                let right = refusal(*number, place as u64);
                for (list, records) in [(27, 9), (0, 0)] {
                    let (answer, _) = Call::new(&divided(&all), list, records).perform();
                    assert_eq!(answer, right, "{counts:?} place {place}");
                }
                // A later one doesn't matter.
                if place < 8 {
                    all[8 * WORDS..].copy_from_slice(later);
                    let (answer, _) = Call::new(&divided(&all), 27, 9).perform();
                    assert_eq!(answer, right, "{counts:?} place {place}");
                }
            }
        }
    }
}

/// Records or words, mostly about as many as needed.
fn about(random: &mut Random, needed: usize) -> usize {
    match random.below(8) {
        0..=2 => needed,
        3 => needed.saturating_sub(1),
        4 => random.below(needed + 1),
        5 => needed + random.below(4),
        6 => 0,
        _ => needed + random.below(40),
    }
}

/// A call on these layers, with the room that it needs or about that. Also what it comes to.
fn call_about(random: &mut Random, layers: Layers) -> (Call, Extraction) {
    let [c, b, e] = layers.each_ref().map(|layer| read_layer(layer));
    let needed = extraction(&c, &b, &e);
    let records = about(random, needed.room).min(512);
    let list = about(random, TRIPLE_WORDS * needed.triples.len());
    let mut call = Call::new(&layers, list, records);
    call.list = (0..list).map(|_| random.next() as u32).collect();
    call.out = random.garbage(records * WORDS);
    call.scratch = random.garbage(records * WORDS);
    (call, needed)
}

/// One to three things wrong.
#[test]
fn refusals() {
    let random = &mut Random(121);
    let rounds = rounds(40);
    let mut met = Outcomes::default();
    let (mut places, mut overlaps) = ([0; 3], [0; 3]);
    for _ in 0..rounds {
        let layers = cells(random);
        let (mut call, _) = call_about(random, layers);
        for _ in 0..random.range(1, 3) {
            let layer = random.below(3);
            match random.below(12) {
                0 => {
                    let words = call.layers[layer].len() + random.below(30);
                    call.layers[layer].resize(words, 0);
                }
                1 => {
                    let words = random.below(call.layers[layer].len() + 1);
                    call.layers[layer].truncate(words);
                }
                2 => {
                    let words = random.below(call.out.len() + 50);
                    call.out = random.garbage(words);
                    if random.once_in(2) {
                        call.scratch = random.garbage(words);
                    }
                }
                3 => {
                    let words = random.below(call.scratch.len() + 50);
                    call.scratch = random.garbage(words);
                }
                4 | 5 => repeat_one(random, &mut call.layers[layer]),
                _ => damage(random, &mut call.layers[layer]),
            }
        }
        let (answer, _) = call.perform();
        met.note(answer);
        let place = answer as u32 as usize;
        let [c, b, _] = call.layers.each_ref().map(|layer| layer.len() / WORDS);
        let layer = (place >= c) as usize + (place >= c + b) as usize;
        match answer >> 32 & 0xff {
            7..=11 if answer >> 63 == 1 => places[layer] += 1,
            13 if answer >> 63 == 1 => overlaps[layer] += 1,
            _ => {}
        }
    }
    met.assert_refusals("transistors", &[1, 7, 8, 9, 10, 11, 12, 13], rounds, 200);
    met.assert_later("transistors", &[7, 8, 9, 10, 11, 13], rounds, 200);
    assert!(met.done() > rounds / 50, "{met:?}");
    for (layer, &times) in places.iter().enumerate() {
        assert_met(&format!("places in layer {layer}"), times, rounds, 50);
    }
    for (layer, &times) in overlaps.iter().enumerate() {
        assert_met(&format!("overlaps in layer {layer}"), times, rounds, 200);
    }
}

// ---------------------------------------------------------------------------------------------
// Random layers

/// The triples by other calls of the library, on 512 records.
fn by_other_calls(layers: &Layers) -> Vec<[u32; 3]> {
    let shapes = |layer: &[i32]| -> Vec<(u32, Vec<i32>)> {
        let mut numbers = vec![0; layer.len() / WORDS];
        loxurfa::components(layer, &mut numbers).expect("fit");
        let of = |number: u32| -> Vec<i32> {
            let records = layer.chunks(WORDS).zip(&numbers);
            let own = records.filter(|(_, &n)| n == number);
            own.flat_map(|(record, _)| record).copied().collect()
        };
        let firsts = (0..numbers.len() as u32).filter(|&n| numbers[n as usize] == n);
        firsts.map(|number| (number, of(number))).collect()
    };
    let (mut out, mut scratch) = (vec![0; 512 * WORDS], vec![0; 512 * WORDS]);
    let mut encloses = |one: &[i32], other: &[i32]| {
        let minus = loxurfa::combine(Code::AMinusB, other, one, &mut out, &mut scratch);
        minus.expect("room").pieces == 0
    };
    let [collectors, bases, emitters] = layers.each_ref().map(|layer| shapes(layer));
    let mut triples = Vec::new();
    for (c, collector) in &collectors {
        for (b, base) in &bases {
            if encloses(collector, base) {
                for (e, emitter) in &emitters {
                    if encloses(base, emitter) {
                        triples.push([*c, *b, *e]);
                    }
                }
            }
        }
    }
    triples
}

/// The trapezoids of the shape with this number.
fn shape(layer: &[i32], number: u32) -> Vec<reference::Trapezoid> {
    let all = shapes(&read_layer(layer));
    let own = all.into_iter().find(|shape| shape.number == number);
    own.expect("a component number").trapezoids
}

/// Cells with lists and outputs of about the size needed.
#[test]
fn nested() {
    let random = &mut Random(122);
    let rounds = rounds(40);
    let mut met = Outcomes::default();
    let (mut short_list, mut short_room, mut reordered_bases, mut points) = (0, 0, 0, 0);
    let mut overlaps = [0; 3];
    for _ in 0..rounds {
        let layers = cells(random);
        let (call, needed) = call_about(random, layers);
        let (answer, list) = call.perform();
        met.note(answer);
        // Overlaps come before the space.
        if answer >> 32 == refusal(13, 0) >> 32 {
            let place = answer as u32 as usize;
            let [c, b, _] = call.layers.each_ref().map(|layer| layer.len() / WORDS);
            overlaps[(place >= c) as usize + (place >= c + b) as usize] += 1;
            continue;
        }
        let list_fits = TRIPLE_WORDS * needed.triples.len() <= call.list.len();
        let room_fits = needed.room * WORDS <= call.out.len();
        assert_eq!(answer >> 63 == 0, list_fits && room_fits);
        short_list += (!list_fits && room_fits) as usize;
        short_room += (list_fits && !room_fits) as usize;
        if answer >> 63 == 1 {
            continue;
        }
        assert_eq!(answer, done(needed.triples.len(), needed.overlays));
        let listed: Vec<[u32; 3]> = list
            .chunks_exact(TRIPLE_WORDS)
            .take(needed.triples.len())
            .map(|words| [words[0], words[1], words[2]])
            .collect();
        assert!(listed.windows(2).all(|pair| pair[0] < pair[1]));
        assert!(listed.len() * WORDS <= call.layers[2].len());
        reordered_bases += listed.iter().any(|t| t[1] < t[0]) as usize;
        // A point of the emitter lies in the base and in the collector.
        for triple in &listed {
            let [c, b, e] = [0, 1, 2].map(|k| shape(&call.layers[k], triple[k]));
            let p = point_near(random, &[&e]);
            if lies_in(&e, p) {
                assert!(lies_in(&b, p) && lies_in(&c, p), "{p:?} {triple:?}");
                points += 1;
            }
        }
        if random.once_in(10) && needed.room <= 512 {
            assert_eq!(listed, by_other_calls(&call.layers));
        }
    }
    met.assert_refusals("transistors", &[12, 13], rounds, 50);
    assert_met("refused 12", met.refusals[12], rounds, 5);
    for (layer, &times) in overlaps.iter().enumerate() {
        assert_met(&format!("overlaps in layer {layer}"), times, rounds, 500);
    }
    met.assert_values("transistors", rounds, 20);
    assert_met("list too short", short_list, rounds, 20);
    assert_met("output too short", short_room, rounds, 20);
    assert_met("bases in another order", reordered_bases, rounds, 50);
    assert_met("points", points, rounds, 10);
}

/// Layers that have nothing to do with each other, and layers far outside the grid.
#[test]
fn any_layers() {
    let random = &mut Random(123);
    let rounds = rounds(40);
    let mut met = Outcomes::default();
    for _ in 0..rounds {
        let scene = Scene::new(random);
        let layers = match random.below(6) {
            0 => [(); 3].map(|()| {
                let count = random.below(4);
                let layer = far_bases(random, count);
                mostly_disjoint(random, layer)
            }),
            1 => {
                let layer = scene.mostly_disjoint_layer(random, 6);
                [layer.clone(), layer.clone(), layer]
            }
            _ => [(); 3].map(|()| scene.mostly_disjoint_layer(random, 6)),
        };
        let (call, _) = call_about(random, layers);
        met.note(call.perform().0);
    }
    met.assert_refusals("transistors", &[12, 13], rounds, 20);
    assert_met("refused 12", met.refusals[12], rounds, 10);
    met.assert_values("transistors", rounds, 100);
}

// ---------------------------------------------------------------------------------------------
// Many trapezoids

/// So many cells, apart: as many shapes in each layer.
fn many_cells(count: i32) -> Layers {
    let within = |inset: i32| -> Vec<i32> {
        let cell = |k: i32| {
            let (x, y) = (60 * (k % 32) - 960, 60 * (k / 32) - 480);
            square(x + inset, y + inset, 40 - 2 * inset)
        };
        (0..count).flat_map(cell).collect()
    };
    [within(0), within(8), within(16)]
}

#[test]
fn longest_layers() {
    let layers = many_cells(512);
    let triples: Vec<[u32; 3]> = (0..512).map(|k| [k, k, k]).collect();
    let overlays = 2 * 512 * 512;
    for (list, records) in [(1536, 1), (2000, 512)] {
        let (answer, listed) = Call::new(&layers, list, records).perform();
        assert_eq!(answer, done(512, overlays));
        assert_eq!(listed[..1536], triples.concat());
    }
    assert_eq!(Call::new(&layers, 1535, 512).perform().0, NO_SPACE);
    assert_eq!(Call::new(&layers, 1536, 0).perform().0, NO_SPACE);

    // In another order: base n is in collector k if it was there before.
    let random = &mut Random(124);
    let orders = [(); 3].map(|()| {
        let mut order: Vec<usize> = (0..512).collect();
        random.shuffle(&mut order);
        order
    });
    let shuffled: Vec<Vec<i32>> = layers
        .iter()
        .zip(&orders)
        .map(|(l, o)| reordered(l, o))
        .collect();
    let place = |layer: usize, cell: usize| {
        let found = orders[layer].iter().position(|&other| other == cell);
        found.expect("there") as u32
    };
    let mut triples: Vec<[u32; 3]> = (0..512)
        .map(|cell| [0, 1, 2].map(|layer| place(layer, cell)))
        .collect();
    triples.sort();
    let shuffled: Layers = shuffled.try_into().expect("three");
    let (answer, listed) = Call::new(&shuffled, 1536, 1).perform();
    assert_eq!(answer, done(512, overlays));
    assert_eq!(listed, triples.concat());

    // One more trapezoid is too many.
    for layer in 0..3 {
        let mut more = layers.clone();
        more[layer].extend(square(1500, 1500, 1));
        assert_eq!(Call::new(&more, 1536, 1).perform().0, refusal(1, 0));
    }
}

/// 16 trapezoids in each layer, 17 in one of them.
#[test]
fn sixteen() {
    for layer in 0..4 {
        let mut layers = many_cells(16);
        if layer < 3 {
            layers[layer].extend(square(1500, 1500, 1));
        }
        let [c, b, e] = layers.each_ref().map(|layer| layer.len() / WORDS);
        let triples: Vec<[u32; 3]> = (0..16).map(|k| [k, k, k]).collect();
        assert_listed(&layers, &triples, (c * b + b * e) as u32, 1);
    }
}

/// Strips across strips: each leaves two parts of the other, and no triple.
#[test]
fn strips() {
    let upright: Vec<i32> = (0..512)
        .flat_map(|k| rectangle(8 * k - 2048, 8 * k - 2044, -2048, 2048))
        .collect();
    let lying: Vec<i32> = (0..512)
        .flat_map(|k| rectangle(-2048, 2048, 8 * k - 2048, 8 * k - 2044))
        .collect();
    let layers = [lying.clone(), upright, lying];
    for (list, records, right) in [
        (0, 2, done(0, 2 * 512 * 512)),
        (7, 512, done(0, 2 * 512 * 512)),
        (0, 1, NO_SPACE),
    ] {
        assert_eq!(Call::new(&layers, list, records).perform().0, right);
    }
}

/// Shapes of up to 512 trapezoids, and the triples of those that have room.
#[test]
fn large_shapes() {
    let (tiles, snake, apart, comb) = (tiles(), snake(), apart(), comb(511));
    let plate = square(-2048, -2048, 4096);
    for (layers, triples) in [
        ([&plate, &snake, &snake], Some(1)),
        ([&plate, &tiles, &apart], Some(512)),
        ([&tiles, &tiles, &tiles], Some(1)),
        ([&comb, &comb, &comb], Some(1)),
        ([&plate, &comb, &comb], Some(1)),
        // Those in the first 31 columns of every other row.
        ([&plate, &snake, &apart], Some(8 * 31)),
        ([&snake, &plate, &tiles], None),
    ] {
        let layers = layers.map(Vec::clone);
        let (answer, _) = Call::new(&layers, 1536, 512).perform();
        assert_eq!((answer >> 63 == 0).then_some(answer >> 32), triples);
    }
}

// ---------------------------------------------------------------------------------------------
// Rust

/// The safe wrapper reads the answer and the list as they are meant.
#[test]
fn wrapper() {
    let random = &mut Random(125);
    let rounds = rounds(10);
    let mut met = Outcomes::default();
    for _ in 0..rounds {
        let mut layers = cells(random);
        if random.once_in(5) {
            let layer = random.below(3);
            damage(random, &mut layers[layer]);
        }
        let records = random.below(8);
        let call = Call::new(&layers, TRIPLE_WORDS * random.below(8), records);
        let (answer, expected) = call.perform();
        met.note(answer);
        let [c, b, e] = layers.each_ref();
        let (mut list, mut out, mut scratch) = (call.list, call.out, call.scratch);
        let typed = loxurfa::transistors(c, b, e, &mut list, &mut out, &mut scratch);
        assert!(list == expected);
        if answer >> 63 == 1 {
            let refusal = Refusal {
                number: (answer >> 32 & 0xff) as u8,
                place: (answer & 0xffff_ffff) as u32,
            };
            assert_eq!(typed, Err(refusal));
            continue;
        }
        let typed = typed.expect("not refused");
        let right = Transistors {
            triples: (answer >> 32) as u32,
            overlays: answer as u32,
        };
        assert_eq!(typed, right);
        let words = TRIPLE_WORDS * right.triples as usize;
        assert_eq!(typed.words(), words);
        let triples: Vec<Triple> = typed.listed(&list).collect();
        let flat = triples
            .iter()
            .flat_map(|t| [t.collector, t.base, t.emitter]);
        assert_eq!(flat.collect::<Vec<u32>>(), expected[..words]);
    }
    met.assert_values("transistors", rounds, 50);
    assert_met("refused", met.refusals.iter().sum(), rounds, 50);
}
