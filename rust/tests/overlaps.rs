//! Layers with overlaps: the calls that refuse them with 13, and at which place; and the calls that take them.

mod reference;
mod support;

use loxurfa::{decode_layers, encode_layers, raw, refused, Code};
use reference::{read_layer, Fraction, Line, Point, Trapezoid, WORDS};
use std::cmp::Ordering;
use support::calls::{Buffer, Call, Function};
use support::cells::cells;
use support::outcomes::refusal;
use support::shapes::{near_bases, near_sides, reordered};
use support::{assert_met, disjoint, layer_of, mark, point_near, rectangle, repeat_one, rounds};
use support::{six_lines, whole_point, with_sources, words, Random, Scene};

// ---------------------------------------------------------------------------------------------
// Calls

/// The answer of the library. It is that of the reference, and so is every buffer. Refused with 13, nothing
/// has changed.
fn answer(function: Function, code: u32, buffers: Vec<Buffer>) -> u64 {
    let call = Call {
        function,
        code,
        point: [1, 1, 1],
        buffers,
    };
    let mut made = call.clone();
    let answer = made.perform();
    let (right, buffers) = call.expected();
    assert_eq!(answer, right, "{answer:#x}, not {right:#x}: {call:?}");
    assert!(made.buffers == buffers, "{call:?}");
    if is_overlap(answer) {
        assert!(made.buffers == call.buffers, "{call:?}");
    }
    answer
}

fn is_overlap(answer: u64) -> bool {
    answer >> 32 == refusal(13, 0) >> 32
}

fn layer(words: &[i32]) -> Buffer {
    Buffer::Words(words.to_vec())
}

/// An output and a scratch area of so many records.
fn room(records: usize) -> [Buffer; 2] {
    [7, 9].map(|word| Buffer::Words(vec![word; records * WORDS]))
}

fn combine(code: u32, a: &[i32], b: &[i32], records: usize) -> u64 {
    let [out, scratch] = room(records);
    answer(
        Function::Combine,
        code,
        vec![layer(a), layer(b), out, scratch],
    )
}

fn equal(a: &[i32], b: &[i32], records: usize) -> u64 {
    let [out, scratch] = room(records);
    answer(Function::Equal, 0, vec![layer(a), layer(b), out, scratch])
}

fn components(a: &[i32]) -> u64 {
    let numbers = Buffer::Numbers(vec![5; a.len() / WORDS]);
    answer(Function::Components, 0, vec![layer(a), numbers])
}

fn transistors(layers: [&[i32]; 3], records: usize) -> u64 {
    let [out, scratch] = room(records);
    let list = Buffer::Numbers(vec![5; layers[2].len() / WORDS * 3]);
    let mut buffers = layers.map(layer).to_vec();
    buffers.extend([list, out, scratch]);
    answer(Function::Transistors, 0, buffers)
}

/// The five set operations and the equality, with room for 64 records.
fn of_two(a: &[i32], b: &[i32]) -> [u64; 6] {
    let combined = |code: u32| combine(code, a, b, 64);
    [
        combined(0),
        combined(1),
        combined(2),
        combined(3),
        combined(4),
        equal(a, b, 64),
    ]
}

/// Every call that refuses overlaps is refused with 13, wherever the layer is lent; `place` is that of the
/// layer alone.
fn assert_overlap(overlapping: &[i32], place: u64) {
    let (fit, count) = (
        rectangle(-7, -6, -7, -6),
        (overlapping.len() / WORDS) as u64,
    );
    let at = |place: u64| refusal(refused::OVERLAP.into(), place);
    assert_eq!(of_two(overlapping, &[]), [at(place); 6]);
    assert_eq!(of_two(overlapping, &fit), [at(place); 6]);
    assert_eq!(of_two(&[], overlapping), [at(place); 6]);
    assert_eq!(of_two(&fit, overlapping), [at(place + 1); 6]);
    // The first layer comes first.
    assert_eq!(of_two(overlapping, overlapping), [at(place); 6]);
    assert_eq!(components(overlapping), at(place));
    let two = [fit.clone(), rectangle(-5, -4, -7, -6)].concat();
    for (layers, right) in [
        ([overlapping, &fit, &two], place),
        ([&two, overlapping, &fit], place + 2),
        ([&two, &fit, overlapping], place + 3),
        ([overlapping, overlapping, &fit], place),
        ([&fit, overlapping, overlapping], place + 1),
        ([overlapping, &fit, overlapping], place),
        ([&[], &[], overlapping], place),
    ] {
        assert_eq!(transistors(layers, 512), at(right));
    }
    // It is the later trapezoid of the pair that is named: those before it are a layer.
    assert_taken(&overlapping[..place as usize * WORDS]);
    assert!(place < count);
}

/// No call refuses the layer for overlaps.
fn assert_taken(layer: &[i32]) {
    let fit = rectangle(-7, -6, -7, -6);
    for (a, b) in [(layer, &fit[..]), (&fit, layer), (layer, layer)] {
        for answer in of_two(a, b) {
            assert!(!is_overlap(answer), "{answer:#x} {layer:?}");
        }
    }
    assert_eq!(components(layer) >> 63, 0, "{layer:?}");
    for layers in [
        [layer, &fit, &fit],
        [&fit, layer, &fit],
        [&fit, &fit, layer],
    ] {
        let answer = transistors(layers, 64);
        assert!(!is_overlap(answer), "{answer:#x} {layer:?}");
    }
}

// ---------------------------------------------------------------------------------------------
// The first pair

/// Squares that are apart, one for each number. Two with the same number overlap, and are not level.
fn squares(numbers: &[i32]) -> Vec<i32> {
    let square = |(place, &number): (usize, &i32)| {
        let (x, y) = (10 * number, place as i32);
        rectangle(x, x + 9, y, y + 30)
    };
    numbers.iter().enumerate().flat_map(square).collect()
}

/// The first number that stands there a second time.
fn first_again(numbers: &[i32]) -> Option<usize> {
    (0..numbers.len()).find(|&later| numbers[..later].contains(&numbers[later]))
}

#[test]
fn by_the_later_one() {
    // 0 and 3 overlap, and 1 and 2: the later of the second pair is the earlier of the two.
    assert_overlap(&squares(&[0, 1, 1, 0]), 2);
    assert_overlap(&squares(&[0, 1, 0, 1]), 2);
    assert_overlap(&squares(&[0, 1, 2, 3, 0, 3]), 4);
    assert_overlap(&squares(&[0, 1, 2, 3, 3, 0]), 4);
    assert_overlap(&squares(&[5, 5]), 1);
    assert_overlap(&squares(&[5, 5, 5]), 1);
    assert_overlap(&squares(&[0, 1, 2, 3, 4, 4]), 5);
    // One that overlaps all: the last, the first, one in the middle.
    let all = rectangle(0, 100, 20, 21);
    assert_overlap(&[squares(&[0, 1, 2, 3]), all.clone()].concat(), 4);
    assert_overlap(&[all.clone(), squares(&[0, 1, 2, 3])].concat(), 1);
    assert_overlap(&[squares(&[0, 1]), all, squares(&[2, 3])].concat(), 2);
    assert_taken(&squares(&[0, 1, 2, 3, 4]));
    assert_taken(&squares(&[0]));
    assert_taken(&[]);
}

/// All layers of up to five squares with three numbers.
#[test]
fn every_order() {
    let (mut overlapping, mut taken) = (0, 0);
    for length in 0..=5 {
        for choice in 0..3i32.pow(length) {
            let numbers: Vec<i32> = (0..length).map(|k| choice / 3i32.pow(k) % 3).collect();
            let layer = squares(&numbers);
            match first_again(&numbers) {
                Some(place) => {
                    assert_overlap(&layer, place as u64);
                    overlapping += 1;
                }
                None => {
                    assert_taken(&layer);
                    taken += 1;
                }
            }
        }
    }
    // 1, 3, 6 and 6 without a number twice.
    assert_eq!((overlapping, taken), (364 - 16, 16));
}

/// The first of two layers that has an overlap, whatever the places within.
#[test]
fn a_before_b() {
    let (early, late) = (squares(&[0, 0, 1, 2]), squares(&[0, 1, 2, 0]));
    assert_eq!(of_two(&late, &early), [refusal(13, 3); 6]);
    assert_eq!(of_two(&early, &late), [refusal(13, 1); 6]);
    let fit = squares(&[0, 1, 2]);
    // The same squares in A and in B are no overlap.
    assert!(of_two(&fit, &fit).iter().all(|answer| answer >> 63 == 0));
    assert_eq!(of_two(&fit, &early), [refusal(13, 4); 6]);
    for (layers, place) in [
        ([&late, &early, &early], 3),
        ([&fit, &late, &early], 6),
        ([&fit, &fit, &early], 7),
        ([&early, &fit, &fit], 1),
        ([&fit, &early, &late], 4),
    ] {
        let answer = transistors(layers.map(|layer| &layer[..]), 512);
        assert_eq!(answer, refusal(13, place));
    }
}

/// The last pair of 512, in each layer.
#[test]
fn last_pair() {
    let square = |k: i32| {
        rectangle(
            4 * (k % 32),
            4 * (k % 32) + 2,
            4 * (k / 32),
            4 * (k / 32) + 2,
        )
    };
    let fit: Vec<i32> = (0..512).flat_map(square).collect();
    let mut overlapping = fit.clone();
    overlapping[511 * WORDS..].copy_from_slice(&square(510));
    assert_eq!(components(&fit), 512 << 32);
    assert_eq!(components(&overlapping), refusal(13, 511));
    assert_eq!(of_two(&overlapping, &fit), [refusal(13, 511); 6]);
    assert_eq!(of_two(&fit, &overlapping), [refusal(13, 1023); 6]);
    let last = transistors([&fit, &fit, &overlapping], 1);
    assert_eq!(last, refusal(13, 1535));
}

// ---------------------------------------------------------------------------------------------
// Overlaps and contact

/// One trapezoid twice, by the same words and by other lines.
#[test]
fn twice() {
    let q = layer_of("0 0 1 0  0 0 1 1  0 0 1 0  4 0 5 1  0 0 4 0  0 4 4 4");
    let again = layer_of("0 0 1 1  0 0 1 2  0 4 4 0  0 0 1 0  0 0 8 0  0 4 8 4");
    assert_overlap(&[&q[..], &q].concat(), 1);
    assert_overlap(&[&q[..], &again].concat(), 1);
    assert_overlap(&[&again[..], &q].concat(), 1);
    // One within the other.
    assert_overlap(&[q.clone(), rectangle(1, 2, 1, 2)].concat(), 1);
    assert_overlap(&[rectangle(1, 2, 1, 2), q].concat(), 1);
}

fn between(from: i32, to: i32, bottom: [i32; 4], top: [i32; 4]) -> Vec<i32> {
    six_lines(mark(from), mark(to), Line::new(&bottom), Line::new(&top))
}

/// Edges, corners and tips in common are no overlap. A step further is one.
#[test]
fn contact() {
    let q = || rectangle(0, 4, 0, 4);
    // Beside, above, at the corners; by a step into it.
    for (x, y) in [(4, 0), (-4, 0), (0, 4), (0, -4), (4, 4), (-4, 4), (4, -4)] {
        let other = |x: i32, y: i32| rectangle(x, x + 4, y, y + 4);
        assert_taken(&[q(), other(x, y)].concat());
        assert_taken(&[other(x, y), q()].concat());
        let step = |z: i32| z - z.signum();
        assert_overlap(&[q(), other(step(x), step(y))].concat(), 1);
    }
    // A slanted side in common: above it and below it.
    let wedge = between(0, 4, [0, 0, 4, 0], [0, 0, 4, 4]);
    let above = |x: i32, lift: i32| between(x, 6, [0, lift, 4, 4 + lift], [0, 9, 1, 9]);
    assert_taken(&[&wedge[..], &above(0, 0)].concat());
    assert_taken(&[&wedge[..], &above(2, 0)].concat());
    assert_overlap(&[&wedge[..], &above(2, -1)].concat(), 1);
    assert_overlap(&[above(2, -1), wedge.clone()].concat(), 1);
    // A tip on a base, on a side, on a tip.
    let tip = |x: i32| between(0, x, [0, 0, x, 2], [0, 4, x, 2]);
    assert_taken(&[tip(4), rectangle(4, 8, 0, 4)].concat());
    assert_overlap(&[tip(5), rectangle(4, 8, 0, 4)].concat(), 1);
    let pointing = |y: i32| between(0, 4, [0, y, 4, y + 2], [0, y, 4, y + 9]);
    assert_taken(&[rectangle(-4, 4, -4, 0), pointing(0)].concat());
    assert_overlap(&[rectangle(-4, 4, -4, 1), pointing(0)].concat(), 1);
    let other_way = between(-4, 0, [-4, -2, 0, 0], [-4, 2, 0, 0]);
    assert_taken(&[&other_way[..], &pointing(0)].concat());
    // Two tips at one point, from which one lies within the other, or beside it.
    let from_origin = |low: i32, high: i32| between(0, 8, [0, 0, 8, low], [0, 0, 8, high]);
    assert_taken(&[from_origin(0, 3), from_origin(3, 5)].concat());
    assert_overlap(&[from_origin(0, 3), from_origin(1, 2)].concat(), 1);
    assert_overlap(&[from_origin(0, 3), from_origin(2, 5)].concat(), 1);
}

/// A rising strip and a falling one share points near their crossing only, strictly inside both ranges. Cut
/// off where the first sides cross, or beyond the last, they share none.
#[test]
fn near_a_crossing() {
    let line = |words: [i32; 4]| Line::new(&words);
    let (rise, rise_top) = (line([0, 0, 10, 10]), line([0, 1, 10, 11]));
    let (fall, fall_top) = (line([0, 10, 10, 0]), line([0, 11, 10, 1]));
    let falling = six_lines(mark(0), mark(10), fall, fall_top);
    let rising = |left: [Line; 2], right: [Line; 2]| six_lines(left, right, rise, rise_top);
    let both = |rising: Vec<i32>| [&falling[..], &rising].concat();
    assert_overlap(&both(rising(mark(0), mark(10))), 1);
    assert_overlap(&both(rising(mark(0), mark(5))), 1);
    assert_overlap(&both(rising(mark(5), mark(10))), 1);
    // The rising top and the falling bottom cross at 9/2, the rising bottom and the falling top at 11/2.
    assert_taken(&both(rising(mark(0), mark(4))));
    assert_taken(&both(rising(mark(0), [rise_top, fall])));
    assert_taken(&both(rising([fall_top, rise], mark(10))));
    assert_taken(&both(rising(mark(6), mark(10))));
    assert_overlap(&both(rising([rise_top, fall], mark(10))), 1);
    assert_overlap(&both(rising(mark(0), [rise, fall_top])), 1);
    // Strips as thin as the grid allows, across all of it.
    let thin = between(
        -2048,
        2048,
        [-2048, -2048, 2048, 2047],
        [-2048, -2048, 2048, 2048],
    );
    let across = between(
        -2048,
        2048,
        [-2048, 2047, 2048, -2048],
        [-2048, 2048, 2048, -2048],
    );
    assert_overlap(&[thin.clone(), across].concat(), 1);
    let beside = between(
        -2048,
        2048,
        [-2048, -2048, 2048, 2048],
        [-2048, -2047, 2048, 2048],
    );
    assert_taken(&[thin, beside].concat());
}

/// Overlaps, contact and gaps of less than a double can tell, by the positions and heights.
#[test]
fn near_misses() {
    let random = &mut Random(131);
    let rounds = rounds(2);
    let (mut bases, mut sides) = ([0; 3], [0; 2]);
    for _ in 0..rounds {
        let (layer, right, left) = near_bases(random);
        let order = left.compare(right);
        bases[(order as i8 + 1) as usize] += 1;
        for answer in [components(&layer), combine(0, &layer, &[], 2)] {
            let right = order == Ordering::Less;
            assert_eq!(answer == refusal(13, 1), right, "{layer:?}");
        }

        let (layer, top, bottom) = near_sides(random);
        let [lower, upper] = [0, 1].map(|k| read_layer(&layer)[k]);
        let end = lower.right.x;
        let ends_below = upper.bottom.height(end).less(lower.top.height(end));
        let right = bottom.less(top) || ends_below;
        sides[right as usize] += 1;
        for answer in [components(&layer), combine(2, &[], &layer, 2)] {
            assert_eq!(answer == refusal(13, 1), right, "{layer:?}");
        }
    }
    for times in bases.into_iter().chain(sides) {
        assert_met("near misses", times, rounds, 20);
    }
}

// ---------------------------------------------------------------------------------------------
// The other rows

/// Trapezoids that fail rows 7 to 11.
fn unfit() -> [(u64, Vec<i32>); 5] {
    [
        (7, 23, &[2049][..]),
        (8, 16, &[1]),
        (9, 12, &[0, 5, 1, 5]),
        (10, 4, &[1, 0, 2, 1]),
        (11, 20, &[0, 0, 1, 0]),
    ]
    .map(|(number, at, words)| {
        let mut wrong = rectangle(0, 1, 0, 1);
        wrong[at..at + words.len()].copy_from_slice(words);
        assert_eq!(reference::unfit(&wrong), Some(number as u8));
        (number, wrong)
    })
}

/// Rows 7 to 11 of every layer come before an overlap of any, be it past the overlap or in a later layer.
#[test]
fn after_unfit_trapezoids() {
    let (overlapping, fit) = (squares(&[0, 0, 1]), squares(&[0, 1]));
    for (number, wrong) in unfit() {
        let behind = [&overlapping[..], &wrong].concat();
        let ends_wrong = [&fit[..], &wrong].concat();
        assert_eq!(of_two(&behind, &fit), [refusal(number, 3); 6]);
        assert_eq!(of_two(&fit, &behind), [refusal(number, 5); 6]);
        assert_eq!(of_two(&overlapping, &ends_wrong), [refusal(number, 5); 6]);
        assert_eq!(of_two(&ends_wrong, &overlapping), [refusal(number, 2); 6]);
        assert_eq!(components(&behind), refusal(number, 3));
        for (layers, place) in [
            ([&overlapping, &overlapping, &ends_wrong], 8),
            ([&overlapping, &ends_wrong, &overlapping], 5),
            ([&ends_wrong, &overlapping, &overlapping], 2),
            ([&fit, &overlapping, &behind], 8),
        ] {
            let answer = transistors(layers.map(|layer| &layer[..]), 9);
            assert_eq!(answer, refusal(number, place));
        }
    }
}

/// Rows 1 and 2 come before an overlap.
#[test]
fn after_lengths_and_codes() {
    let overlapping = squares(&[0, 0]);
    for code in [5, 6, u32::MAX] {
        assert_eq!(combine(code, &overlapping, &[], 9), refusal(2, 0));
        assert_eq!(combine(code, &[], &overlapping, 9), refusal(2, 0));
    }
    let longer = [&overlapping[..], &[0]].concat();
    for code in [0, 4, 5] {
        assert_eq!(combine(code, &overlapping, &longer, 9), refusal(1, 0));
        assert_eq!(combine(code, &longer, &overlapping, 9), refusal(1, 0));
        assert_eq!(combine(code, &overlapping, &[], 513), refusal(1, 0));
    }
    assert_eq!(equal(&overlapping, &longer, 9), refusal(1, 0));
    for numbers in [0, 1, 3] {
        let numbers = Buffer::Numbers(vec![5; numbers]);
        let buffers = vec![layer(&overlapping), numbers];
        assert_eq!(answer(Function::Components, 0, buffers), refusal(1, 0));
    }
    assert_eq!(
        transistors([&overlapping, &overlapping, &longer], 9),
        refusal(1, 0)
    );
    let [out, _] = room(2);
    let [_, scratch] = room(3);
    let buffers = vec![layer(&overlapping), layer(&[]), out, scratch];
    assert_eq!(answer(Function::Combine, 0, buffers), refusal(1, 0));
}

/// An overlap comes before row 12, in the output and in the list.
#[test]
fn before_space() {
    let (fit, overlapping) = (squares(&[0, 1, 2]), squares(&[0, 1, 2, 1]));
    for code in [0, 2, 4] {
        assert_eq!(combine(code, &fit, &[], 0), refusal(12, 0));
        assert_eq!(combine(code, &overlapping, &[], 0), refusal(13, 3));
        assert_eq!(combine(code, &fit, &overlapping, 0), refusal(13, 6));
    }
    for code in [1, 3] {
        assert_eq!(combine(code, &fit, &overlapping, 0), refusal(13, 6));
    }
    assert_eq!(equal(&fit, &[], 0), refusal(12, 0));
    assert_eq!(equal(&overlapping, &[], 0), refusal(13, 3));
    let list_of = |emitters: &[i32], words: usize| {
        let [out, scratch] = room(9);
        let list = Buffer::Numbers(vec![5; words]);
        let layers = [&fit[..], &fit, emitters].map(layer).to_vec();
        let buffers = [layers, vec![list, out, scratch]].concat();
        answer(Function::Transistors, 0, buffers)
    };
    assert_eq!(list_of(&fit, 9) >> 32, 3);
    assert_eq!(list_of(&fit, 8), refusal(12, 0));
    assert_eq!(list_of(&overlapping, 8), refusal(13, 9));
    assert_eq!(transistors([&fit, &overlapping, &fit], 0), refusal(13, 6));
}

/// The search for overlaps counts as no overlay.
#[test]
fn no_overlays_counted() {
    let done = |value: u64, overlays: u64| value << 32 | overlays;
    let numbers: Vec<i32> = (0..30).collect();
    let (a, b) = (squares(&numbers), squares(&[40, 41]));
    assert_eq!(combine(0, &a, &[], 40), done(30, 0));
    assert_eq!(combine(2, &a, &[], 40), done(30, 0));
    assert_eq!(combine(3, &a, &[], 40), done(0, 0));
    // Only those of the one with those of the other.
    assert_eq!(combine(0, &a, &b, 40), done(32, 60));
    assert_eq!(combine(1, &a, &b, 40), done(0, 60));
    assert_eq!(combine(4, &a, &b, 40), done(32, 120));
    assert_eq!(equal(&a, &[], 40), done(1, 0));
    assert_eq!(equal(&[], &a, 40), done(2, 0));
    assert_eq!(components(&a), done(30, 0));
    assert_eq!(transistors([&a, &[], &b], 0), done(0, 0));
    assert_eq!(transistors([&a, &b, &[]], 1), done(0, 60));
}

// ---------------------------------------------------------------------------------------------
// Calls that take overlaps

/// Deoverlapping, the point question, the reader and the writer take any layer, and fracture makes it.
#[test]
fn taken_by_the_others() {
    let random = &mut Random(132);
    let rounds = rounds(2);
    let (mut overlapping, mut points) = (0, 0);
    for _ in 0..rounds {
        let scene = Scene::new(random);
        let layers = [scene.layer(random, 8), scene.layer(random, 4)];
        let [a, b] = layers.each_ref().map(|layer| &layer[..]);
        let found = [a, b].map(components).map(is_overlap);
        overlapping += (found[0] || found[1]) as usize;
        let [out, scratch] = room(512);
        let deoverlapped = answer(Function::Deoverlap, 0, vec![layer(a), out, scratch]);
        assert!(deoverlapped >> 63 == 0 || deoverlapped == refusal(12, 0));
        let read = [a, b].map(read_layer);
        if let Some((x, y, d)) = whole_point(point_near(random, &[&read[0], &read[1]])) {
            for code in Code::ALL {
                let p = Point::new(x, y, d);
                let within = [0, 1].map(|k| reference::lies_in(&read[k], p));
                let said = reference::set_word(code as u32, within[0], within[1]);
                assert_eq!(loxurfa::contains(x, y, d, a, b, code), Ok(said));
            }
            points += 1;
        }
        let file = encode_layers(&layers).expect("written");
        let emptied = layers.iter().map(|layer| with_sources(layer, 0)).collect();
        assert_eq!(decode_layers(&file), Ok(emptied));
    }
    assert_met("overlapping", overlapping, rounds, 3);
    assert_met("points", points, rounds, 4);

    // Two polygons with the same points: a layer that is refused, until it is deoverlapped.
    let file = words("2  0 3  3 3  0 0  4 0  0 4  0 0  4 0  0 4");
    let file: Vec<u8> = file.iter().flat_map(|word| word.to_le_bytes()).collect();
    let (mut out, mut scratch) = (vec![0; 4 * WORDS], vec![0; 4 * WORDS]);
    let done = loxurfa::fracture(3, &file, &mut out, &mut scratch).expect("fractured");
    assert_eq!(done.pieces, 2);
    assert_overlap(&out[..2 * WORDS], 1);
    let (mut result, mut scratch) = (vec![0; 4 * WORDS], vec![0; 4 * WORDS]);
    let done = loxurfa::deoverlap(&out[..2 * WORDS], &mut result, &mut scratch).expect("room");
    assert_eq!(done.pieces, 1);
    assert_taken(&result[..WORDS]);
}

// ---------------------------------------------------------------------------------------------
// Another way

/// The place of the first overlap, by points: one in every cell between the lines of the layer. Two
/// trapezoids that overlap share all points of some cell.
fn by_points(layer: &[Trapezoid]) -> Option<usize> {
    let sides: Vec<Line> = layer.iter().flat_map(|t| [t.bottom, t.top]).collect();
    let mut positions: Vec<Fraction> = layer.iter().flat_map(|t| [t.left.x, t.right.x]).collect();
    for (number, side) in sides.iter().enumerate() {
        let others = sides[..number].iter();
        positions.extend(others.filter_map(|other| side.crossing(*other)));
    }
    let mut place = None;
    for x in gaps(positions) {
        let there = layer.iter().filter(|t| t.spans(x));
        let heights = there.flat_map(|t| [t.bottom.height(x), t.top.height(x)]);
        for y in gaps(heights.collect()) {
            let mut holders = (0..layer.len()).filter(|&k| layer[k].holds(Point { x, y }));
            let second = holders.nth(1);
            place = [place, second].into_iter().flatten().min();
        }
    }
    place
}

/// A number strictly between each two that follow each other.
fn gaps(mut numbers: Vec<Fraction>) -> Vec<Fraction> {
    numbers.sort_by(|a, b| a.compare(*b));
    let pairs = numbers.windows(2).filter(|pair| pair[0].less(pair[1]));
    pairs.map(|pair| pair[0].between(pair[1])).collect()
}

/// Random layers, as they are, without their overlaps, or with one trapezoid more.
fn mixed_layer(random: &mut Random) -> Vec<i32> {
    let scene = Scene::new(random);
    let mut words = scene.layer(random, 5);
    if random.below(3) > 0 {
        words = disjoint(&words);
        words.truncate(8 * WORDS);
        if random.once_in(2) {
            words.extend(scene.trapezoid(random));
        }
    }
    let mut order: Vec<usize> = (0..words.len() / WORDS).collect();
    random.shuffle(&mut order);
    reordered(&words, &order)
}

#[test]
fn by_points_in_all_cells() {
    let random = &mut Random(133);
    let rounds = rounds(2);
    let mut places = [0; 5];
    let mut none = 0;
    for _ in 0..rounds {
        let words = mixed_layer(random);
        let found = by_points(&read_layer(&words));
        let right = found.map(|place| refusal(13, place as u64));
        let code = random.below(5) as u32;
        let answers = [
            components(&words),
            combine(code, &words, &[], 512),
            combine(code, &[], &words, 512),
            equal(&words, &[], 512),
            transistors([&words, &[], &[]], 512),
        ];
        for answer in answers {
            assert_eq!(is_overlap(answer).then_some(answer), right, "{words:?}");
        }
        match found {
            Some(place) => places[place.min(5) - 1] += 1,
            None => none += (words.len() > WORDS) as usize,
        }
    }
    for (number, &times) in places.iter().enumerate() {
        assert_met(&format!("place {}", number + 1), times, rounds, 200);
    }
    assert_met("two or more without overlaps", none, rounds, 5);
}

// ---------------------------------------------------------------------------------------------
// Fit as input

/// The words of a result, if there is one.
fn result(code: u32, a: &[i32], b: &[i32]) -> (u64, Option<Vec<i32>>) {
    let (mut out, mut scratch) = (vec![7; 512 * WORDS], vec![9; 512 * WORDS]);
    let answer = raw::combine(code, a, b, &mut out, &mut scratch);
    out.truncate((answer >> 32) as u32 as usize * WORDS);
    (answer, (answer >> 63 == 0).then_some(out))
}

/// What deoverlapping and the set operations write is taken by every call.
#[test]
fn results_are_fit() {
    let random = &mut Random(134);
    let rounds = rounds(1);
    let (mut met, mut from_overlaps) = (0, 0);
    for _ in 0..rounds {
        let scene = Scene::new(random);
        let layers = [(); 2].map(|()| {
            let words = scene.layer(random, 4);
            let (mut out, mut scratch) = (vec![7; 512 * WORDS], vec![9; 512 * WORDS]);
            let done = loxurfa::deoverlap(&words, &mut out, &mut scratch).expect("room");
            out.truncate(done.words());
            from_overlaps += is_overlap(components(&words)) as usize;
            out
        });
        let [a, b] = layers.each_ref().map(|layer| &layer[..]);
        let mut held = vec![a.to_vec(), b.to_vec()];
        for code in 0..5 {
            let (answer, words) = result(code, a, b);
            assert!(!is_overlap(answer), "{answer:#x} {a:?} {b:?}");
            held.extend(words);
        }
        let short = |layer: &&Vec<i32>| layer.len() <= 20 * WORDS;
        for layer in held.iter().filter(short) {
            assert_taken(layer);
            assert_eq!(by_first_pair(layer), None);
            met += (layer.len() > WORDS) as usize;
        }
        let (first, second) = (random.pick(&held), random.pick(&held));
        for answer in of_two(first, second) {
            assert!(!is_overlap(answer), "{answer:#x} {first:?} {second:?}");
        }
    }
    assert_met("results of two or more", met, rounds, 1);
    assert_met("from layers with overlaps", from_overlaps, rounds, 3);
}

/// The first pair with a point in common, by points.
fn by_first_pair(words: &[i32]) -> Option<usize> {
    let layer = read_layer(words);
    (0..layer.len()).find(|&later| {
        let before = layer[..later].iter();
        before.clone().any(|earlier| {
            let pair = [*earlier, layer[later]];
            by_points(&pair).is_some()
        })
    })
}

/// One step of a chain: code, and the numbers of two layers.
type Step = (u32, usize, usize);

fn any_step(random: &mut Random, held: usize) -> Step {
    (
        random.below(5) as u32,
        random.below(held),
        random.below(held),
    )
}

/// A chain that begins with disjoint layers never meets 13, nor does any call on what it holds.
#[test]
fn chains_of_disjoint_layers() {
    let random = &mut Random(135);
    let rounds = rounds(1);
    let (mut done, mut no_space) = (0, 0);
    for _ in 0..rounds {
        let scene = Scene::new(random);
        let mut held: Vec<Vec<i32>> = (0..random.range(1, 3))
            .map(|_| scene.disjoint_layer(random, 4))
            .collect();
        for _ in 0..10 {
            let (code, a, b) = any_step(random, held.len());
            let (answer, words) = result(code, &held[a], &held[b]);
            assert!(!is_overlap(answer), "{answer:#x} {held:?}");
            no_space += (answer >> 63 == 1) as usize;
            done += (answer >> 63 == 0) as usize;
            // Layers stay short, so that chains stay quick.
            held.extend(words.filter(|words| words.len() <= 60 * WORDS));
        }
        let [a, b, c] = [(); 3].map(|()| random.pick(&held));
        assert!(!is_overlap(equal(a, b, 512)));
        assert_eq!(components(a) >> 63, 0);
        assert!(!is_overlap(transistors([a, b, c], 512)));
    }
    assert_met("done", done, 9 * rounds, 1);
    assert!(no_space < done / 10, "{no_space} {done}");
}

/// In a chain that begins with overlaps, the steps that borrow such a layer are refused with 13 and add nothing: the
/// others are those of the chain without them.
#[test]
fn chains_with_overlaps() {
    let random = &mut Random(136);
    let rounds = rounds(1);
    let (mut refused, mut added) = (0, 0);
    for _ in 0..rounds {
        let scene = Scene::new(random);
        let mut held: Vec<Vec<i32>> = (0..3).map(|_| scene.layer(random, 3)).collect();
        held[random.below(3)] = scene.disjoint_layer(random, 3);
        let overlaps: Vec<Option<usize>> = held
            .iter()
            .map(|words| by_points(&read_layer(words)))
            .collect();
        let start = held.clone();
        let mut taken: Vec<Step> = Vec::new();
        for _ in 0..8 {
            let (code, a, b) = any_step(random, held.len());
            let (answer, words) = result(code, &held[a], &held[b]);
            let place_of = |number: usize| overlaps.get(number).copied().flatten();
            let in_a = place_of(a);
            let in_b = place_of(b).map(|place| held[a].len() / WORDS + place);
            match in_a.or(in_b) {
                Some(place) => {
                    assert_eq!(answer, refusal(13, place as u64), "{held:?}");
                    assert_eq!(words, None);
                    refused += 1;
                }
                None => {
                    assert!(!is_overlap(answer), "{answer:#x} {held:?}");
                    taken.push((code, a, b));
                    added += words.is_some() as usize;
                }
            }
            held.extend(words);
        }
        // The same without the steps that were refused.
        let mut again = start;
        for (code, a, b) in taken {
            let (_, words) = result(code, &again[a], &again[b]);
            again.extend(words);
        }
        assert!(again == held);
    }
    assert_met("refused", refused, rounds, 1);
    assert_met("added", added, rounds, 1);
}

/// Three layers of cells with overlaps in some of them.
#[test]
fn cells_with_overlaps() {
    let random = &mut Random(137);
    let rounds = rounds(2);
    let mut met = [0; 4];
    for _ in 0..rounds {
        let mut layers = cells(random);
        for layer in &mut layers {
            if random.once_in(4) {
                repeat_one(random, layer);
            }
        }
        let [c, b, e] = layers.each_ref().map(|layer| &layer[..]);
        let counts = [0, c.len() / WORDS, (c.len() + b.len()) / WORDS];
        let found = layers.each_ref().map(|layer| components(layer));
        let first = (0..3).find(|&k| is_overlap(found[k]));
        let answer = transistors([c, b, e], 512);
        match first {
            Some(k) => {
                assert_eq!(answer, found[k] + counts[k] as u64, "{layers:?}");
                met[k] += 1;
            }
            None => {
                assert!(!is_overlap(answer), "{layers:?}");
                met[3] += 1;
            }
        }
    }
    for (number, &times) in met.iter().enumerate() {
        assert_met(&format!("in layer {number}, or in none"), times, rounds, 20);
    }
}
