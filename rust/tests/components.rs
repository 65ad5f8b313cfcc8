//! Compares connected components with the reference: the whole answer and all numbers.

mod reference;
mod support;

use loxurfa::{raw, Refusal};
use reference::components::{holds_closed, touch};
use reference::{read_layer, Fraction, Point, Trapezoid, WORDS};
use std::cmp::Ordering;
use support::outcomes::{refusal, Outcomes};
use support::shapes::{
    apart, chequers, comb, fans, far_bases, near_bases, near_sides, reordered, snake, tiles,
};
use support::{assert_met, damage, mostly_disjoint, rectangle, rounds, Random, Scene};

/// Numbers the components by the library and by the reference and gives what they agree on.
fn components_into(a: &[i32], before: &[u32]) -> (u64, Vec<u32>) {
    let (mut numbers, mut expected) = (before.to_vec(), before.to_vec());
    let answer = raw::components(a, &mut numbers);
    let right = reference::components::components(a, &mut expected);
    assert!(
        answer == right,
        "answer {answer:#x}, not {right:#x}, numbers {}\n{a:?}",
        before.len()
    );
    assert!(
        numbers == expected,
        "numbers {numbers:?}\nnot {expected:?}\n{a:?}"
    );
    (answer, numbers)
}

/// The same with one entry for each trapezoid.
fn components(a: &[i32]) -> (u64, Vec<u32>) {
    components_into(a, &vec![u32::MAX; a.len() / WORDS])
}

fn count(components: u64) -> u64 {
    components << 32
}

/// Layers with overlaps are refused.
fn overlap(place: u64) -> u64 {
    refusal(13, place)
}

/// How many different points two closed trapezoids share of these: the corners of both, and where their
/// boundaries cross. The corners of what they share are all among them, and as they are convex it has
/// none if they share no point, one if they share one, and else more.
fn shared_corners(a: &Trapezoid, b: &Trapezoid) -> usize {
    let mut points = Vec::new();
    for base in [a.left, a.right, b.left, b.right] {
        for side in [a.bottom, a.top, b.bottom, b.top] {
            points.push(Point {
                x: base.x,
                y: side.height(base.x),
            });
        }
    }
    for first in [a.bottom, a.top] {
        for second in [b.bottom, b.top] {
            if let Some(x) = first.crossing(second) {
                points.push(Point {
                    x,
                    y: first.height(x),
                });
            }
        }
    }
    points.retain(|&p| holds_closed(a, p) && holds_closed(b, p));
    points.sort_by(|p, q| p.x.compare(q.x).then(p.y.compare(q.y)));
    points.dedup_by(|p, q| p.x.compare(q.x).is_eq() && p.y.compare(q.y).is_eq());
    points.len()
}

/// The reference's touching, decided in another way.
#[test]
fn touch_of_the_reference() {
    let random = &mut Random(41);
    let rounds = rounds(100);
    let mut parts = Vec::new();
    let (mut overlapping, mut touching, mut one_point, mut apart) = (0, 0, 0, 0);
    for _ in 0..rounds {
        let scene = Scene::new(random);
        let a = Trapezoid::read(&scene.trapezoid(random));
        let b = Trapezoid::read(&scene.trapezoid(random));
        let said = touch(&a, &b);
        let shared = shared_corners(&a, &b);
        assert!(said == (shared > 1), "{a:?} {b:?}");
        assert!(said == touch(&b, &a), "{a:?} {b:?}");
        reference::overlay(&a, &b, &mut parts);
        if parts.iter().any(|part| part.tag == 3) {
            assert!(said, "{a:?} {b:?}");
            overlapping += 1;
        } else if said {
            touching += 1;
        } else if shared == 1 {
            one_point += 1;
        } else {
            apart += 1;
        }
    }
    assert_met("overlapping", overlapping, rounds, 5);
    assert_met("touching only", touching, rounds, 20);
    assert_met("one point", one_point, rounds, 50);
    assert_met("apart", apart, rounds, 10);
}

/// Component numbers in another way: the lowest number is handed on until nothing changes.
fn numbers_by_corners(layer: &[Trapezoid]) -> Vec<u32> {
    let mut numbers: Vec<u32> = (0..layer.len() as u32).collect();
    loop {
        let mut changed = false;
        for one in 0..layer.len() {
            for other in 0..layer.len() {
                if numbers[other] < numbers[one] && shared_corners(&layer[one], &layer[other]) > 1 {
                    numbers[one] = numbers[other];
                    changed = true;
                }
            }
        }
        if !changed {
            return numbers;
        }
    }
}

/// Random layers, mostly disjoint, half of them in another order.
#[test]
fn layers() {
    let random = &mut Random(42);
    let rounds = rounds(160);
    let mut met = Outcomes::default();
    let (mut joined_late, mut all_apart, mut one) = (0, 0, 0);
    for _ in 0..rounds {
        let scene = Scene::new(random);
        let most = *random.pick(&[3, 6, 12]);
        let mut words = scene.layer(random, most);
        if random.once_in(3) {
            let second = Scene::new(random).layer(random, most);
            words.extend(second);
        }
        words = mostly_disjoint(random, words);
        if random.once_in(2) {
            let mut order: Vec<usize> = (0..words.len() / WORDS).collect();
            random.shuffle(&mut order);
            words = reordered(&words, &order);
        }
        let (answer, numbers) = components(&words);
        met.note(answer);
        if answer >> 63 == 1 {
            continue;
        }
        let layer = read_layer(&words);
        if layer.len() < 8 {
            assert_eq!(numbers, numbers_by_corners(&layer), "{words:?}");
        }
        let components = (answer >> 32) as usize;
        if layer.len() > 2 {
            all_apart += (components == layer.len()) as usize;
            one += (components == 1) as usize;
            // Two apart, joined by a later one.
            let joined = numbers[1] == 0 && !touch(&layer[0], &layer[1]);
            joined_late += joined as usize;
        }
    }
    met.assert_refusals("components", &[13], rounds, 50);
    met.assert_later("components", &[13], rounds, 50);
    met.assert_values("components", rounds, 20);
    assert_met("all apart", all_apart, rounds, 200);
    assert_met("one component", one, rounds, 20);
    assert_met("joined by a later one", joined_late, rounds, 100);
}

/// Small rectangles and triangles on a small grid: many components of several trapezoids. One that overlaps
/// one before it is left out, or now and then not.
#[test]
fn many_on_a_small_grid() {
    let random = &mut Random(43);
    let rounds = rounds(10);
    let (mut sizes, mut refused) = ([0; 5], 0);
    for _ in 0..rounds {
        let reach = random.range(2, 8);
        let number = random.range(2, 30);
        let mut words = Vec::new();
        for _ in 0..number {
            let (x, y) = (random.range(-reach, reach), random.range(-reach, reach));
            let (width, height) = (random.range(1, 2), random.range(1, 2));
            let mut one = rectangle(x, x + width, y, y + height);
            if random.once_in(3) {
                // The top falls to the bottom, or the bottom rises to the top.
                let (low, high) = (y, y + height);
                let side = if random.once_in(2) {
                    [x, high, x + width, low]
                } else {
                    [x, low, x + width, high]
                };
                let place = if random.once_in(2) { 16 } else { 20 };
                one[place..place + 4].copy_from_slice(&side);
            }
            let trapezoid = Trapezoid::read(&one);
            let mut before = words.chunks(WORDS).map(Trapezoid::read);
            let apart = before.all(|other| reference::plainly_apart(&other, &trapezoid));
            if apart || random.once_in(40) {
                words.extend(one);
            }
        }
        let (answer, numbers) = components(&words);
        if answer >> 63 == 1 {
            refused += 1;
            continue;
        }
        for (number, &lowest) in numbers.iter().enumerate() {
            assert!(lowest as usize <= number && numbers[lowest as usize] == lowest);
            if lowest as usize == number {
                let size = numbers.iter().filter(|&&other| other == lowest).count();
                sizes[size.min(5) - 1] += 1;
            }
        }
    }
    for (size, &times) in sizes.iter().enumerate() {
        assert_met(
            &format!("components of {} trapezoids", size + 1),
            times,
            rounds,
            10,
        );
    }
    assert_met("refused", refused, rounds, 20);
}

/// A layer's trapezoids in another order, then cut short, for a known number of components.
fn known(words: &[i32], expected: u64) {
    let random = &mut Random(44);
    assert_eq!(components(words).0, count(expected));
    let mut order: Vec<usize> = (0..words.len() / WORDS).collect();
    for _ in 0..3 {
        random.shuffle(&mut order);
        assert_eq!(components(&reordered(words, &order)).0, count(expected));
    }
    order.reverse();
    assert_eq!(components(&reordered(words, &order)).0, count(expected));
    order.truncate(order.len() / 2);
    components(&reordered(words, &order));
}

/// Shapes of up to 512 trapezoids.
#[test]
fn shapes() {
    known(&tiles(), 1);
    known(&apart(), 512);
    known(&comb(511), 1);
    known(&comb(3), 1);
    // Two with one tip are two; those above them have a side with each, and a base with each other.
    known(&fans(), 1);
    known(&fans()[..2 * WORDS], 2);
    // Rows of squares that share corners only.
    known(&chequers(16, 1), 32);
    known(&chequers(16, 16), 512);

    let whole = snake();
    known(&whole, 1);
    // Without one rectangle the snake is in two; without two that aren't neighbours, in three.
    let without = |gone: &[usize]| {
        let kept: Vec<usize> = (0..512).filter(|n| !gone.contains(n)).collect();
        reordered(&whole, &kept)
    };
    known(&without(&[0]), 1);
    known(&without(&[511]), 1);
    known(&without(&[300]), 2);
    known(&without(&[30]), 2);
    known(&without(&[31]), 2);
    known(&without(&[100, 101]), 2);
    known(&without(&[100, 102]), 3);
    let odd: Vec<usize> = (0..256).map(|n| 2 * n).collect();
    known(&without(&odd), 256);

    // The teeth alone are apart; the comb's numbers are all 0 all the same.
    let comb = comb(300);
    assert_eq!(components(&comb[..300 * WORDS]).0, count(300));
    assert_eq!(components(&comb).1, vec![0; 301]);
}

/// The snake in any order, with some rectangles gone.
#[test]
fn broken_snakes() {
    let random = &mut Random(45);
    let whole = snake();
    for _ in 0..rounds(100) / 1000 {
        let mut order: Vec<usize> = (0..512).collect();
        random.shuffle(&mut order);
        let gone = random.below(20);
        order.truncate(512 - gone);
        let (answer, numbers) = components(&reordered(&whole, &order));
        // Neighbours in the snake have the same number; each gap between two parts divides.
        let mut along = vec![None; 512];
        for (place, &number) in order.iter().enumerate() {
            along[number] = Some(numbers[place]);
        }
        let mut parts = 0;
        let mut before = None;
        for &here in &along {
            if let (Some(here), Some(before)) = (here, before) {
                assert_eq!(here, before);
            }
            parts += (here.is_some() && before.is_none()) as u64;
            before = here;
        }
        assert_eq!(answer, count(parts));
    }
}

/// Case (e) of the paper's table, and others by hand.
#[test]
fn by_hand() {
    let q = || rectangle(0, 4, 0, 4);
    let pair = |a: Vec<i32>, b: Vec<i32>| components(&[a, b].concat());
    let joined = (count(1), vec![0, 0]);
    let apart = (count(2), vec![0, 1]);
    assert_eq!(pair(q(), rectangle(4, 8, 0, 4)), joined);
    assert_eq!(pair(q(), rectangle(5, 8, 0, 4)), apart);
    // Above; at a corner, on each side; by part of an edge, as little as the grid allows.
    assert_eq!(pair(q(), rectangle(0, 4, 4, 8)), joined);
    assert_eq!(pair(q(), rectangle(4, 8, 4, 8)), apart);
    assert_eq!(pair(rectangle(4, 8, -4, 0), q()), apart);
    assert_eq!(pair(q(), rectangle(4, 8, 3, 8)), joined);
    assert_eq!(pair(q(), rectangle(3, 8, 4, 8)), joined);
    assert_eq!(pair(rectangle(-4, 1, -4, 0), q()), joined);
    assert_eq!(pair(q(), rectangle(4, 8, 5, 8)), apart);
    assert_eq!(pair(q(), rectangle(0, 4, 5, 8)), apart);
    // One within the other, one twice: overlaps, and nothing is numbered.
    let refused = (overlap(1), vec![u32::MAX; 2]);
    assert_eq!(pair(q(), rectangle(1, 2, 1, 2)), refused);
    assert_eq!(pair(q(), q()), refused);
    // Joined by a third.
    let three = [rectangle(6, 8, 0, 4), q(), rectangle(4, 6, 1, 2)].concat();
    assert_eq!(components(&three), (count(1), vec![0, 0, 0]));
    let three = [rectangle(9, 10, 0, 4), q(), rectangle(4, 6, 1, 2)].concat();
    assert_eq!(components(&three), (count(2), vec![0, 1, 1]));

    // Two lines that nearly meet: a tip a little above the other's side, on it, below it.
    let line = |words: [i32; 4]| reference::Line::new(&words);
    for (lift, expected) in [(1, &apart), (0, &apart), (-1, &refused)] {
        let (low, high) = (line([0, lift, 2047, 2]), line([0, lift, 1, 2048]));
        let tip = support::six_lines([low, high], support::mark(1), low, high);
        let below = rectangle(-2048, 2048, -2048, 0);
        assert_eq!(&pair(tip, below), expected);
    }
    assert_eq!(components(&[]), (0, vec![]));
    assert_eq!(components(&q()), (count(1), vec![0]));
}

/// More than a point in common, or one point: also worked out in crates/connectivity/proofs/Examples.antt.
#[test]
fn tips_and_sides() {
    let line = |words: [i32; 4]| reference::Line::new(&words);
    let between = |from: i32, to: i32, bottom: [i32; 4], top: [i32; 4]| {
        support::six_lines(
            support::mark(from),
            support::mark(to),
            line(bottom),
            line(top),
        )
    };
    let pair = |a: &[i32], b: &[i32]| {
        let there = components(&[a, b].concat()).0;
        assert_eq!(components(&[b, a].concat()).0, there);
        there
    };
    let (joined, apart) = (count(1), count(2));
    let wedge = between(0, 4, [0, 0, 4, 0], [0, 0, 4, 4]);
    // Part of an upright base, and of a slanted side.
    let q = rectangle(0, 4, 0, 4);
    assert_eq!(pair(&q, &rectangle(4, 8, 2, 6)), joined);
    let along = between(2, 6, [2, 2, 6, 6], [2, 8, 6, 8]);
    assert_eq!(pair(&wedge, &along), joined);
    // One end of a side; collinear sides that share one point; the same with one step in common.
    assert_eq!(pair(&wedge, &rectangle(0, 4, 4, 8)), apart);
    let after = |x: i32| between(x, 8, [x, x, 8, 8], [x, 9, 8, 9]);
    assert_eq!(pair(&wedge, &after(4)), apart);
    assert_eq!(pair(&wedge, &after(3)), joined);
    // A triangle's tip on an upright base, and a step into it, which overlaps.
    let tip = |x: i32| between(0, x, [0, 0, x, 2], [0, 4, x, 2]);
    assert_eq!(pair(&tip(4), &rectangle(4, 8, 0, 4)), apart);
    assert_eq!(pair(&tip(5), &rectangle(4, 8, 0, 4)), overlap(1));
    // A diamond's tip on a side, and on the tips of others.
    let diamond = |x: i32, y: i32| {
        let (left, right, low, high) = (x - 2, x + 2, y - 2, y + 2);
        let first = between(left, x, [left, y, x, low], [left, y, x, high]);
        let second = between(x, right, [x, low, right, y], [x, high, right, y]);
        [first, second].concat()
    };
    let middle = diamond(2, 2);
    assert_eq!(components(&middle).0, joined);
    assert_eq!(pair(&middle, &rectangle(0, 4, 4, 8)), apart);
    // A step into its first half and its second.
    let into = rectangle(0, 4, 3, 8);
    assert_eq!(components(&[&middle[..], &into].concat()).0, overlap(2));
    assert_eq!(components(&[&into[..], &middle].concat()).0, overlap(1));
    for (x, y) in [(2, 6), (6, 2), (2, -2), (-2, 2)] {
        assert_eq!(pair(&middle, &diamond(x, y)), apart);
    }
    // A whole slanted side, and all but a step of it.
    for (x, y) in [(4, 4), (4, 0), (0, 4), (0, 0)] {
        assert_eq!(pair(&middle, &diamond(x, y)), joined);
    }
    for (x, y) in [(5, 3), (3, 5), (5, 1), (-1, 1)] {
        assert_eq!(pair(&middle, &diamond(x, y)), joined);
    }
}

/// Trapezoids that overlap, meet or miss each other by less than a double can tell.
#[test]
fn near_misses() {
    let random = &mut Random(48);
    let rounds = rounds(4);
    let (mut bases, mut sides) = ([0; 3], [0; 3]);
    let double = |f: Fraction| f.num as f64 / f.den as f64;
    for _ in 0..rounds {
        let (words, right, left) = near_bases(random);
        let expected = match left.compare(right) {
            Ordering::Less => overlap(1),
            Ordering::Equal => count(1),
            Ordering::Greater => count(2),
        };
        assert_eq!(components(&words).0, expected, "{words:?}");
        if double(left) == double(right) {
            bases[(left.compare(right) as i8 + 1) as usize] += 1;
        }

        let (words, top, bottom) = near_sides(random);
        // To the right of there, a bottom above the top stays above it, and one that meets it may be
        // above it or below it.
        let layer = read_layer(&words);
        let end = layer[0].right.x;
        let ends_below = layer[1].bottom.height(end).less(layer[0].top.height(end));
        let expected = if bottom.less(top) || ends_below {
            overlap(1)
        } else {
            count(2)
        };
        assert_eq!(components(&words).0, expected, "{words:?}");
        if double(top) == double(bottom) {
            sides[(bottom.compare(top) as i8 + 1) as usize] += 1;
        }
    }
    for (number, name) in ["overlap", "meet", "are apart"].iter().enumerate() {
        assert_met(&format!("bases {name}"), bases[number], rounds, 200);
        assert_met(&format!("sides {name}"), sides[number], rounds, 200);
    }
}

/// Bases far outside the grid.
#[test]
fn far_away() {
    let random = &mut Random(49);
    let rounds = rounds(10);
    let mut met = Outcomes::default();
    for _ in 0..rounds {
        let number = random.range(2, 6) as usize;
        let words = far_bases(random, number);
        let words = mostly_disjoint(random, words);
        let (answer, numbers) = components(&words);
        met.note(answer);
        if answer >> 63 == 0 {
            assert_eq!(numbers, numbers_by_corners(&read_layer(&words)));
        }
    }
    met.assert_refusals("components", &[13], rounds, 100);
    assert_met("one component", met.values[1], rounds, 20);
    assert_met("more components", met.values[2], rounds, 20);
}

/// Lengths and trapezoids with one or two things wrong.
#[test]
fn refusals() {
    let random = &mut Random(46);
    let rounds = rounds(100);
    let mut met = Outcomes::default();
    for _ in 0..rounds {
        let mut words = Scene::new(random).any_layer(random, 6);
        let mut entries = words.len() / WORDS;
        for _ in 0..random.range(1, 2) {
            match random.below(10) {
                0 => {
                    let length = words.len() + random.below(30);
                    words.resize(length, 1);
                }
                1 => {
                    let length = random.below(words.len() + 1);
                    words.truncate(length);
                }
                2 if random.once_in(50) => words.resize((512 + random.below(3)) * WORDS, 0),
                3 => entries += 1,
                4 => entries = entries.saturating_sub(1),
                5 => entries = *random.pick(&[0, 1, 25 * entries, 512, 513]),
                _ => damage(random, &mut words),
            }
        }
        if random.once_in(4) {
            entries = words.len() / WORDS;
        }
        let before: Vec<u32> = (0..entries).map(|_| random.next() as u32).collect();
        met.note(components_into(&words, &before).0);
    }
    met.assert_refusals("components", &[1, 7, 8, 9, 10, 11, 13], rounds, 200);
    met.assert_later("components", &[7, 8, 9, 10, 11, 13], rounds, 400);
    met.assert_values("components", rounds, 100);
}

/// 512 trapezoids are a layer, 513 are not.
#[test]
fn longest_layer() {
    let layer: Vec<i32> = (0..514)
        .flat_map(|k| rectangle(k, k + 1, 0, k + 1))
        .collect();
    let lent = |pieces: usize, entries: usize| {
        components_into(&layer[..pieces * WORDS], &vec![7; entries]).0
    };
    assert_eq!(lent(512, 512), count(1));
    for (pieces, entries) in [
        (512, 511),
        (512, 513),
        (513, 513),
        (513, 512),
        (1, 0),
        (0, 1),
    ] {
        assert_eq!(lent(pieces, entries), refusal(1, 0));
    }
    for length in [1, 24, 26, 48, 49, 12_288, 12_799, 12_801] {
        for entries in [length / WORDS, length / WORDS + 1, length] {
            let answer = components_into(&layer[..length], &vec![7; entries]).0;
            assert_eq!(answer, refusal(1, 0));
        }
    }
    assert_eq!(lent(0, 0), count(0));
}

/// The safe wrapper reads the answer as it is meant.
#[test]
fn wrapper() {
    let random = &mut Random(47);
    let rounds = rounds(10);
    let mut met = Outcomes::default();
    for _ in 0..rounds {
        let mut words = Scene::new(random).mostly_disjoint_layer(random, 6);
        if random.once_in(3) {
            damage(random, &mut words);
        }
        let (answer, expected) = components(&words);
        let mut numbers = vec![u32::MAX; words.len() / WORDS];
        let typed = loxurfa::components(&words, &mut numbers);
        let meant = if answer >> 63 == 1 {
            Err(Refusal {
                number: (answer >> 32 & 0xff) as u8,
                place: (answer & 0xffff_ffff) as u32,
            })
        } else {
            Ok((answer >> 32) as u32)
        };
        assert_eq!(typed, meant);
        assert!(numbers == expected);
        met.note(answer);
    }
    met.assert_values("components", rounds, 50);
    assert_met("refused", met.refusals.iter().sum(), rounds, 50);
}
