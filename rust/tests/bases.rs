//! A base with its two lines exchanged has a determinant of the other sign and stands where it stood.
//! Whatever the signs are, no answer changes, nor a word of a result but for the order of the lines in
//! its bases.

mod reference;
mod support;

use loxurfa::{contains, raw, Code};
use reference::{read_layer, WORDS};
use support::outputs::{combined, deoverlapped, Written};
use support::{assert_met, point_near, rounds, whole_point, Random, Scene};

/// The two bases of each trapezoid, eight words each.
fn bases(words: &mut [i32]) -> impl Iterator<Item = &mut [i32]> {
    words
        .chunks_exact_mut(WORDS)
        .flat_map(|trapezoid| trapezoid[..16].chunks_exact_mut(8))
}

fn exchange(base: &mut [i32]) {
    let (first, second) = base.split_at_mut(4);
    first.swap_with_slice(second);
}

/// The layer with the lines of half of its bases exchanged.
fn exchanged(random: &mut Random, layer: &[i32]) -> Vec<i32> {
    let mut words = layer.to_vec();
    for base in bases(&mut words) {
        if random.once_in(2) {
            exchange(base);
        }
    }
    words
}

/// What was written, with the lesser line of each base first.
fn in_order(written: Written) -> Written {
    written.map(|(done, mut words)| {
        for base in bases(&mut words) {
            if base[..4] > base[4..] {
                exchange(base);
            }
        }
        (done, words)
    })
}

fn components(layer: &[i32]) -> (u64, Vec<u32>) {
    let mut numbers = vec![0; layer.len() / WORDS];
    (raw::components(layer, &mut numbers), numbers)
}

fn equality(a: &[i32], b: &[i32]) -> u64 {
    let (mut out, mut scratch) = (vec![0; 512 * WORDS], vec![0; 512 * WORDS]);
    raw::equal(a, b, &mut out, &mut scratch)
}

#[test]
fn lines_exchanged() {
    let mut random = Random(0x1ef7);
    let rounds = rounds(2);
    let (mut overlapping, mut refused) = (0, 0);
    for _ in 0..rounds {
        let scene = Scene::new(&mut random);
        let (a, b) = (
            scene.mostly_disjoint_layer(&mut random, 6),
            scene.mostly_disjoint_layer(&mut random, 6),
        );
        let (a2, b2) = (exchanged(&mut random, &a), exchanged(&mut random, &b));
        for code in Code::ALL {
            let result = in_order(combined(code, &a, &b, 512));
            assert_eq!(
                result,
                in_order(combined(code, &a2, &b2, 512)),
                "{code:?}\n{a:?}\n{b:?}\n{a2:?}\n{b2:?}"
            );
            match (code, result) {
                (Code::Intersection, Ok((done, _))) => overlapping += usize::from(done.pieces > 0),
                (Code::Intersection, Err(refusal)) => refused += usize::from(refusal.number == 13),
                _ => {}
            }
        }
        assert_eq!(
            in_order(deoverlapped(&a, 512)),
            in_order(deoverlapped(&a2, 512)),
            "{a:?}\n{a2:?}"
        );
        assert_eq!(components(&a), components(&a2), "{a:?}\n{a2:?}");
        assert_eq!(equality(&a, &b), equality(&a2, &b2), "{a:?}\n{b:?}");
        let layers = [read_layer(&a), read_layer(&b)];
        let point = point_near(&mut random, &[&layers[0], &layers[1]]);
        if let Some((x, y, d)) = whole_point(point) {
            for code in Code::ALL {
                assert_eq!(
                    contains(x, y, d, &a, &b, code),
                    contains(x, y, d, &a2, &b2, code),
                    "{x} {y} {d} {code:?}\n{a:?}\n{b:?}"
                );
            }
        }
    }
    assert_met("intersections that are not empty", overlapping, rounds, 20);
    assert_met("refused 13", refused, rounds, 100);
}
