//! Sets of source layers, the last word of each trapezoid in memory: where they come from, which trapezoid has
//! which, and that nothing else depends on them. Every word of every result, sets among them, is compared with the
//! reference in the other tests too; here the library is asked alone.

mod reference;
mod support;

use loxurfa::{combine, components, contains, deoverlap, equal, transistors, trapezoids};
use loxurfa::{decode_layers, encode_layers, fracture, fracture_first_edition};
use loxurfa::{raw, Code, Done, Refusal, Sources, MAX_LAYER_WORDS};
use reference::files::Polygon;
use reference::fracture::winding;
use reference::{read_layer, Point, Trapezoid, FILE_WORDS, WORDS};
use support::cells::cells;
use support::outcomes::refusal;
use support::outputs::{combined, deoverlapped};
use support::polygons::{point_near_polygon, polygon_file, Window};
use support::{assert_met, point_near, put_sources, rectangle, rounds, whole_point, with_sources};
use support::{Random, Scene};

/// The sets of a layer's trapezoids.
fn sets(layer: &[i32]) -> Vec<i32> {
    let sets = trapezoids(layer).map(|trapezoid| trapezoid.sources.word());
    sets.collect()
}

/// The layer with other sets.
fn other_sets(random: &mut Random, layer: &[i32]) -> Vec<i32> {
    let mut other = layer.to_vec();
    put_sources(&mut other, || random.sources());
    other
}

// ---------------------------------------------------------------------------------------------
// Fracture

fn triangle() -> Vec<u8> {
    polygon_file(&[vec![[0, 0], [2, 0], [0, 2]]])
}

/// Layers 0 to 31: each sets its own bit, 31 that of the sign.
#[test]
fn fracture_sets_the_layers_bit() {
    let two: Vec<Polygon> = vec![
        vec![[0, 0], [2, 0], [0, 2]],
        vec![[1, 0], [9, 0], [9, 9], [1, 9]],
    ];
    let file = polygon_file(&two);
    for layer in 0..32 {
        for by in [fracture, fracture_first_edition] {
            let (mut out, mut scratch) = ([7; 4 * WORDS], [9; 4 * WORDS]);
            let done = by(layer, &file, &mut out, &mut scratch).expect("two trapezoids");
            assert_eq!(done.pieces, 2);
            let bit = if layer == 31 { i32::MIN } else { 1 << layer };
            assert_eq!(sets(&out[..done.words()]), [bit, bit]);
            assert!(out[done.words()..].iter().all(|&word| word == 0));
            for trapezoid in trapezoids(&out[..done.words()]) {
                assert_eq!(trapezoid.sources, Sources::single(layer));
                assert!(trapezoid.sources.layers().eq([layer]));
            }
        }
    }
}

/// Numbers past 31 are refused with 14 at place 0, after the lengths and before the file, and nothing is changed.
#[test]
fn row_14() {
    let fit = triangle();
    let too_long = vec![0; 65_536];
    for layer in [32, 33, 63, 64, 255, 256, 1 << 31, u32::MAX] {
        for by in [raw::fracture, raw::fracture_first_edition] {
            let answer = |file: &[u8], out: usize, scratch: usize| {
                let (mut o, mut s) = (vec![7; out], vec![9; scratch]);
                let answer = by(layer, file, &mut o, &mut s);
                assert!(o.iter().all(|&word| word == 7) && s.iter().all(|&word| word == 9));
                answer
            };
            assert_eq!(answer(&fit, 25, 25), refusal(14, 0), "layer {layer}");
            // Row 1 comes first.
            for (out, scratch) in [(24, 24), (25, 50), (12_825, 12_825), (1, 0)] {
                assert_eq!(answer(&fit, out, scratch), refusal(1, 0));
            }
            // Rows 4, 5, 6, 7 and 12 come after it.
            for file in [
                &[][..],
                &fit[..3],
                &too_long,
                &fit[..8],
                &[255; 4],
                &[1; 36],
            ] {
                assert_eq!(answer(file, 25, 25), refusal(14, 0));
            }
            let beyond = polygon_file(&[vec![[0, 0], [2, 0], [0, 2049]]]);
            assert_eq!(answer(&beyond, 25, 25), refusal(14, 0));
            assert_eq!(answer(&fit, 0, 0), refusal(14, 0));
        }
    }
    let (mut out, mut scratch) = ([7; WORDS], [9; WORDS]);
    for layer in [0, 31] {
        let done = raw::fracture(layer, &fit, &mut out, &mut scratch);
        assert_eq!(done, 1 << 32);
        assert_eq!(
            raw::fracture(layer, &fit[..34], &mut out, &mut scratch),
            refusal(4, 0)
        );
    }
}

// ---------------------------------------------------------------------------------------------
// Lengths

/// Whole trapezoids of 24 words are no layer, unless they come to whole ones of 25.
#[test]
fn trapezoids_without_sets() {
    let lines = &rectangle(0, 4, 0, 4)[..FILE_WORDS];
    let bad = refusal(1, 0);
    for count in 1..600 {
        let layer = vec![lines; count].concat();
        let (mut out, mut scratch) = ([7; WORDS], [9; WORDS]);
        let whole = layer.len() % 25 == 0 && layer.len() <= 12_800;
        let answers = [
            raw::combine(0, &layer, &[], &mut out, &mut scratch),
            raw::combine(0, &[], &layer, &mut out, &mut scratch),
            raw::deoverlap(&layer, &mut out, &mut scratch),
            raw::equal(&layer, &[], &mut out, &mut scratch),
            raw::contains(0, 0, 1, &layer, &[], 0),
            raw::components(&layer, &mut vec![7; layer.len() / WORDS]),
            raw::transistors(&layer, &[], &[], &mut [], &mut out, &mut scratch),
        ];
        for answer in answers {
            assert_eq!(answer == bad, !whole, "{count}");
        }
        let (mut out, mut scratch) = (layer.clone(), layer.clone());
        let answer = raw::deoverlap(&[], &mut out, &mut scratch);
        assert_eq!(answer == bad, !whole, "{count}");
    }
}

// ---------------------------------------------------------------------------------------------
// Cases worked out by hand

/// Q is [0,4) by [0,4) of layers 0 and 31, R is [2,6) by [2,6) of layers 0 and 4.
#[test]
fn q_and_r() {
    let (a, b) = (i32::MIN + 1, 17);
    let q = with_sources(&rectangle(0, 4, 0, 4), a);
    let r = with_sources(&rectangle(2, 6, 2, 6), b);
    let of = |code: Code| sets(&combined(code, &q, &r, 8).expect("room").1);
    // Q, and two parts of R outside it. Inside Q the set of R is dropped.
    assert_eq!(of(Code::Union), [a, b, b]);
    let (_, union) = combined(Code::Union, &q, &r, 8).expect("room");
    assert_eq!(union[..WORDS], q);
    // The other way round R is whole.
    let (_, union) = combined(Code::Union, &r, &q, 8).expect("room");
    assert_eq!(sets(&union), [b, a, a]);
    // Layers 0, 4 and 31.
    assert_eq!(of(Code::Intersection), [i32::MIN + 17]);
    assert_eq!(of(Code::AMinusB), [a, a]);
    assert_eq!(of(Code::BMinusA), [b, b]);
    assert_eq!(of(Code::SymmetricDifference), [a, a, b, b]);
    // Of the same points the first keeps its set, and nothing remains of the later ones.
    let layer = [q.clone(), r.clone(), with_sources(&q, 2)].concat();
    let (done, out) = deoverlapped(&layer, 8).expect("room");
    assert_eq!(done.pieces, 3);
    assert_eq!(sets(&out), [a, b, b]);
}

/// Empty sets, and every bit at once.
#[test]
fn all_and_none() {
    let q = rectangle(0, 4, 0, 4);
    for (one, other, both) in [
        (0, 0, 0),
        (0, -1, -1),
        (-1, -1, -1),
        (i32::MAX, i32::MIN, -1),
    ] {
        let (a, b) = (with_sources(&q, one), with_sources(&q, other));
        let (_, common) = combined(Code::Intersection, &a, &b, 1).expect("room");
        assert_eq!(common, with_sources(&q, both));
        let (_, union) = combined(Code::Union, &a, &b, 1).expect("room");
        assert_eq!(union, a);
        let (_, rest) = combined(Code::BMinusA, &a, &b, 1).expect("room");
        assert!(rest.is_empty());
    }
}

/// Layer files have no sets: 24 words a trapezoid, and empty sets when they are read.
#[test]
fn layer_files() {
    let layers = [
        with_sources(&rectangle(0, 4, 0, 4), -1),
        [
            with_sources(&rectangle(2, 6, 2, 6), 5),
            with_sources(&rectangle(2, 6, 2, 6), i32::MIN),
        ]
        .concat(),
    ];
    let file = encode_layers(&layers).expect("a file");
    assert_eq!(file.len(), 4 * (5 + 3 * 24));
    let emptied = layers.each_ref().map(|layer| with_sources(layer, 0));
    assert_eq!(encode_layers(&emptied), Ok(file.clone()));
    assert_eq!(decode_layers(&file), Ok(emptied.to_vec()));
}

// ---------------------------------------------------------------------------------------------
// Random layers

/// A point inside a trapezoid.
fn inside(t: &Trapezoid) -> Point {
    let x = t.left.x.between(t.right.x);
    let y = t.bottom.height(x).between(t.top.height(x));
    Point { x, y }
}

/// The set of the trapezoid of a layer that holds the point, if one does. It is the first that does.
fn set_at(layer: &[Trapezoid], p: Point) -> Option<u32> {
    let there = layer.iter().find(|t| t.holds(p));
    there.map(|t| t.sources)
}

/// By points inside the trapezoids of results: those of differences have the set of the one in hand, those of
/// intersections have both joined.
#[test]
fn sets_of_operations() {
    let random = &mut Random(131);
    let rounds = rounds(10);
    let mut met = [0; 6];
    for _ in 0..rounds {
        let scene = Scene::new(random);
        let a = scene.disjoint_layer(random, 4);
        let b = scene.disjoint_layer(random, 4);
        let (ta, tb) = (read_layer(&a), read_layer(&b));
        for code in Code::ALL {
            let Ok((_, out)) = combined(code, &a, &b, 512) else {
                continue;
            };
            for part in read_layer(&out) {
                let p = inside(&part);
                let right = match (set_at(&ta, p), set_at(&tb, p)) {
                    (Some(a), Some(b)) if code == Code::Intersection => a | b,
                    (Some(a), _) => a,
                    (None, Some(b)) => b,
                    (None, None) => panic!("{p:?} lies in neither"),
                };
                assert_eq!(part.sources, right, "{code:?} {a:?} {b:?}");
                met[code as usize] += 1;
            }
        }
        let layer = scene.layer(random, 6);
        let whole = read_layer(&layer);
        if let Ok((_, out)) = deoverlapped(&layer, 512) {
            for part in read_layer(&out) {
                // The first that holds a point keeps it.
                assert_eq!(
                    set_at(&whole, inside(&part)),
                    Some(part.sources),
                    "{layer:?}"
                );
                met[5] += 1;
            }
        }
    }
    for (code, times) in met.into_iter().enumerate() {
        assert_met(&format!("parts of {code}"), times, rounds, 1);
    }
}

/// What two calls that write trapezoids answered, without their sets.
fn lines(written: Result<(Done, Vec<i32>), Refusal>) -> Result<(Done, Vec<i32>), Refusal> {
    written.map(|(done, words)| (done, with_sources(&words, 0)))
}

/// Layers that differ in their sets: the same answers, the same lines, the same numbers.
#[test]
fn sets_unseen() {
    let random = &mut Random(132);
    let rounds = rounds(10);
    let (mut done, mut refused) = (0, 0);
    for _ in 0..rounds {
        let scene = Scene::new(random);
        let a = scene.mostly_disjoint_layer(random, 4);
        let b = scene.mostly_disjoint_layer(random, 4);
        let (a2, b2) = (other_sets(random, &a), other_sets(random, &b));
        let records = random.below(30);
        for code in Code::ALL {
            let one = lines(combined(code, &a, &b, records));
            assert_eq!(one, lines(combined(code, &a2, &b2, records)));
            match one {
                Ok(_) => done += 1,
                Err(_) => refused += 1,
            }
            let point = whole_point(point_near(random, &[&read_layer(&a), &read_layer(&b)]));
            if let Some((x, y, d)) = point {
                let one = contains(x, y, d, &a, &b, code);
                assert_eq!(one, contains(x, y, d, &a2, &b2, code));
            }
        }
        let one = lines(deoverlapped(&a, records));
        assert_eq!(one, lines(deoverlapped(&a2, records)));
        let same = |a: &[i32], b: &[i32]| {
            let room = || vec![7; records * WORDS];
            equal(a, b, &mut room(), &mut room())
        };
        assert_eq!(same(&a, &b), same(&a2, &b2));
        assert_eq!(same(&a, &a), same(&a, &a2));
        let numbered = |a: &[i32]| {
            let mut numbers = vec![7; a.len() / WORDS];
            (components(a, &mut numbers), numbers)
        };
        assert_eq!(numbered(&a), numbered(&a2));

        let layers = cells(random);
        let other = layers.each_ref().map(|layer| other_sets(random, layer));
        let listed = |[c, b, e]: &[Vec<i32>; 3]| {
            let room = || vec![7; 20 * WORDS];
            let mut list = vec![7; 40];
            let done = transistors(c, b, e, &mut list, &mut room(), &mut room());
            (done, list)
        };
        assert_eq!(listed(&layers), listed(&other));
    }
    assert_met("done", done, rounds, 1);
    assert_met("refused", refused, rounds, 2);
}

/// From polygon files, fractured as layers 0 to 3, through a chain: a point of a trapezoid with layer k in its set
/// lies in a polygon of file k.
#[test]
fn sets_of_a_chain() {
    let random = &mut Random(133);
    let rounds = rounds(4);
    let (mut bits, mut joined) = (0, 0);
    for _ in 0..rounds {
        let window = Window::new(random);
        let files: Vec<Vec<Polygon>> = (0..4)
            .map(|_| {
                (0..random.below(3))
                    .map(|_| window.polygon(random, 6))
                    .collect()
            })
            .collect();
        let room = || vec![0; MAX_LAYER_WORDS];
        let (mut out, mut scratch) = (room(), room());
        let mut held: Vec<Vec<i32>> = Vec::new();
        for (number, polygons) in files.iter().enumerate() {
            let file = polygon_file(polygons);
            let mut cut = room();
            let done = fracture(number as u32, &file, &mut cut, &mut scratch).expect("room");
            let done = deoverlap(&cut[..done.words()], &mut out, &mut scratch).expect("room");
            held.push(out[..done.words()].to_vec());
        }
        for _ in 0..6 {
            let code = *random.pick(&Code::ALL);
            let (a, b) = (random.below(held.len()), random.below(held.len()));
            if let Ok(done) = combine(code, &held[a], &held[b], &mut out, &mut scratch) {
                held.push(out[..done.words()].to_vec());
            }
        }
        for layer in &held {
            for trapezoid in read_layer(layer).iter().take(40) {
                let mut points = vec![inside(trapezoid)];
                for polygon in files.iter().flatten() {
                    points.push(point_near_polygon(random, polygon));
                }
                for p in points.into_iter().filter(|&p| trapezoid.holds(p)) {
                    let sources = Sources::from_word(trapezoid.sources as i32);
                    for k in sources.layers() {
                        let mut polygons = files[k as usize].iter();
                        assert!(
                            polygons.any(|polygon| winding(polygon, p) != 0),
                            "{k} {p:?}"
                        );
                        bits += 1;
                    }
                    joined += (sources.layers().count() > 1) as usize;
                }
            }
        }
    }
    assert_met("bits", bits, rounds, 1);
    assert_met("joined", joined, rounds, 4);
}

// ---------------------------------------------------------------------------------------------
// The Rust crate's sets

#[test]
fn sets_as_words() {
    let random = &mut Random(134);
    for _ in 0..1000 {
        let (one, other) = (random.sources(), random.sources());
        let (a, b) = (Sources::from_word(one), Sources::from_word(other));
        assert_eq!(a.word(), one);
        assert_eq!((a | b).word(), one | other);
        let mut both = a;
        both |= b;
        assert_eq!(both, a | b);
        assert_eq!(a.is_empty(), one == 0);
        for layer in 0..40 {
            let bit = layer < 32 && one as u32 >> layer & 1 == 1;
            assert_eq!(a.contains(layer), bit);
        }
        let again = a
            .layers()
            .fold(Sources::EMPTY, |set, k| set | Sources::single(k));
        assert_eq!(again, a);
    }
    assert_eq!(
        format!("{:?}", Sources::from_word(i32::MIN + 5)),
        "{0, 2, 31}"
    );
    assert!(Sources::single(32).is_empty());
    let layer = [rectangle(0, 1, 0, 1), vec![0; 7]].concat();
    assert_eq!(trapezoids(&layer).count(), 1);
    assert!(trapezoids(&layer).all(|t| *t.lines == layer[..FILE_WORDS]));
}
