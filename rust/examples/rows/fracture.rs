//! Rows for fracture.

use super::print;
use super::timing::{in_turn, Timed};
use crate::reference::files::Polygon;
use crate::reference::{self, LIMIT, LONGEST};
use crate::support::files::file_bytes;
use crate::support::polygons::{polygon_file, polygon_words};
use crate::support::Random;
use loxurfa::raw;
use std::hint::black_box;

type Fracture = fn(u32, &[u8], &mut [i32], &mut [i32]) -> u64;

/// The layer that is fractured.
const LAYER: u32 = 5;

/// A reader of polygon files: the call's name, the library's function and the Rust program's.
type Reader = (&'static str, Fracture, Fracture);

const NEW: Reader = ("fracture", raw::fracture, reference::fracture::fracture);
const FIRST: Reader = (
    "fracture_first_edition",
    raw::fracture_first_edition,
    reference::fracture::fracture_first_edition,
);

/// Vertices of the single polygons, from the fewest to the most.
pub const GROWING: [usize; 3] = [8, 16, 32];

pub fn rows() {
    let random = &mut Random(1);
    row("random polygons", &polygons(random, 64, 32));
    let triangles = polygons(random, 64, 3);
    row("random triangles", &triangles);
    let mut words = polygon_words(&triangles);
    let counts = [64, 3];
    timed_row("random triangles", FIRST, &file_bytes(&words), counts);
    for pair in 0..64 {
        words[2 + 2 * pair] = 0;
    }
    timed_row("their lengths left out", NEW, &file_bytes(&words), counts);
    for count in GROWING {
        row("one random polygon", &[with_room(count)]);
    }
    let rectangles: Vec<Polygon> = (0..64).map(|_| rectangle(random)).collect();
    row("random rectangles", &rectangles);
    // Vertices are corners of a rectangle, in any order: few trapezoids, edges that coincide.
    let corners: Vec<Polygon> = (0..64)
        .map(|_| {
            let corners = rectangle(random);
            (0..32).map(|_| corners[random.below(4)]).collect()
        })
        .collect();
    row("corners of rectangles", &corners);
    // Eight slanted forms above each other.
    let stack = |height: i32| {
        let polygon = move |k: i32| {
            eight(move |form| {
                let y = 200 * form - 800;
                [
                    [-k, y],
                    [k + 1, y - 9],
                    [k + 1, y + height - 10],
                    [-k, y + height],
                ]
            })
        };
        (0..64).map(polygon).collect::<Vec<_>>()
    };
    row("stacks", &stack(80));
    row("stacks, each through the next", &stack(280));
    // Eight boxes through each other, each wider and lower than the one before.
    let boxes = |k: i32| {
        eight(|number| {
            let (x, y) = (200 * number + 200 + k, 1600 - 200 * number + k);
            [[-x, -y], [x, -y], [x, y], [-x, y]]
        })
    };
    let boxes: Vec<Polygon> = (0..4).map(boxes).collect();
    row("boxes through each other", &boxes);
}

/// Polygons with vertices anywhere.
fn polygons(random: &mut Random, number: usize, count: usize) -> Vec<Polygon> {
    let mut coordinate = || random.range(-LIMIT, LIMIT);
    (0..number)
        .map(|_| (0..count).map(|_| [coordinate(), coordinate()]).collect())
        .collect()
}

/// A random polygon whose result has room.
pub fn with_room(count: usize) -> Polygon {
    let random = &mut Random(2);
    let has_room = |polygon: &Polygon| reference::fracture::fracture_polygon(polygon).len() <= 512;
    (0..1000)
        .map(|_| polygons(random, 1, count).remove(0))
        .find(has_room)
        .expect("some have few trapezoids")
}

/// The corners of a rectangle, in turn.
fn rectangle(random: &mut Random) -> Polygon {
    let (x, y) = (random.range(-LIMIT, 0), random.range(-LIMIT, 0));
    let (width, height) = (random.range(1, LIMIT), random.range(1, LIMIT));
    vec![
        [x, y],
        [x + width, y],
        [x + width, y + height],
        [x, y + height],
    ]
}

/// One polygon of eight forms with four vertices each.
fn eight(form: impl Fn(i32) -> [[i32; 2]; 4]) -> Polygon {
    (0..8).flat_map(form).collect()
}

fn row(kind: &str, polygons: &[Polygon]) {
    let counts = [polygons.len(), polygons[0].len()];
    timed_row(kind, NEW, &polygon_file(polygons), counts);
}

fn timed_row(kind: &str, reader: Reader, file: &[u8], counts: [usize; 2]) {
    let timed = time(reader, file);
    let result = match timed.answer >> 63 {
        0 => format!("{} trapezoids", timed.answer >> 32),
        _ => format!("refused {}", timed.answer >> 32 & 0xff),
    };
    print(kind, reader.0, &counts, &result, &timed);
}

/// Times the fracture of one polygon.
pub fn time_one(polygon: Polygon) -> Timed {
    time(NEW, &polygon_file(&[polygon]))
}

fn time((_, library, program): Reader, file: &[u8]) -> Timed {
    let area = || (vec![1; LONGEST], vec![1; LONGEST]);
    let ((mut out, mut scratch), (mut right, mut right_scratch)) = (area(), area());
    let timed = in_turn(
        || library(LAYER, black_box(file), &mut out, &mut scratch),
        || program(LAYER, black_box(file), &mut right, &mut right_scratch),
    );
    assert!(out == right && scratch == right_scratch, "they disagree");
    timed
}
