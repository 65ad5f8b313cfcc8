//! Layers of collectors, bases and emitters, mostly within each other and mostly disjoint.

use super::shapes::reordered;
use super::{level, mark, mostly_disjoint, rectangle, six_lines, Random, Scene};
use crate::reference::{self, layer_words, read_layer, Line, WORDS};

/// The three layers, their trapezoids now and then in another order.
pub fn cells(random: &mut Random) -> [Vec<i32>; 3] {
    let layers = match random.below(3) {
        0 => in_scene(random),
        _ => on_grid(random),
    };
    layers.map(|layer| {
        let layer = mostly_disjoint(random, layer);
        let mut order: Vec<usize> = (0..layer.len() / WORDS).collect();
        if random.once_in(2) {
            random.shuffle(&mut order);
        }
        reordered(&layer, &order)
    })
}

/// Up to six cells side by side, some of which touch.
fn on_grid(random: &mut Random) -> [Vec<i32>; 3] {
    let pitch = random.range(9, 14);
    let mut layers = [Vec::new(), Vec::new(), Vec::new()];
    for place in 0..random.range(1, 6) {
        let (x, y) = (pitch * (place % 3), pitch * (place / 3));
        let (width, height) = (pitch - random.range(0, 2), pitch - random.range(0, 2));
        let collector = [x, x + width, y, y + height];
        let base = within(random, collector);
        layers[0].extend(form(random, collector));
        if !random.once_in(8) {
            layers[1].extend(form(random, base));
        }
        for _ in 0..random.below(4) {
            let emitter = small(random, base);
            layers[2].extend(form(random, emitter));
        }
    }
    layers
}

/// A rectangle within another, or one that sticks out by one.
fn within(random: &mut Random, [x0, x1, y0, y1]: [i32; 4]) -> [i32; 4] {
    let mut inset = || match random.below(16) {
        0 => -1,
        _ => random.range(0, 3),
    };
    [x0 + inset(), x1 - inset(), y0 + inset(), y1 - inset()]
}

/// A small rectangle, mostly within another.
fn small(random: &mut Random, [x0, x1, y0, y1]: [i32; 4]) -> [i32; 4] {
    let (width, height) = (random.range(1, 3), random.range(1, 3));
    let beyond = random.once_in(12) as i32;
    let x = random.range(x0 - beyond, (x1 - width + beyond).max(x0));
    let y = random.range(y0 - beyond, (y1 - height + beyond).max(y0));
    [x, x + width, y, y + height]
}

/// The rectangle: whole, in parts, only a part of it, or as a ring.
fn form(random: &mut Random, [x0, x1, y0, y1]: [i32; 4]) -> Vec<i32> {
    let whole = || rectangle(x0, x1, y0, y1);
    let diagonal = Line::new(&[x0, y0, x1, y1]);
    let lower = || six_lines(mark(x0), mark(x1), level(y0), diagonal);
    let upper = || six_lines(mark(x0), mark(x1), diagonal, level(y1));
    let wide = x1 - x0 > 2 && y1 - y0 > 2;
    match random.below(14) {
        0 if wide => {
            let x = random.range(x0 + 1, x1 - 1);
            [rectangle(x0, x, y0, y1), rectangle(x, x1, y0, y1)].concat()
        }
        1 if wide => {
            let y = random.range(y0 + 1, y1 - 1);
            [rectangle(x0, x1, y0, y), rectangle(x0, x1, y, y1)].concat()
        }
        2 if wide => ring([x0, x1, y0, y1], [x0 + 1, x1 - 1, y0 + 1, y1 - 1]),
        3 => [lower(), upper()].concat(),
        4 => lower(),
        5 => upper(),
        6 => [whole(), lower()].concat(),
        _ => whole(),
    }
}

/// What is left and right of the hole, below it and above it.
pub fn ring([x0, x1, y0, y1]: [i32; 4], [left, right, low, high]: [i32; 4]) -> Vec<i32> {
    [
        rectangle(x0, left, y0, y1),
        rectangle(right, x1, y0, y1),
        rectangle(left, right, y0, low),
        rectangle(left, right, high, y1),
    ]
    .concat()
}

/// Lines of any slope: bases, something about them or more, something in them.
fn in_scene(random: &mut Random) -> [Vec<i32>; 3] {
    let scene = Scene::new(random);
    let bases = scene.any_layer(random, 4);
    let collectors = match random.below(4) {
        0 => scene.any_layer(random, 4),
        1 => scene.kin(random, &bases),
        _ => {
            let more = scene.layer(random, 2);
            [&bases[..], &more].concat()
        }
    };
    let emitters = match random.below(4) {
        0 => scene.any_layer(random, 4),
        1 => scene.kin(random, &bases),
        _ => {
            let other = read_layer(&scene.layer(random, 3));
            layer_words(&reference::result(1, &read_layer(&bases), &other))
        }
    };
    [collectors, bases, emitters].map(|mut layer| {
        layer.truncate(512 * WORDS);
        layer
    })
}
