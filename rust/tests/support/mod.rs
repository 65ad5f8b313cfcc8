//! Random layers and points for the tests, from fixed seeds.

#![allow(dead_code)]

pub mod calls;
pub mod cells;
pub mod files;
pub mod outcomes;
pub mod outputs;
pub mod polygons;
pub mod programs;
pub mod shapes;

use crate::reference::{self, Fraction, Line, Point, Trapezoid, FILE_WORDS, LIMIT, WORDS};

/// Rounds of a test: a share, in percent, of LOXURFA_ROUNDS, which counts as 1,000 at least.
pub fn rounds(percent: usize) -> usize {
    let all = match std::env::var("LOXURFA_ROUNDS") {
        Ok(text) => text.parse::<usize>().expect("LOXURFA_ROUNDS is a number"),
        Err(_) => 500_000,
    };
    all.max(1000) * percent / 100
}

/// Asserts that an outcome came up at least once in `every` rounds.
pub fn assert_met(name: &str, times: usize, rounds: usize, every: usize) {
    assert!(
        times >= rounds / every,
        "{name}: only {times} in {rounds} rounds"
    );
}

/// splitmix64.
pub struct Random(pub u64);

impl Random {
    pub fn next(&mut self) -> u64 {
        self.0 = self.0.wrapping_add(0x9e37_79b9_7f4a_7c15);
        let mut z = self.0;
        z = (z ^ (z >> 30)).wrapping_mul(0xbf58_476d_1ce4_e5b9);
        z = (z ^ (z >> 27)).wrapping_mul(0x94d0_49bb_1331_11eb);
        z ^ (z >> 31)
    }

    /// From 0 to n - 1.
    pub fn below(&mut self, n: usize) -> usize {
        (self.next() % n as u64) as usize
    }

    /// From low to high, both included.
    pub fn range(&mut self, low: i32, high: i32) -> i32 {
        low + self.below((high - low + 1) as usize) as i32
    }

    /// True once in n times.
    pub fn once_in(&mut self, n: usize) -> bool {
        self.below(n) == 0
    }

    pub fn pick<'a, T>(&mut self, list: &'a [T]) -> &'a T {
        &list[self.below(list.len())]
    }

    pub fn shuffle<T>(&mut self, list: &mut [T]) {
        for last in (1..list.len()).rev() {
            list.swap(last, self.below(last + 1));
        }
    }

    /// A set of source layers: any word.
    pub fn sources(&mut self) -> i32 {
        match self.below(8) {
            0 => 0,
            1 | 2 => 1 << self.below(32),
            3 => *self.pick(&[i32::MIN, i32::MAX, -1]),
            _ => self.next() as i32,
        }
    }

    /// Words that a call should overwrite or leave alone.
    pub fn garbage(&mut self, words: usize) -> Vec<i32> {
        (0..words).map(|_| self.next() as i32 | 1).collect()
    }
}

/// The words that a text names.
pub fn words(text: &str) -> Vec<i32> {
    let word = |w: &str| w.parse().unwrap_or_else(|_| panic!("{w} is no word"));
    text.split_whitespace().map(word).collect()
}

/// The layer of the trapezoids whose lines a text names, with empty sets.
pub fn layer_of(text: &str) -> Vec<i32> {
    let lines = words(text);
    assert_eq!(lines.len() % FILE_WORDS, 0, "{text}");
    let records = lines.chunks(FILE_WORDS);
    records.flat_map(|lines| [lines, &[0]].concat()).collect()
}

/// The line 0 0 1 0 and one that crosses it at k.
pub fn mark(k: i32) -> [Line; 2] {
    let second = if k == LIMIT {
        [LIMIT - 1, 1, LIMIT, 0]
    } else {
        [k, 0, k + 1, 1]
    };
    [Line::new(&[0, 0, 1, 0]), Line::new(&second)]
}

/// A horizontal line.
pub fn level(y: i32) -> Line {
    Line::new(&[0, y, 1, y])
}

/// The words of a trapezoid with these six lines and an empty set.
pub fn six_lines(left: [Line; 2], right: [Line; 2], bottom: Line, top: Line) -> Vec<i32> {
    [left[0], left[1], right[0], right[1], bottom, top]
        .iter()
        .flat_map(|line| line.words)
        .chain([0])
        .collect()
}

/// Puts a set into each trapezoid of a layer.
pub fn put_sources(layer: &mut [i32], mut set: impl FnMut() -> i32) {
    for record in layer.chunks_exact_mut(WORDS) {
        record[FILE_WORDS] = set();
    }
}

/// The layer with this set in each trapezoid.
pub fn with_sources(layer: &[i32], set: i32) -> Vec<i32> {
    let mut words = layer.to_vec();
    put_sources(&mut words, || set);
    words
}

/// The rectangle [x0, x1) by [y0, y1).
pub fn rectangle(x0: i32, x1: i32, y0: i32, y1: i32) -> Vec<i32> {
    six_lines(mark(x0), mark(x1), level(y0), level(y1))
}

/// Lines that a layer's trapezoids share, on a grid from -reach to reach.
pub struct Scene {
    pub reach: i32,
    /// Most coordinates are close to the limits.
    corners: bool,
    lines: Vec<Line>,
}

impl Scene {
    pub fn new(random: &mut Random) -> Scene {
        let kind = random.below(10);
        let reach = match kind {
            0..=3 => random.range(2, 4),
            4 | 5 => random.range(5, 40),
            6 => random.range(41, 400),
            _ => LIMIT,
        };
        let mut scene = Scene {
            reach,
            corners: kind == 8,
            lines: Vec::new(),
        };
        if kind == 9 {
            scene.lines = fan(random);
        }
        for _ in 0..random.range(3, 8) {
            let line = scene.any_line(random);
            scene.lines.push(line);
        }
        if kind == 9 {
            scene.lines.truncate(random.range(4, 6) as usize);
        }
        scene
    }

    fn coordinate(&self, random: &mut Random) -> i32 {
        if random.once_in(12) {
            return if random.once_in(2) {
                self.reach
            } else {
                -self.reach
            };
        }
        if self.corners && random.below(4) > 0 {
            let near = LIMIT - random.range(0, 2);
            return if random.once_in(2) { near } else { -near };
        }
        random.range(-self.reach, self.reach)
    }

    fn any_line(&self, random: &mut Random) -> Line {
        loop {
            let x1 = self.coordinate(random);
            let x2 = self.coordinate(random);
            let y1 = self.coordinate(random);
            let y2 = if random.once_in(5) {
                y1
            } else {
                self.coordinate(random)
            };
            if x1 < x2 {
                return Line::new(&[x1, y1, x2, y2]);
            }
        }
    }

    /// A line through a grid point.
    fn line_through(&self, random: &mut Random, x: i32, y: i32) -> Line {
        loop {
            let x1 = self.coordinate(random);
            let y1 = self.coordinate(random);
            if x1 < x {
                return Line::new(&[x1, y1, x, y]);
            }
            if x < x1 {
                return Line::new(&[x, y, x1, y1]);
            }
        }
    }

    fn line(&self, random: &mut Random) -> Line {
        match random.below(5) {
            0 => self.any_line(random),
            _ => *random.pick(&self.lines),
        }
    }

    fn base(&self, random: &mut Random) -> [Line; 2] {
        match random.below(3) {
            0 => mark(self.coordinate(random)),
            1 => [self.line(random), self.line(random)],
            _ => [*random.pick(&self.lines), *random.pick(&self.lines)],
        }
    }

    /// Six lines that may or may not be a trapezoid.
    fn attempt(&self, random: &mut Random) -> Vec<i32> {
        let x = self.coordinate(random);
        let y = self.coordinate(random);
        match random.below(8) {
            0 => {
                let (x1, y1) = (self.coordinate(random), self.coordinate(random));
                rectangle(x.min(x1), x.max(x1), y.min(y1), y.max(y1))
            }
            // A triangle with its tip on the left or on the right.
            1 => {
                let bottom = self.line_through(random, x, y);
                let top = self.line_through(random, x, y);
                let tip = if random.once_in(2) {
                    mark(x)
                } else {
                    [bottom, top]
                };
                six_lines(tip, self.base(random), bottom, top)
            }
            // Upright bases, sides of any slope.
            2 | 3 => six_lines(
                mark(x),
                mark(self.coordinate(random)),
                self.line(random),
                self.line(random),
            ),
            // A tip where the sides cross.
            4 => {
                let (bottom, top) = (self.line(random), self.line(random));
                six_lines([bottom, top], self.base(random), bottom, top)
            }
            _ => six_lines(
                self.base(random),
                self.base(random),
                self.line(random),
                self.line(random),
            ),
        }
    }

    /// A fit trapezoid's words, with any set.
    pub fn trapezoid(&self, random: &mut Random) -> Vec<i32> {
        loop {
            let mut words = self.attempt(random);
            if reference::unfit(&words) == Some(10) {
                let (left, right) = words[..16].split_at_mut(8);
                left.swap_with_slice(right);
            }
            if reference::unfit(&words) == Some(11) {
                let (bottom, top) = words[16..FILE_WORDS].split_at_mut(4);
                bottom.swap_with_slice(top);
            }
            if reference::unfit(&words).is_none() {
                words[FILE_WORDS] = random.sources();
                return words;
            }
        }
    }

    /// A layer of fit trapezoids, overlapping or not.
    pub fn layer(&self, random: &mut Random, most: usize) -> Vec<i32> {
        let count = match random.below(10) {
            0 => 0,
            1 => 1,
            2..=7 => random.below(most.min(5) + 1),
            _ => random.below(most + 1),
        };
        let mut words: Vec<i32> = Vec::new();
        for number in 0..count {
            if number > 0 && random.once_in(12) {
                let again = WORDS * random.below(number);
                words.extend_from_within(again..again + WORDS);
            } else {
                words.extend(self.trapezoid(random));
            }
        }
        words
    }

    /// A disjoint layer of at most 512 trapezoids.
    pub fn disjoint_layer(&self, random: &mut Random, most: usize) -> Vec<i32> {
        disjoint(&self.layer(random, most))
    }

    /// A layer for a call that refuses overlaps.
    pub fn mostly_disjoint_layer(&self, random: &mut Random, most: usize) -> Vec<i32> {
        let words = self.layer(random, most);
        mostly_disjoint(random, words)
    }

    /// A layer, disjoint half the time.
    pub fn any_layer(&self, random: &mut Random, most: usize) -> Vec<i32> {
        if random.once_in(2) {
            self.layer(random, most)
        } else {
            self.disjoint_layer(random, most)
        }
    }

    /// A layer with the same points as this one, or nearly: disjoint if this one is.
    pub fn kin(&self, random: &mut Random, words: &[i32]) -> Vec<i32> {
        let layer = reference::read_layer(words);
        let mut kin = match random.below(6) {
            0 => layer.clone(),
            1 => reference::deoverlapped(&layer),
            // A cut by another layer, and put together again.
            2..=4 => {
                let other = reference::read_layer(&self.disjoint_layer(random, 4));
                let mut all = reference::result(1, &layer, &other);
                all.extend(reference::result(2, &layer, &other));
                all
            }
            // A and B - A.
            _ => {
                let other = reference::read_layer(&self.disjoint_layer(random, 2));
                reference::result(0, &layer, &other)
            }
        };
        match random.below(5) {
            0 => random.shuffle(&mut kin),
            1 => {
                kin.pop();
            }
            _ => {}
        }
        kin.truncate(512);
        reference::layer_words(&kin)
    }
}

/// The layer without overlaps, as far as the 512th trapezoid.
pub fn disjoint(words: &[i32]) -> Vec<i32> {
    let mut layer = reference::deoverlapped(&reference::read_layer(words));
    layer.truncate(512);
    reference::layer_words(&layer)
}

/// The layer for a call that refuses overlaps: without them, or one time in 12 as it is.
pub fn mostly_disjoint(random: &mut Random, words: Vec<i32>) -> Vec<i32> {
    if random.once_in(12) {
        words
    } else {
        disjoint(&words)
    }
}

/// Lines that cross at positions as close to each other as the grid allows: two through one grid
/// point, of slopes as close as can be, and steep ones passing close to it.
fn fan(random: &mut Random) -> Vec<Line> {
    loop {
        let (u, v) = (random.range(1000, 4000), random.range(-2000, 2000));
        // Another direction (s, t) with u * t - v * s = 1.
        let Some(s) = (1..u).find(|&s| (1 + v as i64 * s as i64) % u as i64 == 0) else {
            continue;
        };
        let t = ((1 + v as i64 * s as i64) / u as i64) as i32;
        let (x, y) = (random.range(-LIMIT, LIMIT - u), random.range(-40, 40));
        let mut lines = vec![
            Line::new(&[x, y, x + u, y + v]),
            Line::new(&[x, y, x + s, y + t]),
        ];
        for _ in 0..2 {
            let near = y + random.range(-1, 1);
            let rise = random.range(-1900, 1900);
            lines.push(Line::new(&[x, near, x + 1, near + rise]));
        }
        let on_grid = |line: &Line| line.words.iter().all(|word| word.abs() <= LIMIT);
        if lines.iter().all(on_grid) {
            return lines;
        }
    }
}

/// Puts one trapezoid of a layer at its end once more, if it has any: they overlap.
pub fn repeat_one(random: &mut Random, layer: &mut Vec<i32>) {
    if layer.len() >= WORDS {
        let again = WORDS * random.below(layer.len() / WORDS);
        layer.extend_from_within(again..again + WORDS);
    }
}

/// Makes one trapezoid of a layer unfit, mostly.
pub fn damage(random: &mut Random, layer: &mut [i32]) {
    damage_records(random, layer, WORDS);
}

/// The same of records of so many words.
pub fn damage_records(random: &mut Random, layer: &mut [i32], width: usize) {
    if layer.len() < width {
        return;
    }
    let start = width * random.below(layer.len() / width);
    let words = &mut layer[start..start + width];
    let line = 4 * random.below(6);
    match random.below(12) {
        0 | 1 => {
            let extreme = [
                i32::MIN,
                i32::MAX,
                i32::MIN + 1,
                LIMIT + 1,
                -LIMIT - 1,
                1 << 16,
                -(1 << 30),
            ];
            words[random.below(FILE_WORDS)] = *random.pick(&extreme);
        }
        2 => words[random.below(FILE_WORDS)] = random.next() as i32,
        3 => words.swap(line, line + 2),
        4 => words[line] = words[line + 2],
        // A base of one line twice, or of two parallel ones.
        5 => {
            let base = 8 * random.below(2);
            words.copy_within(base..base + 4, base + 4);
        }
        6 => {
            let base = 8 * random.below(2);
            words.copy_within(base..base + 4, base + 4);
            words[base + 5] = 0;
            words[base + 7] = words[base + 3] - words[base + 1];
        }
        7 => {
            let (left, right) = words[..16].split_at_mut(8);
            left.swap_with_slice(right);
        }
        8 => words.copy_within(0..8, 8),
        9 => {
            let (bottom, top) = words[16..FILE_WORDS].split_at_mut(4);
            bottom.swap_with_slice(top);
        }
        10 => words.copy_within(16..20, 20),
        // Another line in the place of one of the six.
        _ => {
            let other = 4 * random.below(6);
            words.copy_within(other..other + 4, line);
        }
    }
}

/// A point of the plane, often on a base or a side of the layers.
pub fn point_near(random: &mut Random, layers: &[&[Trapezoid]]) -> Point {
    let all: Vec<&Trapezoid> = layers.iter().flat_map(|layer| layer.iter()).collect();
    if all.is_empty() {
        return Point::new(random.range(-9, 9), random.range(-9, 9), 2);
    }
    let position = |random: &mut Random| -> Fraction {
        let one = random.pick(&all);
        let two = random.pick(&all);
        match random.below(4) {
            0 => one.left.x,
            1 => one.right.x,
            2 => one.left.x.between(one.right.x),
            _ => one.bottom.crossing(two.top).unwrap_or(two.left.x),
        }
    };
    let mut x = position(random);
    if random.once_in(2) {
        x = x.between(position(random));
    }
    let height = |random: &mut Random| -> Fraction {
        let one = random.pick(&all);
        if random.once_in(2) {
            one.bottom.height(x)
        } else {
            one.top.height(x)
        }
    };
    let mut y = height(random);
    if random.once_in(2) {
        y = y.between(height(random));
    }
    Point { x, y }
}

/// The point as X, Y, D with D at most 1024 and X, Y within limits, if it can be written so.
pub fn whole_point(p: Point) -> Option<(i32, i32, i32)> {
    let reduce = |f: Fraction| {
        let common = gcd(f.num.unsigned_abs(), f.den as u64) as i64;
        (f.num / common, f.den / common)
    };
    let (x, x_den) = reduce(p.x);
    let (y, y_den) = reduce(p.y);
    if x_den > 1024 || y_den > 1024 {
        return None;
    }
    let d = x_den / gcd(x_den as u64, y_den as u64) as i64 * y_den;
    if d > 1024 {
        return None;
    }
    let most = LIMIT as i64 * d;
    let x = x.checked_mul(d / x_den)?;
    let y = y.checked_mul(d / y_den)?;
    if x.abs() > most || y.abs() > most {
        return None;
    }
    Some((x as i32, y as i32, d as i32))
}

fn gcd(a: u64, b: u64) -> u64 {
    if b == 0 {
        a
    } else {
        gcd(b, a % b)
    }
}
