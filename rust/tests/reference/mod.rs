//! The definitions of the paper, written down plainly, with exact fractions.
//!
//! Each call has the arguments of the library's call of the same name, gives the same 64-bit
//! answer and leaves the same words in the output and the scratch area.

#![allow(dead_code)]

pub mod components;
pub mod files;
pub mod fracture;
pub mod listing;
pub mod transistors;

use std::cmp::Ordering;

/// Words of a trapezoid's six lines: all that a file has of it.
pub const FILE_WORDS: usize = 24;
/// Words in a trapezoid in memory: the set of its source layers comes last.
pub const WORDS: usize = FILE_WORDS + 1;
/// The longest layer, output or scratch area, in words.
pub const LONGEST: usize = 512 * WORDS;
/// The largest grid coordinate.
pub const LIMIT: i32 = 2048;
/// The largest denominator of a point.
pub const LARGEST_D: i32 = 1024;

// ---------------------------------------------------------------------------------------------
// Fractions, lines, trapezoids, points

/// A fraction with a denominator above 0.
#[derive(Clone, Copy, Debug)]
pub struct Fraction {
    pub num: i64,
    pub den: i64,
}

impl Fraction {
    pub fn new(num: i64, den: i64) -> Fraction {
        assert!(den != 0);
        if den < 0 {
            Fraction {
                num: -num,
                den: -den,
            }
        } else {
            Fraction { num, den }
        }
    }

    pub fn compare(self, other: Fraction) -> Ordering {
        let left = self.num as i128 * other.den as i128;
        let right = other.num as i128 * self.den as i128;
        left.cmp(&right)
    }

    pub fn less(self, other: Fraction) -> bool {
        self.compare(other) == Ordering::Less
    }

    pub fn at_most(self, other: Fraction) -> bool {
        self.compare(other) != Ordering::Greater
    }

    pub fn larger(self, other: Fraction) -> Fraction {
        if self.less(other) {
            other
        } else {
            self
        }
    }

    pub fn smaller(self, other: Fraction) -> Fraction {
        if other.less(self) {
            other
        } else {
            self
        }
    }

    /// A fraction strictly between two different ones (the mediant).
    pub fn between(self, other: Fraction) -> Fraction {
        Fraction::new(self.num + other.num, self.den + other.den)
    }
}

/// A line x1 y1 x2 y2 with x1 < x2.
#[derive(Clone, Copy, Debug, PartialEq, Eq)]
pub struct Line {
    pub words: [i32; 4],
}

impl Line {
    pub fn new(words: &[i32]) -> Line {
        Line {
            words: [words[0], words[1], words[2], words[3]],
        }
    }

    /// dx, dy, c with dx * y = dy * x + c on the line, dx > 0.
    fn equation(self) -> (i64, i64, i64) {
        let [x1, y1, x2, y2] = self.words.map(i64::from);
        (x2 - x1, y2 - y1, y1 * x2 - y2 * x1)
    }

    /// The height of the line at a position.
    pub fn height(self, x: Fraction) -> Fraction {
        let (dx, dy, c) = self.equation();
        Fraction::new(dy * x.num + c * x.den, dx * x.den)
    }

    /// Compares the heights of two lines at a position.
    pub fn compare_at(self, other: Line, x: Fraction) -> Ordering {
        self.height(x).compare(other.height(x))
    }

    /// The position where two lines cross; none if they are parallel or coincide.
    pub fn crossing(self, other: Line) -> Option<Fraction> {
        let (dx1, dy1, c1) = self.equation();
        let (dx2, dy2, c2) = other.equation();
        // (dy1 * x + c1) / dx1 = (dy2 * x + c2) / dx2
        let den = dy1 * dx2 - dy2 * dx1;
        if den == 0 {
            return None;
        }
        Some(Fraction::new(c2 * dx1 - c1 * dx2, den))
    }
}

/// A position with the two lines that name it.
#[derive(Clone, Copy, Debug)]
pub struct Base {
    pub lines: [Line; 2],
    pub x: Fraction,
}

/// A fit trapezoid (paper: piece).
#[derive(Clone, Copy, Debug)]
pub struct Trapezoid {
    pub left: Base,
    pub right: Base,
    pub bottom: Line,
    pub top: Line,
    /// The set of its source layers: 2 to the power of k for each layer k.
    pub sources: u32,
}

impl Trapezoid {
    /// Reads a fit trapezoid and its set.
    pub fn read(words: &[i32]) -> Trapezoid {
        let line = |number: usize| Line::new(&words[4 * number..4 * number + 4]);
        let base = |number: usize| {
            let lines = [line(number), line(number + 1)];
            let x = lines[0].crossing(lines[1]).expect("fit");
            Base { lines, x }
        };
        Trapezoid {
            left: base(0),
            right: base(2),
            bottom: line(4),
            top: line(5),
            sources: words[FILE_WORDS] as u32,
        }
    }

    pub fn lines(&self) -> [Line; 6] {
        [
            self.left.lines[0],
            self.left.lines[1],
            self.right.lines[0],
            self.right.lines[1],
            self.bottom,
            self.top,
        ]
    }

    pub fn write(&self, words: &mut [i32]) {
        for (number, line) in self.lines().iter().enumerate() {
            words[4 * number..4 * number + 4].copy_from_slice(&line.words);
        }
        words[FILE_WORDS] = self.sources as i32;
    }

    /// Whether the trapezoid's range holds the position.
    pub fn spans(&self, x: Fraction) -> bool {
        self.left.x.at_most(x) && x.less(self.right.x)
    }

    /// Whether the point lies in the trapezoid.
    pub fn holds(&self, p: Point) -> bool {
        self.spans(p.x) && self.bottom.height(p.x).at_most(p.y) && p.y.less(self.top.height(p.x))
    }
}

/// A rational point. Its coordinates may have different denominators.
#[derive(Clone, Copy, Debug)]
pub struct Point {
    pub x: Fraction,
    pub y: Fraction,
}

impl Point {
    pub fn new(x: i32, y: i32, d: i32) -> Point {
        Point {
            x: Fraction::new(x.into(), d.into()),
            y: Fraction::new(y.into(), d.into()),
        }
    }
}

/// Reads a layer of fit trapezoids.
pub fn read_layer(words: &[i32]) -> Vec<Trapezoid> {
    words.chunks(WORDS).map(Trapezoid::read).collect()
}

/// The words of a layer.
pub fn layer_words(layer: &[Trapezoid]) -> Vec<i32> {
    let mut words = vec![0; layer.len() * WORDS];
    for (trapezoid, record) in layer.iter().zip(words.chunks_mut(WORDS)) {
        trapezoid.write(record);
    }
    words
}

/// How many of the layer's trapezoids hold the point.
pub fn holders(layer: &[Trapezoid], p: Point) -> usize {
    layer.iter().filter(|trapezoid| trapezoid.holds(p)).count()
}

/// Whether the point lies in the layer.
pub fn lies_in(layer: &[Trapezoid], p: Point) -> bool {
    holders(layer, p) > 0
}

// ---------------------------------------------------------------------------------------------
// The overlay of two trapezoids (paper: pair cut)

/// A part of an overlay: 1 in A only, 2 in B only, 3 in both. It has the set of the one that it lies in, or
/// both sets joined.
#[derive(Clone, Copy, Debug)]
pub struct Part {
    pub tag: u8,
    pub trapezoid: Trapezoid,
}

/// The overlay of A and B, put into `parts` in place of what it held.
pub fn overlay(a: &Trapezoid, b: &Trapezoid, parts: &mut Vec<Part>) {
    // No rational point in both: A, then B, whole.
    if !overlap(a, b, parts) {
        parts.clear();
        parts.push(Part {
            tag: 1,
            trapezoid: *a,
        });
        parts.push(Part {
            tag: 2,
            trapezoid: *b,
        });
    }
}

/// Whether a rational point lies in both. If one does, `parts` are those of the overlay.
fn overlap(a: &Trapezoid, b: &Trapezoid, parts: &mut Vec<Part>) -> bool {
    parts.clear();
    if !plainly_apart(a, b) {
        divide(a, b, parts);
    }
    parts.iter().any(|part| part.tag == 3)
}

/// A quick way out: no common range, or one lies wholly below the other over the common range.
pub fn plainly_apart(a: &Trapezoid, b: &Trapezoid) -> bool {
    let from = a.left.x.larger(b.left.x);
    let to = a.right.x.smaller(b.right.x);
    if !from.less(to) {
        return true;
    }
    let below = |low: Line, high: Line| {
        low.compare_at(high, from) != Ordering::Greater
            && low.compare_at(high, to) != Ordering::Greater
    };
    below(a.top, b.bottom) || below(b.top, a.bottom)
}

/// Divides A and B into columns and those into parts.
pub fn divide(a: &Trapezoid, b: &Trapezoid, parts: &mut Vec<Part>) {
    let from = a.left.x.larger(b.left.x);
    let to = a.right.x.smaller(b.right.x);

    // The events (paper: stops), in the order in which they lend their names.
    let mut events = [a.left; 8];
    let mut count = 0;
    for base in [a.left, a.right, b.left, b.right] {
        events[count] = base;
        count += 1;
    }
    for (side_of_a, side_of_b) in [
        (a.bottom, b.bottom),
        (a.bottom, b.top),
        (a.top, b.bottom),
        (a.top, b.top),
    ] {
        if let Some(x) = side_of_a.crossing(side_of_b) {
            if from.less(x) && x.less(to) {
                events[count] = Base {
                    lines: [side_of_a, side_of_b],
                    x,
                };
                count += 1;
            }
        }
    }

    // Left to right; the sort keeps equal ones in the order of names.
    let events = &mut events[..count];
    events.sort_by(|e, f| e.x.compare(f.x));
    let mut kept = 1;
    for next in 1..count {
        if events[kept - 1].x.less(events[next].x) {
            events[kept] = events[next];
            kept += 1;
        }
    }

    for column in events[..kept].windows(2) {
        divide_column(a, b, column[0], column[1], parts);
    }
}

/// Divides one column by the sides of the trapezoids whose range holds it.
fn divide_column(a: &Trapezoid, b: &Trapezoid, left: Base, right: Base, parts: &mut Vec<Part>) {
    let x = left.x.between(right.x);

    // The dividing sides, A's first, each with the trapezoid it belongs to.
    let mut sides = [(a.bottom, 1); 4];
    let mut count = 0;
    for (trapezoid, owner) in [(a, 1), (b, 2)] {
        if trapezoid.spans(x) {
            sides[count] = (trapezoid.bottom, owner);
            sides[count + 1] = (trapezoid.top, owner);
            count += 2;
        }
    }

    // Bottom to top; the sort keeps coinciding ones with A's first.
    let sides = &mut sides[..count];
    sides.sort_by(|s, t| s.0.compare_at(t.0, x));

    // A side leads into its trapezoid or out of it.
    let mut tag = 0;
    let mut bottom = None;
    for &(line, owner) in sides.iter() {
        let level = match bottom {
            None => false,
            Some(low) => line.compare_at(low, x) == Ordering::Equal,
        };
        if !level {
            let sources = match tag {
                1 => a.sources,
                2 => b.sources,
                _ => a.sources | b.sources,
            };
            if let (Some(bottom), 1..=3) = (bottom, tag) {
                parts.push(Part {
                    tag,
                    trapezoid: Trapezoid {
                        left,
                        right,
                        bottom,
                        top: line,
                        sources,
                    },
                });
            }
            bottom = Some(line);
        }
        tag ^= owner;
    }
}

// ---------------------------------------------------------------------------------------------
// Operations: the result, the overlays made, and the room they need

/// An operation under way.
struct Run {
    /// Records in the output.
    room: usize,
    result: Vec<Trapezoid>,
    overlays: u32,
    /// The most records that the result and the remainder have held together.
    peak: usize,
    /// The trapezoid in hand, or what is left of it (paper: in hand).
    remainder: Vec<Trapezoid>,
    next: Vec<Trapezoid>,
    parts: Vec<Part>,
}

/// The result and the remainder exceed the output.
struct NoRoom;

impl Run {
    fn new(room: usize) -> Run {
        Run {
            room,
            result: Vec::new(),
            overlays: 0,
            peak: 0,
            remainder: Vec::new(),
            next: Vec::new(),
            parts: Vec::new(),
        }
    }

    /// The space rule, met after each overlay and each addition.
    fn check_space(&mut self, held: usize) -> Result<(), NoRoom> {
        self.peak = self.peak.max(held);
        if held > self.room {
            return Err(NoRoom);
        }
        Ok(())
    }

    fn overlay(&mut self, a: &Trapezoid, b: &Trapezoid) {
        self.overlays += 1;
        overlay(a, b, &mut self.parts);
    }

    /// Adds a whole layer.
    fn add_all(&mut self, layer: &[Trapezoid]) -> Result<(), NoRoom> {
        self.result.extend_from_slice(layer);
        self.check_space(self.result.len())
    }

    /// Puts into the remainder what is left of the trapezoid without the others, while the result
    /// holds `held` records.
    fn subtract(
        &mut self,
        trapezoid: &Trapezoid,
        others: &[Trapezoid],
        held: usize,
    ) -> Result<(), NoRoom> {
        self.remainder.clear();
        self.remainder.push(*trapezoid);
        for other in others {
            self.next.clear();
            for number in 0..self.remainder.len() {
                let in_hand = self.remainder[number];
                self.overlay(&in_hand, other);
                for part in &self.parts {
                    if part.tag == 1 {
                        self.next.push(part.trapezoid);
                    }
                }
                let not_yet_reached = self.remainder.len() - number - 1;
                self.check_space(held + self.next.len() + not_yet_reached)?;
            }
            std::mem::swap(&mut self.remainder, &mut self.next);
        }
        Ok(())
    }

    /// Adds the remainder.
    fn add_remainder(&mut self) -> Result<(), NoRoom> {
        self.result.append(&mut self.remainder);
        self.check_space(self.result.len())
    }

    /// Adds A - B.
    fn difference(&mut self, a: &[Trapezoid], b: &[Trapezoid]) -> Result<(), NoRoom> {
        for trapezoid in a {
            self.subtract(trapezoid, b, self.result.len())?;
            self.add_remainder()?;
        }
        Ok(())
    }

    /// Adds what is in both.
    fn intersection(&mut self, a: &[Trapezoid], b: &[Trapezoid]) -> Result<(), NoRoom> {
        for first in a {
            for second in b {
                self.overlay(first, second);
                for part in &self.parts {
                    if part.tag == 3 {
                        self.result.push(part.trapezoid);
                    }
                }
                self.check_space(self.result.len())?;
            }
        }
        Ok(())
    }

    fn combine(&mut self, code: u32, a: &[Trapezoid], b: &[Trapezoid]) -> Result<(), NoRoom> {
        match code {
            0 => {
                self.add_all(a)?;
                self.difference(b, a)
            }
            1 => self.intersection(a, b),
            2 => self.difference(a, b),
            3 => self.difference(b, a),
            4 => {
                self.difference(a, b)?;
                self.difference(b, a)
            }
            _ => unreachable!("row 2"),
        }
    }

    fn deoverlap(&mut self, a: &[Trapezoid]) -> Result<(), NoRoom> {
        for trapezoid in a {
            let result = std::mem::take(&mut self.result);
            self.subtract(trapezoid, &result, result.len())?;
            self.result = result;
            self.add_remainder()?;
        }
        Ok(())
    }

    /// The operand with points that the other lacks, if A and B differ.
    fn equal(&mut self, a: &[Trapezoid], b: &[Trapezoid]) -> Result<Option<u8>, NoRoom> {
        self.difference(a, b)?;
        if !self.result.is_empty() {
            return Ok(Some(0));
        }
        self.difference(b, a)?;
        if !self.result.is_empty() {
            return Ok(Some(1));
        }
        Ok(None)
    }
}

// ---------------------------------------------------------------------------------------------
// Refusals

#[derive(Clone, Copy, Debug, PartialEq, Eq)]
pub struct Refusal {
    pub number: u8,
    pub place: u32,
}

fn refuse_if(condition: bool, number: u8, place: u32) -> Result<(), Refusal> {
    if condition {
        Err(Refusal { number, place })
    } else {
        Ok(())
    }
}

/// A length that row 1 refuses.
fn bad_length(words: &[i32]) -> bool {
    !words.len().is_multiple_of(WORDS) || words.len() > LONGEST
}

/// Row 1 for layers, output and scratch area.
fn row_1(layers: &[&[i32]], out: &[i32], scratch: &[i32]) -> Result<(), Refusal> {
    let bad = layers.iter().any(|layer| bad_length(layer))
        || bad_length(out)
        || bad_length(scratch)
        || scratch.len() != out.len();
    refuse_if(bad, 1, 0)
}

/// Row 1 where only layers are lent.
fn row_1_layers(layers: &[&[i32]]) -> Result<(), Refusal> {
    refuse_if(layers.iter().any(|layer| bad_length(layer)), 1, 0)
}

fn row_2(code: u32) -> Result<(), Refusal> {
    refuse_if(code > 4, 2, 0)
}

fn row_3(x: i32, y: i32, d: i32) -> Result<(), Refusal> {
    refuse_if(!(1..=LARGEST_D).contains(&d), 3, 0)?;
    let most = LIMIT * d;
    let within = |value: i32| -most <= value && value <= most;
    refuse_if(!within(x) || !within(y), 3, 0)
}

/// The first of rows 7 to 11 that refuses a trapezoid's words. The set is not looked at.
pub fn unfit(words: &[i32]) -> Option<u8> {
    let words = &words[..FILE_WORDS];
    // 7: every coordinate on the grid.
    if words.iter().any(|&word| !(-LIMIT..=LIMIT).contains(&word)) {
        return Some(7);
    }
    // 8: every line from left to right.
    if words.chunks(4).any(|line| line[0] >= line[2]) {
        return Some(8);
    }
    // 9: the lines of each base cross.
    let line = |number: usize| Line::new(&words[4 * number..4 * number + 4]);
    let (Some(left), Some(right)) = (line(0).crossing(line(1)), line(2).crossing(line(3))) else {
        return Some(9);
    };
    // 10: left is left of right.
    if !left.less(right) {
        return Some(10);
    }
    // 11: bottom below top everywhere strictly between. The distance of two lines is linear, so
    // it must be 0 or more at both bases, and not 0 at both.
    let at_left = line(4).compare_at(line(5), left);
    let at_right = line(4).compare_at(line(5), right);
    let crossed = at_left == Ordering::Greater || at_right == Ordering::Greater;
    let level = at_left == Ordering::Equal && at_right == Ordering::Equal;
    if crossed || level {
        return Some(11);
    }
    None
}

/// Rows 7 to 11 for all trapezoids, those of later layers numbered on.
fn rows_7_to_11(layers: &[&[i32]]) -> Result<(), Refusal> {
    let records = layers.iter().flat_map(|layer| layer.chunks(WORDS));
    for (place, record) in records.enumerate() {
        if let Some(number) = unfit(record) {
            return Err(Refusal {
                number,
                place: place as u32,
            });
        }
    }
    Ok(())
}

/// Row 14: the number of a source layer.
fn row_14(layer: u32) -> Result<(), Refusal> {
    refuse_if(layer > 31, 14, 0)
}

/// The first overlapping pair of a layer, taken by its later trapezoid and then its earlier, of the first
/// layer that has one: the number of the later trapezoid, those of later layers numbered on.
pub fn first_overlap(layers: &[Vec<Trapezoid>]) -> Option<usize> {
    let mut parts = Vec::new();
    let mut place = None;
    let mut before = 0;
    'search: for layer in layers {
        for later in 0..layer.len() {
            for earlier in 0..later {
                if overlap(&layer[later], &layer[earlier], &mut parts) {
                    place = Some(before + later);
                    break 'search;
                }
            }
        }
        before += layer.len();
    }
    place
}

/// The trapezoids of layers that pass rows 7 to 11, all of them, and then row 13.
fn fit_layers<const N: usize>(layers: [&[i32]; N]) -> Result<[Vec<Trapezoid>; N], Refusal> {
    rows_7_to_11(&layers)?;
    let layers = layers.map(read_layer);
    match first_overlap(&layers) {
        None => Ok(layers),
        Some(place) => Err(Refusal {
            number: 13,
            place: place as u32,
        }),
    }
}

// ---------------------------------------------------------------------------------------------
// Calls: answers as 64 bits, output and scratch area as the paper leaves them

fn refused(refusal: Refusal) -> u64 {
    1 << 63 | (refusal.number as u64) << 32 | refusal.place as u64
}

fn accepted(value: u32, overlays: u32) -> u64 {
    (value as u64) << 32 | overlays as u64
}

const NO_SPACE: Refusal = Refusal {
    number: 12,
    place: 0,
};

/// Writes the result, or nothing on lack of space; all else is zero.
fn finish(run: Run, space: Result<(), NoRoom>, out: &mut [i32], scratch: &mut [i32]) -> u64 {
    out.fill(0);
    scratch.fill(0);
    match space {
        Err(NoRoom) => refused(NO_SPACE),
        Ok(()) => {
            for (trapezoid, record) in run.result.iter().zip(out.chunks_mut(WORDS)) {
                trapezoid.write(record);
            }
            accepted(run.result.len() as u32, run.overlays)
        }
    }
}

pub fn combine(code: u32, a: &[i32], b: &[i32], out: &mut [i32], scratch: &mut [i32]) -> u64 {
    let rows = row_1(&[a, b], out, scratch)
        .and_then(|()| row_2(code))
        .and_then(|()| fit_layers([a, b]));
    let [a, b] = match rows {
        Err(refusal) => return refused(refusal),
        Ok(layers) => layers,
    };
    let mut run = Run::new(out.len() / WORDS);
    let space = run.combine(code, &a, &b);
    finish(run, space, out, scratch)
}

pub fn deoverlap(a: &[i32], out: &mut [i32], scratch: &mut [i32]) -> u64 {
    let rows = row_1(&[a], out, scratch).and_then(|()| rows_7_to_11(&[a]));
    if let Err(refusal) = rows {
        return refused(refusal);
    }
    let mut run = Run::new(out.len() / WORDS);
    let space = run.deoverlap(&read_layer(a));
    finish(run, space, out, scratch)
}

pub fn equal(a: &[i32], b: &[i32], out: &mut [i32], scratch: &mut [i32]) -> u64 {
    let rows = row_1(&[a, b], out, scratch).and_then(|()| fit_layers([a, b]));
    let [a, b] = match rows {
        Err(refusal) => return refused(refusal),
        Ok(layers) => layers,
    };
    let mut run = Run::new(out.len() / WORDS);
    let outcome = run.equal(&a, &b);
    out.fill(0);
    scratch.fill(0);
    match outcome {
        Err(NoRoom) => refused(NO_SPACE),
        Ok(None) => accepted(0, run.overlays),
        Ok(Some(operand)) => accepted(1 + operand as u32, run.overlays),
    }
}

pub fn contains(x: i32, y: i32, d: i32, a: &[i32], b: &[i32], code: u32) -> u64 {
    let rows = row_1_layers(&[a, b])
        .and_then(|()| row_2(code))
        .and_then(|()| row_3(x, y, d))
        .and_then(|()| rows_7_to_11(&[a, b]));
    if let Err(refusal) = rows {
        return refused(refusal);
    }
    let result = result(code, &read_layer(a), &read_layer(b));
    accepted(lies_in(&result, Point::new(x, y, d)) as u32, 0)
}

// ---------------------------------------------------------------------------------------------
// The same without room, for choosing and checking tests

/// The result of a set operation with all the room it needs.
pub fn result(code: u32, a: &[Trapezoid], b: &[Trapezoid]) -> Vec<Trapezoid> {
    let mut run = Run::new(usize::MAX);
    let _ = run.combine(code, a, b);
    run.result
}

/// Disjoint trapezoids with the same points, with all the room they need.
pub fn deoverlapped(a: &[Trapezoid]) -> Vec<Trapezoid> {
    let mut run = Run::new(usize::MAX);
    let _ = run.deoverlap(a);
    run.result
}

/// The least output, in records, that a set operation is not refused for.
pub fn room_to_combine(code: u32, a: &[Trapezoid], b: &[Trapezoid]) -> usize {
    let mut run = Run::new(usize::MAX);
    let _ = run.combine(code, a, b);
    run.peak
}

/// The same for `deoverlap`.
pub fn room_to_deoverlap(a: &[Trapezoid]) -> usize {
    let mut run = Run::new(usize::MAX);
    let _ = run.deoverlap(a);
    run.peak
}

/// The same for `equal`.
pub fn room_to_equal(a: &[Trapezoid], b: &[Trapezoid]) -> usize {
    let mut run = Run::new(usize::MAX);
    let _ = run.equal(a, b);
    run.peak
}

// ---------------------------------------------------------------------------------------------
// Set words

/// What the set words say of a code and two memberships.
pub fn set_word(code: u32, a: bool, b: bool) -> bool {
    match code {
        0 => a || b,
        1 => a && b,
        2 => a && !b,
        3 => b && !a,
        4 => a != b,
        _ => unreachable!("row 2"),
    }
}

/// A step as the tally sees it.
#[derive(Clone, Copy, Debug)]
pub struct Step {
    pub code: u32,
    pub a: usize,
    pub b: usize,
    /// Whether the call is a success. A step that is not called is none.
    pub success: bool,
}

/// Boolean evaluation of a chain (paper: tally).
pub fn evaluate(start: &[bool], steps: &[Step]) -> Vec<bool> {
    let mut entries = start.to_vec();
    for step in steps {
        if step.success {
            entries.push(set_word(step.code, entries[step.a], entries[step.b]));
        }
    }
    entries
}
