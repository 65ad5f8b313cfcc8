//! Calls of every function, with random and damaged input.

use super::cells::cells;
use super::files::{about, damage_bytes, damage_file, file_bytes, layers_words, leave_out};
use super::polygons::{any_polygons, polygon_words};
use super::{damage, damage_records, point_near, whole_point, Random, Scene};
use crate::reference::{self, read_layer, FILE_WORDS, WORDS};
use loxurfa::raw;

/// The functions, in the order of include/loxurfa.h.
#[derive(Clone, Copy, Debug, PartialEq, Eq)]
pub enum Function {
    Fracture,
    FractureFirstEdition,
    Combine,
    Deoverlap,
    Equal,
    Contains,
    Components,
    Transistors,
    ReadLayers,
    WriteLayers,
}

use Function::*;

impl Function {
    pub const ALL: [Function; 10] = [
        Fracture,
        FractureFirstEdition,
        Combine,
        Deoverlap,
        Equal,
        Contains,
        Components,
        Transistors,
        ReadLayers,
        WriteLayers,
    ];

    /// How many of the buffers are only read. They come first.
    pub fn inputs(self) -> usize {
        match self {
            Combine | Equal | Contains => 2,
            Transistors => 3,
            _ => 1,
        }
    }

    /// The rows of the table that may refuse it, in the order in which they are checked.
    pub fn rows(self) -> &'static [usize] {
        match self {
            Fracture | FractureFirstEdition => &[1, 14, 4, 5, 6, 7, 12],
            Combine => &[1, 2, 7, 8, 9, 10, 11, 13, 12],
            Deoverlap => &[1, 7, 8, 9, 10, 11, 12],
            Equal | Transistors => &[1, 7, 8, 9, 10, 11, 13, 12],
            Contains => &[1, 2, 3, 7, 8, 9, 10, 11],
            Components => &[1, 7, 8, 9, 10, 11, 13],
            ReadLayers => &[4, 5, 6, 7, 8, 9, 10, 11, 12],
            WriteLayers => &[5, 6, 7, 8, 9, 10, 11, 12],
        }
    }
}

/// What a call is given.
#[derive(Clone, Debug, PartialEq)]
pub enum Buffer {
    Bytes(Vec<u8>),
    Words(Vec<i32>),
    Numbers(Vec<u32>),
}

/// The same, or a part of it, for the time of a call.
pub enum Borrowed<'a> {
    Bytes(&'a mut [u8]),
    Words(&'a mut [i32]),
    Numbers(&'a mut [u32]),
}

impl Buffer {
    /// The elements from `start` to `end`.
    pub fn part(&mut self, start: usize, end: usize) -> Borrowed<'_> {
        match self {
            Buffer::Bytes(all) => Borrowed::Bytes(&mut all[start..end]),
            Buffer::Words(all) => Borrowed::Words(&mut all[start..end]),
            Buffer::Numbers(all) => Borrowed::Numbers(&mut all[start..end]),
        }
    }

    pub fn truncate(&mut self, len: usize) {
        match self {
            Buffer::Bytes(all) => all.truncate(len),
            Buffer::Words(all) => all.truncate(len),
            Buffer::Numbers(all) => all.truncate(len),
        }
    }

    pub fn len(&self) -> usize {
        match self {
            Buffer::Bytes(all) => all.len(),
            Buffer::Words(all) => all.len(),
            Buffer::Numbers(all) => all.len(),
        }
    }

    pub fn is_zero(&self) -> bool {
        match self {
            Buffer::Bytes(all) => all.iter().all(|&x| x == 0),
            Buffer::Words(all) => all.iter().all(|&x| x == 0),
            Buffer::Numbers(all) => all.iter().all(|&x| x == 0),
        }
    }
}

/// One call: its numbers and its buffers, in the order of the header.
#[derive(Clone, Debug)]
pub struct Call {
    pub function: Function,
    /// The code of a set operation, or the layer that is fractured.
    pub code: u32,
    pub point: [i32; 3],
    pub buffers: Vec<Buffer>,
}

impl Call {
    /// Makes the call on buffers of these kinds.
    pub fn make(&self, borrowed: &mut [Borrowed]) -> u64 {
        use Borrowed::*;
        let (code, [x, y, d]) = (self.code, self.point);
        match (self.function, borrowed) {
            (Fracture, [Bytes(f), Words(o), Words(s)]) => raw::fracture(code, f, o, s),
            (FractureFirstEdition, [Bytes(f), Words(o), Words(s)]) => {
                raw::fracture_first_edition(code, f, o, s)
            }
            (Combine, [Words(a), Words(b), Words(o), Words(s)]) => raw::combine(code, a, b, o, s),
            (Deoverlap, [Words(a), Words(o), Words(s)]) => raw::deoverlap(a, o, s),
            (Equal, [Words(a), Words(b), Words(o), Words(s)]) => raw::equal(a, b, o, s),
            (Contains, [Words(a), Words(b)]) => raw::contains(x, y, d, a, b, code),
            (Components, [Words(a), Numbers(n)]) => raw::components(a, n),
            (Transistors, [Words(c), Words(b), Words(e), Numbers(l), Words(o), Words(s)]) => {
                raw::transistors(c, b, e, l, o, s)
            }
            (ReadLayers, [Bytes(f), Words(o)]) => raw::read_layers(f, o),
            (WriteLayers, [Words(w), Bytes(o)]) => raw::write_layers(w, o),
            _ => panic!("other buffers than {:?} takes", self.function),
        }
    }

    /// Makes the call on its own buffers.
    pub fn perform(&mut self) -> u64 {
        let mut buffers = self.buffers.clone();
        let mut borrowed: Vec<Borrowed> = buffers
            .iter_mut()
            .map(|buffer| buffer.part(0, buffer.len()))
            .collect();
        let answer = self.make(&mut borrowed);
        self.buffers = buffers;
        answer
    }

    /// The answer and the buffers by the reference.
    pub fn expected(&self) -> (u64, Vec<Buffer>) {
        use Buffer::*;
        let (code, [x, y, d]) = (self.code, self.point);
        let mut buffers = self.buffers.clone();
        let answer = match (self.function, &mut buffers[..]) {
            (Fracture, [Bytes(f), Words(o), Words(s)]) => {
                reference::fracture::fracture(code, f, o, s)
            }
            (FractureFirstEdition, [Bytes(f), Words(o), Words(s)]) => {
                reference::fracture::fracture_first_edition(code, f, o, s)
            }
            (Combine, [Words(a), Words(b), Words(o), Words(s)]) => {
                reference::combine(code, a, b, o, s)
            }
            (Deoverlap, [Words(a), Words(o), Words(s)]) => reference::deoverlap(a, o, s),
            (Equal, [Words(a), Words(b), Words(o), Words(s)]) => reference::equal(a, b, o, s),
            (Contains, [Words(a), Words(b)]) => reference::contains(x, y, d, a, b, code),
            (Components, [Words(a), Numbers(n)]) => reference::components::components(a, n),
            (Transistors, [Words(c), Words(b), Words(e), Numbers(l), Words(o), Words(s)]) => {
                reference::transistors::transistors(c, b, e, l, o, s)
            }
            (ReadLayers, [Bytes(f), Words(o)]) => reference::files::read_layers(f, o),
            (WriteLayers, [Words(w), Bytes(o)]) => reference::files::write_layers(w, o),
            _ => panic!("other buffers than {:?} takes", self.function),
        };
        (answer, buffers)
    }
}

/// A layer: fit, damaged, of an odd length, or empty; mostly disjoint for a call that refuses overlaps.
fn any_layer(random: &mut Random, scene: &Scene, function: Function) -> Vec<i32> {
    let mut layer = if function.rows().contains(&13) {
        scene.mostly_disjoint_layer(random, 6)
    } else {
        scene.layer(random, 6)
    };
    match random.below(12) {
        0 | 1 => damage(random, &mut layer),
        2 => {
            let words = WORDS * random.below(4);
            layer = random.garbage(words);
        }
        3 => layer.truncate(random.below(layer.len() + 1)),
        4 => layer.clear(),
        _ => {}
    }
    layer
}

/// An output and a scratch area, mostly of the same length and of whole records.
fn room(random: &mut Random) -> [Buffer; 2] {
    let records = match random.below(8) {
        0 => 0,
        1 => 512,
        2 => random.below(3),
        _ => random.below(40),
    };
    let words = WORDS * records;
    let off = |random: &mut Random| match random.below(24) {
        0 => words + 1 + random.below(30),
        1 => words - words.min(1 + random.below(30)),
        2 => random.below(100),
        _ => words,
    };
    let (out, scratch) = match random.below(16) {
        0 => (513 * WORDS, 513 * WORDS),
        _ => (off(random), off(random)),
    };
    [out, scratch].map(|words| Buffer::Words(random.garbage(words)))
}

/// The words of layers, fit or damaged. A trapezoid has `unit` words.
fn layer_file(random: &mut Random, unit: usize) -> Vec<i32> {
    let scene = Scene::new(random);
    let layers: Vec<Vec<i32>> = (0..random.below(5))
        .map(|_| scene.layer(random, 3))
        .collect();
    let mut words = layers_words(&layers, unit);
    let body = 1 + 2 * layers.len();
    match random.below(6) {
        0 => damage_file(random, &mut words, unit),
        1 | 2 => damage_records(random, &mut words[body..], unit),
        3 => {
            let count = random.below(60);
            words = random.garbage(count);
        }
        _ => {}
    }
    words
}

/// The bytes of a file with these words, now and then of a wrong length.
fn bytes(random: &mut Random, words: &[i32]) -> Buffer {
    let mut file = file_bytes(words);
    if random.once_in(10) {
        damage_bytes(random, &mut file);
    }
    Buffer::Bytes(file)
}

/// A point, mostly near the layers.
fn any_point(random: &mut Random, a: &[i32], b: &[i32]) -> [i32; 3] {
    let fit = |words: &[i32]| words.chunks(WORDS).all(|w| reference::unfit(w).is_none());
    let whole = a.len() % WORDS == 0 && b.len() % WORDS == 0;
    if random.once_in(8) || !whole || !fit(a) || !fit(b) {
        let d = *random.pick(&[0, -1, 1, 7, 1024, 1025, i32::MIN]);
        return [random.range(-3000, 3000), random.next() as i32 >> 16, d];
    }
    let (a, b) = (read_layer(a), read_layer(b));
    let point = whole_point(point_near(random, &[&a, &b]));
    point.map_or([0, 0, 1], |(x, y, d)| [x, y, d])
}

/// A call of the function.
pub fn any_call(random: &mut Random, function: Function) -> Call {
    let scene = Scene::new(random);
    let fractures = matches!(function, Fracture | FractureFirstEdition);
    let codes = if fractures { 32 } else { 5 };
    let code = match random.below(16) {
        0 => random.next() as u32,
        1 => codes as u32,
        _ => random.below(codes) as u32,
    };
    let mut point = [0, 0, 1];
    let layer = |random: &mut Random| any_layer(random, &scene, function);
    let buffers = match function {
        Fracture | FractureFirstEdition => {
            let mut polygons = any_polygons(random);
            polygons.truncate(6);
            let mut words = polygon_words(&polygons);
            if random.once_in(if function == Fracture { 2 } else { 8 }) {
                leave_out(random, &mut words);
            }
            match random.below(8) {
                0 | 1 => damage_file(random, &mut words, 2),
                2 => {
                    let at = random.below(words.len());
                    words[at] = *random.pick(&[2049, -2049, 2048, i32::MIN]);
                }
                _ => {}
            }
            let [out, scratch] = room(random);
            vec![bytes(random, &words), out, scratch]
        }
        Combine | Equal => {
            let (a, b) = (layer(random), layer(random));
            let [out, scratch] = room(random);
            vec![Buffer::Words(a), Buffer::Words(b), out, scratch]
        }
        Deoverlap => {
            let [out, scratch] = room(random);
            vec![Buffer::Words(layer(random)), out, scratch]
        }
        Contains => {
            let (a, b) = (layer(random), layer(random));
            point = any_point(random, &a, &b);
            vec![Buffer::Words(a), Buffer::Words(b)]
        }
        Components => {
            let a = layer(random);
            let count = match random.below(8) {
                0 => random.below(10),
                _ => a.len() / WORDS,
            };
            let numbers = (0..count).map(|_| random.next() as u32).collect();
            vec![Buffer::Words(a), Buffer::Numbers(numbers)]
        }
        Transistors => {
            let mut layers = cells(random);
            match random.below(8) {
                0 => layers = [(); 3].map(|()| layer(random)),
                1 | 2 => {
                    let unfit = random.below(3);
                    damage(random, &mut layers[unfit]);
                }
                3 => layers[random.below(3)] = layer(random),
                _ => {}
            }
            let list = random.below(3 * layers[2].len() / WORDS + 4);
            let list = (0..list).map(|_| random.next() as u32 | 1).collect();
            let [out, scratch] = room(random);
            let [collectors, bases, emitters] = layers.map(Buffer::Words);
            let list = Buffer::Numbers(list);
            vec![collectors, bases, emitters, list, out, scratch]
        }
        ReadLayers => {
            let words = layer_file(random, FILE_WORDS);
            let sets = words.len() / FILE_WORDS;
            let out = about(random, words.len() + sets);
            let out = Buffer::Words(random.garbage(out));
            vec![bytes(random, &words), out]
        }
        WriteLayers => {
            let words = layer_file(random, WORDS);
            let sets = words.len() / WORDS;
            let out = about(random, 4 * (words.len() - sets));
            let out = (0..out).map(|_| random.next() as u8 | 1).collect();
            vec![Buffer::Words(words), Buffer::Bytes(out)]
        }
    };
    Call {
        function,
        code,
        point,
        buffers,
    }
}
