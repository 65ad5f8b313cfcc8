//! Transistors from three layers.

use super::components::component_numbers;
use super::{accepted, fit_layers, refused, row_1};
use super::{NoRoom, Run, Trapezoid, NO_SPACE, WORDS};

/// A component with its number.
pub struct Shape {
    pub number: u32,
    pub trapezoids: Vec<Trapezoid>,
}

/// The shapes of a layer, ascending by number.
pub fn shapes(layer: &[Trapezoid]) -> Vec<Shape> {
    let numbers = component_numbers(layer);
    let of = |number: u32| -> Vec<Trapezoid> {
        let own = layer.iter().zip(&numbers).filter(|(_, &n)| n == number);
        own.map(|(trapezoid, _)| *trapezoid).collect()
    };
    let all = (0..layer.len() as u32).map(|number| Shape {
        number,
        trapezoids: of(number),
    });
    all.filter(|shape| !shape.trapezoids.is_empty()).collect()
}

/// What the differences of shapes came to.
pub struct Extraction {
    /// Collector, base and emitter, ascending.
    pub triples: Vec<[u32; 3]>,
    pub overlays: u32,
    /// The least output, in records, that has room for every difference.
    pub room: usize,
}

impl Extraction {
    /// For each shape of one layer and each of another, whether the one encloses the other: whether
    /// the other minus the one is empty. Each difference has the room to itself.
    fn enclosing(
        &mut self,
        room: usize,
        ones: &[Shape],
        others: &[Shape],
    ) -> Result<Vec<Vec<bool>>, NoRoom> {
        let mut rows = Vec::new();
        for one in ones {
            let mut row = Vec::new();
            for other in others {
                let mut run = Run::new(room);
                let space = run.difference(&other.trapezoids, &one.trapezoids);
                self.overlays += run.overlays;
                self.room = self.room.max(run.peak);
                space?;
                row.push(run.result.is_empty());
            }
            rows.push(row);
        }
        Ok(rows)
    }
}

fn extract(
    room: usize,
    collectors: &[Trapezoid],
    bases: &[Trapezoid],
    emitters: &[Trapezoid],
) -> Result<Extraction, NoRoom> {
    let (collectors, bases, emitters) = (shapes(collectors), shapes(bases), shapes(emitters));
    let mut extraction = Extraction {
        triples: Vec::new(),
        overlays: 0,
        room: 0,
    };
    let base_in = extraction.enclosing(room, &collectors, &bases)?;
    let emitter_in = extraction.enclosing(room, &bases, &emitters)?;
    for (c, collector) in collectors.iter().enumerate() {
        for (b, base) in bases.iter().enumerate() {
            for (e, emitter) in emitters.iter().enumerate() {
                if base_in[c][b] && emitter_in[b][e] {
                    let triple = [collector.number, base.number, emitter.number];
                    extraction.triples.push(triple);
                }
            }
        }
    }
    Ok(extraction)
}

/// The extraction with all the room it needs.
pub fn extraction(
    collectors: &[Trapezoid],
    bases: &[Trapezoid],
    emitters: &[Trapezoid],
) -> Extraction {
    let all = extract(usize::MAX, collectors, bases, emitters);
    all.unwrap_or_else(|NoRoom| unreachable!("there is room"))
}

pub fn transistors(
    collectors: &[i32],
    bases: &[i32],
    emitters: &[i32],
    list: &mut [u32],
    out: &mut [i32],
    scratch: &mut [i32],
) -> u64 {
    let layers = [collectors, bases, emitters];
    let rows = row_1(&layers, out, scratch).and_then(|()| fit_layers(layers));
    let [collectors, bases, emitters] = match rows {
        Err(refusal) => return refused(refusal),
        Ok(layers) => layers,
    };
    let room = out.len() / WORDS;
    let extraction = extract(room, &collectors, &bases, &emitters);
    list.fill(0);
    out.fill(0);
    scratch.fill(0);
    match extraction {
        Ok(all) if 3 * all.triples.len() <= list.len() => {
            for (triple, words) in all.triples.iter().zip(list.chunks_mut(3)) {
                words.copy_from_slice(triple);
            }
            accepted(all.triples.len() as u32, all.overlays)
        }
        _ => refused(NO_SPACE),
    }
}
