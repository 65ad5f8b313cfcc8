//! Polygons to trapezoids by nonzero winding (paper: cutting a sheet).

use super::files::{read_polygons, Edition, Polygon};
use super::{
    accepted, refused, row_1, row_14, Base, Fraction, Line, Point, Trapezoid, LIMIT, NO_SPACE,
    WORDS,
};
use std::cmp::Ordering;

/// An edge that has a span.
#[derive(Clone, Copy, Debug)]
pub struct Edge {
    /// Smaller x first.
    pub line: Line,
    /// 1 rightward, -1 leftward.
    pub direction: i32,
}

impl Edge {
    fn from(self) -> Fraction {
        Fraction::new(self.line.words[0].into(), 1)
    }

    fn to(self) -> Fraction {
        Fraction::new(self.line.words[2].into(), 1)
    }

    /// Whether the span holds the position: the smaller x included, the larger not.
    fn spans(self, x: Fraction) -> bool {
        self.from().at_most(x) && x.less(self.to())
    }

    /// Whether the position lies strictly inside the span.
    fn inside(self, x: Fraction) -> bool {
        self.from().less(x) && x.less(self.to())
    }
}

/// The edges that have a span, in order: from each vertex to the next, the last to the first. Those
/// with equal x at their ends count for nothing.
pub fn edges(polygon: &Polygon) -> Vec<Edge> {
    let mut edges = Vec::new();
    for (number, &[x1, y1]) in polygon.iter().enumerate() {
        let [x2, y2] = polygon[(number + 1) % polygon.len()];
        match x1.cmp(&x2) {
            Ordering::Less => edges.push(Edge {
                line: Line::new(&[x1, y1, x2, y2]),
                direction: 1,
            }),
            Ordering::Greater => edges.push(Edge {
                line: Line::new(&[x2, y2, x1, y1]),
                direction: -1,
            }),
            Ordering::Equal => {}
        }
    }
    edges
}

/// The winding number at a point.
pub fn winding(polygon: &Polygon, p: Point) -> i32 {
    edges(polygon)
        .iter()
        .filter(|edge| edge.spans(p.x) && edge.line.height(p.x).at_most(p.y))
        .map(|edge| edge.direction)
        .sum()
}

/// The mark of a vertex position.
fn vertex_mark(k: i32) -> Base {
    let second = if k == LIMIT {
        [LIMIT - 1, 1, LIMIT, 0]
    } else {
        [k, 0, k + 1, 1]
    };
    Base {
        lines: [Line::new(&[0, 0, 1, 0]), Line::new(&second)],
        x: Fraction::new(k.into(), 1),
    }
}

/// The events (paper: stops), left to right: marks of vertices before names of crossings, those in
/// the order of pairs of edges.
pub fn events(polygon: &Polygon, edges: &[Edge]) -> Vec<Base> {
    let mut all: Vec<Base> = polygon.iter().map(|&[x, _]| vertex_mark(x)).collect();
    for (number, first) in edges.iter().enumerate() {
        for second in &edges[number + 1..] {
            let Some(x) = first.line.crossing(second.line) else {
                continue;
            };
            if first.inside(x) && second.inside(x) {
                all.push(Base {
                    lines: [first.line, second.line],
                    x,
                });
            }
        }
    }
    // The sort keeps equal ones in order; the first of them lends its name.
    all.sort_by(|e, f| e.x.compare(f.x));
    all.dedup_by(|later, kept| later.x.compare(kept.x) == Ordering::Equal);
    all
}

/// The trapezoids of one column, bottom to top.
fn fracture_column(edges: &[Edge], left: Base, right: Base, result: &mut Vec<Trapezoid>) {
    let x = left.x.between(right.x);
    let mut spanning: Vec<Edge> = edges.iter().copied().filter(|edge| edge.spans(x)).collect();
    // The sort keeps coinciding ones in order, so a group begins with its lowest-numbered edge.
    spanning.sort_by(|e, f| e.line.compare_at(f.line, x));
    let groups = spanning.chunk_by(|e, f| e.line.compare_at(f.line, x) == Ordering::Equal);

    let mut sum = 0;
    let mut bottom = None;
    for group in groups {
        let line = group[0].line;
        sum += group.iter().map(|edge| edge.direction).sum::<i32>();
        match bottom {
            // The sum leaves zero.
            None if sum != 0 => bottom = Some(line),
            // The sum returns to zero.
            Some(low) if sum == 0 => {
                result.push(Trapezoid {
                    left,
                    right,
                    bottom: low,
                    top: line,
                    sources: 0,
                });
                bottom = None;
            }
            _ => {}
        }
    }
    assert_eq!(sum, 0);
}

/// The trapezoids of one polygon, with empty sets.
pub fn fracture_polygon(polygon: &Polygon) -> Vec<Trapezoid> {
    let edges = edges(polygon);
    let mut result = Vec::new();
    for column in events(polygon, &edges).windows(2) {
        fracture_column(&edges, column[0], column[1], &mut result);
    }
    result
}

pub fn fracture(layer: u32, file: &[u8], out: &mut [i32], scratch: &mut [i32]) -> u64 {
    fracture_edition(Edition::New, layer, file, out, scratch)
}

pub fn fracture_first_edition(
    layer: u32,
    file: &[u8],
    out: &mut [i32],
    scratch: &mut [i32],
) -> u64 {
    fracture_edition(Edition::First, layer, file, out, scratch)
}

fn fracture_edition(
    edition: Edition,
    layer: u32,
    file: &[u8],
    out: &mut [i32],
    scratch: &mut [i32],
) -> u64 {
    let rows = row_1(&[], out, scratch)
        .and_then(|()| row_14(layer))
        .and_then(|()| read_polygons(file, edition));
    let polygons = match rows {
        Err(refusal) => return refused(refusal),
        Ok(polygons) => polygons,
    };
    out.fill(0);
    scratch.fill(0);
    let room = out.len() / WORDS;
    let mut result = Vec::new();
    for polygon in &polygons {
        result.extend(fracture_polygon(polygon));
        if result.len() > room {
            return refused(NO_SPACE);
        }
    }
    for (trapezoid, record) in result.iter_mut().zip(out.chunks_mut(WORDS)) {
        trapezoid.sources = 1 << layer;
        trapezoid.write(record);
    }
    accepted(result.len() as u32, 0)
}
