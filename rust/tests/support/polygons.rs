//! Random polygons for the tests.

use super::files::{file_bytes, file_words};
use super::{fan, Random};
use crate::reference::files::Polygon;
use crate::reference::fracture::edges;
use crate::reference::{Fraction, Point, LIMIT};

/// The polygon file of polygons.
pub fn polygon_file(polygons: &[Polygon]) -> Vec<u8> {
    file_bytes(&polygon_words(polygons))
}

/// Its words.
pub fn polygon_words(polygons: &[Polygon]) -> Vec<i32> {
    let entries: Vec<Vec<i32>> = polygons.iter().map(|polygon| polygon.concat()).collect();
    file_words(&entries, 2)
}

/// A part of the grid from which vertices are taken.
pub struct Window {
    x: (i32, i32),
    y: (i32, i32),
    /// Most coordinates are close to the limits.
    corners: bool,
    /// Ends of lines that cross at positions close to each other.
    ends: Vec<[i32; 2]>,
}

impl Window {
    pub fn new(random: &mut Random) -> Window {
        let kind = random.below(10);
        let reach = match kind {
            0..=4 => random.range(1, 4),
            5 | 6 => random.range(5, 60),
            _ => 2 * LIMIT,
        };
        let start = |random: &mut Random| match random.below(5) {
            0 => -LIMIT,
            1 => LIMIT - reach,
            2 => random.range(-LIMIT, LIMIT - reach),
            _ => (-reach / 2).max(-LIMIT),
        };
        let (x, y) = (start(random), start(random));
        let mut ends = Vec::new();
        if kind == 9 {
            for line in fan(random) {
                let [x1, y1, x2, y2] = line.words;
                ends.extend([[x1, y1], [x2, y2]]);
            }
        }
        Window {
            x: (x, x + reach),
            y: (y, y + reach),
            corners: kind == 8,
            ends,
        }
    }

    fn coordinate(&self, random: &mut Random, (low, high): (i32, i32)) -> i32 {
        if self.corners && random.below(4) > 0 {
            let near = LIMIT - random.range(0, 2);
            return if random.once_in(2) { near } else { -near };
        }
        random.range(low, high)
    }

    fn vertex(&self, random: &mut Random) -> [i32; 2] {
        if !self.ends.is_empty() && random.below(8) > 0 {
            return *random.pick(&self.ends);
        }
        [
            self.coordinate(random, self.x),
            self.coordinate(random, self.y),
        ]
    }

    fn vertices(&self, random: &mut Random, count: usize) -> Polygon {
        (0..count).map(|_| self.vertex(random)).collect()
    }

    /// A polygon of 3 to `most` vertices, `most` from 8 to 32.
    pub fn polygon(&self, random: &mut Random, most: usize) -> Polygon {
        let count = match random.below(6) {
            0 => 3,
            1 => most,
            2 | 3 => 3 + random.below(most - 2),
            _ => 3 + random.below(6),
        };
        let mut polygon = match random.below(12) {
            // Run through twice, or there and back.
            0 | 1 => {
                let mut half = self.vertices(random, count.div_ceil(2));
                let again = half.clone();
                if random.once_in(3) {
                    half.reverse();
                }
                half.extend(again);
                half
            }
            // Spikes and vertices repeated at once.
            2 => {
                let mut polygon = self.vertices(random, 3);
                while polygon.len() + 2 <= count {
                    let at = random.below(polygon.len());
                    let tip = self.vertex(random);
                    if random.once_in(2) {
                        polygon.splice(at..at, [polygon[at], tip]);
                    } else {
                        polygon.splice(at..at, [polygon[at], polygon[at]]);
                    }
                }
                polygon
            }
            // All on one vertical line.
            3 => {
                let mut polygon = self.vertices(random, count);
                let x = polygon[0][0];
                polygon.iter_mut().for_each(|vertex| vertex[0] = x);
                polygon
            }
            // On one or two lines, back and forth.
            4 | 5 => {
                let mut points = Vec::new();
                for _ in 0..random.range(1, 2) {
                    points.extend(self.points_on_a_line(random));
                }
                let mut polygon: Polygon = (0..count).map(|_| *random.pick(&points)).collect();
                if random.once_in(2) {
                    polygon[0] = self.vertex(random);
                }
                polygon
            }
            // Right angles.
            6 => {
                let mut polygon = self.vertices(random, count);
                for number in 1..count {
                    let axis = number % 2;
                    polygon[number][axis] = polygon[number - 1][axis];
                }
                polygon
            }
            // Loops through one vertex.
            7 => {
                let mut polygon = self.vertices(random, count);
                let common = polygon[0];
                polygon.iter_mut().step_by(3).for_each(|v| *v = common);
                polygon
            }
            // Long edges: left and right in turn.
            8 => {
                let mut polygon = self.vertices(random, count);
                let far = [self.x.0, self.x.1];
                for (number, vertex) in polygon.iter_mut().enumerate() {
                    if random.below(3) > 0 {
                        vertex[0] = far[number % 2];
                    }
                }
                polygon
            }
            _ => self.vertices(random, count),
        };
        polygon.truncate(most);
        while polygon.len() < 3 {
            polygon.push(self.vertex(random));
        }
        polygon
    }

    /// Grid points of the window on one line.
    fn points_on_a_line(&self, random: &mut Random) -> Vec<[i32; 2]> {
        let (x, y) = (
            random.range(self.x.0, self.x.1),
            random.range(self.y.0, self.y.1),
        );
        let (dx, dy) = (random.range(0, 3), random.range(-3, 3));
        let within = |&[x, y]: &[i32; 2]| {
            (self.x.0..=self.x.1).contains(&x) && (self.y.0..=self.y.1).contains(&y)
        };
        let on_line = |k: i32| [x + k * dx, y + k * dy];
        (-9..10).map(on_line).filter(within).collect()
    }
}

/// Polygons of a file, in one window.
pub fn any_polygons(random: &mut Random) -> Vec<Polygon> {
    let window = Window::new(random);
    let (count, most) = match random.below(24) {
        0 => (0, 8),
        1 => (random.below(65), 8),
        2 => (random.below(9), 16),
        3..=8 => (random.range(2, 4) as usize, 12),
        9..=13 => (1, 32),
        _ => (1, 12),
    };
    (0..count).map(|_| window.polygon(random, most)).collect()
}

/// A point of the plane, often at a vertex's or a crossing's position or on an edge.
pub fn point_near_polygon(random: &mut Random, polygon: &Polygon) -> Point {
    let edges = edges(polygon);
    let whole = |k: i32| Fraction::new(k.into(), 1);
    if edges.is_empty() {
        let [x, y] = *random.pick(polygon);
        return Point {
            x: whole(x),
            y: whole(y),
        };
    }
    let position = |random: &mut Random| {
        let vertex = random.pick(polygon)[0];
        if random.once_in(2) {
            return whole(vertex);
        }
        let (first, second) = (random.pick(&edges), random.pick(&edges));
        let crossing = first.line.crossing(second.line);
        crossing.unwrap_or(whole(vertex))
    };
    let mut x = position(random);
    if random.once_in(2) {
        x = x.between(position(random));
    }
    // Beyond the polygon there is little to find.
    let low = polygon.iter().map(|v| v[0]).min().unwrap_or(0);
    let high = polygon.iter().map(|v| v[0]).max().unwrap_or(0);
    if x.less(whole(low - 1)) || whole(high + 1).less(x) {
        x = whole(low).between(whole(high));
    }
    let height = |random: &mut Random| random.pick(&edges).line.height(x);
    let mut y = height(random);
    if random.once_in(2) {
        y = y.between(height(random));
    }
    Point { x, y }
}
