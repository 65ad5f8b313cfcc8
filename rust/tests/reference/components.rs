//! Touching trapezoids and connected components.

use super::{accepted, bad_length, fit_layers, refuse_if, refused};
use super::{Fraction, Line, Point, Trapezoid, WORDS};
use std::cmp::Ordering;

/// Whether the point lies in the closed trapezoid.
pub fn holds_closed(trapezoid: &Trapezoid, p: Point) -> bool {
    trapezoid.left.x.at_most(p.x)
        && p.x.at_most(trapezoid.right.x)
        && trapezoid.bottom.height(p.x).at_most(p.y)
        && p.y.at_most(trapezoid.top.height(p.x))
}

/// The part of the closed range where one line is at or below the other, if any. Heights are linear,
/// so it is a closed range too, and it ends at an end of the range or where the lines cross.
fn at_or_below(
    low: Line,
    high: Line,
    (from, to): (Fraction, Fraction),
) -> Option<(Fraction, Fraction)> {
    let at = |x: Fraction| low.height(x).at_most(high.height(x));
    match (at(from), at(to)) {
        (true, true) => Some((from, to)),
        (false, false) => None,
        (at_from, _) => {
            let x = low.crossing(high).expect("they change sides");
            Some(if at_from { (from, x) } else { (x, to) })
        }
    }
}

/// Whether the closed trapezoids share at least two different rational points. They share one over each
/// position of both ranges where each bottom is at or below the other's top. (Each is at or below its
/// own.) If that is one position only, the two points must be over it.
pub fn touch(a: &Trapezoid, b: &Trapezoid) -> bool {
    let from = a.left.x.larger(b.left.x);
    let to = a.right.x.smaller(b.right.x);
    if to.less(from) {
        return false;
    }
    let first = at_or_below(a.bottom, b.top, (from, to));
    let second = at_or_below(b.bottom, a.top, (from, to));
    let (Some(first), Some(second)) = (first, second) else {
        return false;
    };
    let (from, to) = (first.0.larger(second.0), first.1.smaller(second.1));
    match from.compare(to) {
        Ordering::Less => true,
        Ordering::Equal => {
            let lowest = a.bottom.height(from).larger(b.bottom.height(from));
            let highest = a.top.height(from).smaller(b.top.height(from));
            lowest.less(highest)
        }
        Ordering::Greater => false,
    }
}

/// For each trapezoid the lowest number in its connected component.
pub fn component_numbers(layer: &[Trapezoid]) -> Vec<u32> {
    let mut numbers: Vec<Option<u32>> = vec![None; layer.len()];
    for lowest in 0..layer.len() {
        // Lower ones have reached all they can.
        if numbers[lowest].is_some() {
            continue;
        }
        numbers[lowest] = Some(lowest as u32);
        let mut reached = vec![lowest];
        while let Some(one) = reached.pop() {
            for other in 0..layer.len() {
                if numbers[other].is_none() && touch(&layer[one], &layer[other]) {
                    numbers[other] = Some(lowest as u32);
                    reached.push(other);
                }
            }
        }
    }
    numbers.into_iter().flatten().collect()
}

pub fn components(a: &[i32], numbers: &mut [u32]) -> u64 {
    let bad = bad_length(a) || numbers.len() != a.len() / WORDS;
    let rows = refuse_if(bad, 1, 0).and_then(|()| fit_layers([a]));
    let [a] = match rows {
        Err(refusal) => return refused(refusal),
        Ok(layers) => layers,
    };
    let right = component_numbers(&a);
    numbers.copy_from_slice(&right);
    let own = right.iter().enumerate();
    let count = own.filter(|&(n, &number)| n as u32 == number).count();
    accepted(count as u32, 0)
}
