//! Fracture in cases worked out by hand. A polygon file is given by its words: the count, the pairs, the
//! vertices. Edges count from 0 in the polygon's order. An event at a vertex position k is named by the
//! lines 0 0 1 0 and k 0 k+1 1.

mod reference;
mod support;

use reference::WORDS;
use support::files::file_bytes;
use support::outcomes::refusal;
use support::outputs::fracture;
use support::{layer_of, with_sources, words};

/// A file with these words has these trapezoids. They just fit into as many records, and not into one
/// fewer.
fn assert_fractured(file: &str, trapezoids: &[&str]) {
    let file = file_bytes(&words(file));
    let count = trapezoids.len();
    let with_room = |records: usize| {
        let room = vec![7; records * WORDS];
        fracture(&file, &room, &room)
    };
    // Fractured as layer 0.
    let mut right = with_sources(&layer_of(&trapezoids.join(" ")), 1);
    let pieces = (count as u64) << 32;
    assert_eq!(with_room(count), (pieces, right.clone()));
    // The rest is zero.
    right.resize(20 * WORDS, 0);
    assert_eq!(with_room(20), (pieces, right));
    if count > 0 {
        let zero = vec![0; (count - 1) * WORDS];
        assert_eq!(with_room(count - 1), (refusal(12, 0), zero));
    }
}

/// A file with these words is refused, and nothing is changed.
fn assert_refused(file: &str, number: u64, place: u64) {
    let (answer, out) = fracture(&file_bytes(&words(file)), &[7; WORDS], &[7; WORDS]);
    assert_eq!(answer, refusal(number, place));
    assert_eq!(out, [7; WORDS]);
}

// ---------------------------------------------------------------------------------------------
// Files

/// N = 0.
#[test]
fn no_polygon() {
    assert_fractured("0", &[]);
}

/// The trapezoid of the first polygon comes first, though it is right of the other.
#[test]
fn two_polygons() {
    assert_fractured(
        "2  0 3  3 3  4 0  6 0  4 2  0 0  2 0  0 2",
        &[
            "0 0 1 0  4 0 5 1  0 0 1 0  6 0 7 1  4 0 6 0  4 2 6 0",
            "0 0 1 0  0 0 1 1  0 0 1 0  2 0 3 1  0 0 2 0  0 2 2 0",
        ],
    );
}

/// 3 vertices and half a vertex: the end is not met.
#[test]
fn half_a_vertex() {
    assert_refused("1  0 3  0 0  0 0  0 0  0", 6, 1);
}

/// A word for the first x of the second of two triangles, whose vertices are at (0, 0) otherwise.
#[test]
fn coordinates_of_the_second_polygon() {
    let file = |x: i32| format!("2  0 3  3 3  0 0  0 0  0 0  {x} 0  0 0  0 0");
    // On the edge of the grid: passed. Edges 0 and 2, back and forth, are a group of sum 0.
    assert_fractured(&file(2048), &[]);
    // Off the grid.
    for x in [2049, -2049, i32::MIN, i32::MAX] {
        assert_refused(&file(x), 7, 1);
    }
}

// ---------------------------------------------------------------------------------------------
// The paper's cases

/// The edges 0 0 2 0 rightward and 0 2 2 0 leftward, one column between the marks of 0 and 2.
#[test]
fn triangle_of_the_paper() {
    assert_fractured(
        "1  0 3  0 0  2 0  0 2",
        &["0 0 1 0  0 0 1 1  0 0 1 0  2 0 3 1  0 0 2 0  0 2 2 0"],
    );
}

/// Edges 0 (rightward) and 2 (leftward) cross at 2, no vertex position; left of it edge 0 is the bottom,
/// right of it edge 2.
#[test]
fn g_crossed_quadrilateral() {
    assert_fractured(
        "1  0 4  0 0  4 4  4 0  0 4",
        &[
            "0 0 1 0  0 0 1 1  0 0 4 4  0 4 4 0  0 0 4 4  0 4 4 0",
            "0 0 4 4  0 4 4 0  0 0 1 0  4 0 5 1  0 4 4 0  0 0 4 4",
        ],
    );
}

/// Both bottoms are one group, the sum is 2, and 0 at the group of the tops.
#[test]
fn h_run_through_twice() {
    assert_fractured(
        "1  0 8  0 0  2 0  2 2  0 2  0 0  2 0  2 2  0 2",
        &["0 0 1 0  0 0 1 1  0 0 1 0  2 0 3 1  0 0 2 0  0 2 2 2"],
    );
    // There and back: both groups have the sum 0.
    assert_fractured("1  0 8  0 0  2 0  2 2  0 2  0 2  2 2  2 0  0 0", &[]);
}

/// Edge 1 is the bottom and edge 0 the top, both from (2047, 2048); the mark of 2,048 is the other one.
#[test]
fn i_at_the_limit() {
    assert_fractured(
        "1  0 3  2048 2048  2047 2048  2048 2047",
        &["0 0 1 0  2047 0 2048 1  0 0 1 0  2047 1 2048 0
            2047 2048 2048 2047  2047 2048 2048 2048"],
    );
    // x is 2,049.
    assert_refused("1  0 3  2049 2048  2047 2048  2048 2047", 7, 0);
    // y is 2,049 in the second polygon.
    assert_refused("2  0 3  3 3  0 0  2 0  0 2  0 0  2 0  0 2049", 7, 1);
    // Off the grid in the first polygon or in the third, where there is no room either.
    for wrong in [2049, -2049, i32::MIN, i32::MAX] {
        let file = format!("1  0 3  2048 2048  2047 2048  2048 {wrong}");
        assert_refused(&file, 7, 0);
        let first = "3  0 3  3 3  6 3  0 0  1 0  0 1  0 0  1 0  0 1";
        let file = format!("{first}  2048 2048  {wrong} 2048  2048 2047");
        assert_refused(&file, 7, 2);
    }
}

/// Between the marks of -2,048 and 2,048.
#[test]
fn whole_grid() {
    assert_fractured(
        "1  0 4  -2048 -2048  2048 -2048  2048 2048  -2048 2048",
        &["0 0 1 0  -2048 0 -2047 1  0 0 1 0  2047 1 2048 0
            -2048 -2048 2048 -2048  -2048 2048 2048 2048"],
    );
}

// ---------------------------------------------------------------------------------------------
// Plain polygons

/// No edge has a span, and there is one event.
#[test]
fn on_one_vertical_line() {
    assert_fractured("1  0 3  3 0  3 5  3 2", &[]);
}

/// In [0,2) edges 0 and 2 are one group, in [2,4) edges 0 and 1, and the sum of each group is 0.
#[test]
fn on_one_slanted_line() {
    assert_fractured("1  0 3  0 0  4 2  2 1", &[]);
}

/// Edge 0 has no span; clockwise, so the bottom, edge 3, is leftward and the sum goes to -1; events -2,
/// 0, 2.
#[test]
fn repeated_vertex() {
    assert_fractured(
        "1  0 4  -2 -2  -2 -2  0 2  2 -2",
        &[
            "0 0 1 0  -2 0 -1 1  0 0 1 0  0 0 1 1  -2 -2 2 -2  -2 -2 0 2",
            "0 0 1 0  0 0 1 1  0 0 1 0  2 0 3 1  -2 -2 2 -2  0 2 2 -2",
        ],
    );
}

/// The square [0,4) by [0,4); in [4,7) edges 1 and 2, forth and back to (7, 1), are one group of sum 0.
#[test]
fn spike_outside() {
    assert_fractured(
        "1  0 6  0 0  4 0  7 1  4 0  4 4  0 4",
        &["0 0 1 0  0 0 1 1  0 0 1 0  4 0 5 1  0 0 4 0  0 4 4 4"],
    );
}

/// Forth and back from (0, 2) to (2, 2), where the sum stays 1; the vertex at 2 is an event, so there
/// are two columns.
#[test]
fn spike_inside() {
    assert_fractured(
        "1  0 7  0 0  4 0  4 4  0 4  0 2  2 2  0 2",
        &[
            "0 0 1 0  0 0 1 1  0 0 1 0  2 0 3 1  0 0 4 0  0 4 4 4",
            "0 0 1 0  2 0 3 1  0 0 1 0  4 0 5 1  0 0 4 0  0 4 4 4",
        ],
    );
}

// ---------------------------------------------------------------------------------------------
// Edges that cross

/// Edges 1 (4 - x) and 3 (x), both leftward, cross at 2. In [0,2) the edges 0, 3, 1, 2 with the sums 1,
/// 0, -1, 0; in [2,4) the edges 0, 1, 3, 2 with the same sums.
#[test]
fn bow_tie() {
    assert_fractured(
        "1  0 4  0 0  4 0  0 4  4 4",
        &[
            "0 0 1 0  0 0 1 1  0 4 4 0  0 0 4 4  0 0 4 0  0 0 4 4",
            "0 0 1 0  0 0 1 1  0 4 4 0  0 0 4 4  0 4 4 0  0 4 4 4",
            "0 4 4 0  0 0 4 4  0 0 1 0  4 0 5 1  0 0 4 0  0 4 4 0",
            "0 4 4 0  0 0 4 4  0 0 1 0  4 0 5 1  0 0 4 4  0 4 4 4",
        ],
    );
}

/// The events are 0, 2, 152/49 (edges 1 and 4), 19/5 (2 and 4), 5 (1 and 3 cross there too, but it is a
/// vertex position), 31/5 (0 and 2), 338/49 (0 and 3), 8, 10. The columns, with sums: 1, 2 (-1, 0); 3, 4,
/// 1, 2 (-1, 0, -1, 0); 3, 1, 4, 2 (-1, -2, -1, 0); 3, 1, 2, 4 (the same); 1, 3, 2, 0; 1, 3, 0, 2; 1, 0,
/// 3, 2 (-1, 0, -1, 0); 3, 2. So the centre, with -2, is filled.
#[test]
fn star() {
    assert_fractured(
        "1  0 5  5 10  8 0  0 6  10 6  2 0",
        &[
            "0 0 1 0  0 0 1 1  0 0 1 0  2 0 3 1  0 6 8 0  0 6 10 6",
            "0 0 1 0  2 0 3 1  0 6 8 0  2 0 5 10  2 0 10 6  2 0 5 10",
            "0 0 1 0  2 0 3 1  0 6 8 0  2 0 5 10  0 6 8 0  0 6 10 6",
            "0 6 8 0  2 0 5 10  0 6 10 6  2 0 5 10  2 0 10 6  0 6 10 6",
            "0 6 10 6  2 0 5 10  0 0 1 0  5 0 6 1  2 0 10 6  2 0 5 10",
            "0 0 1 0  5 0 6 1  5 10 8 0  0 6 10 6  0 6 8 0  5 10 8 0",
            "5 10 8 0  0 6 10 6  5 10 8 0  2 0 10 6  0 6 8 0  0 6 10 6",
            "5 10 8 0  2 0 10 6  0 0 1 0  8 0 9 1  0 6 8 0  5 10 8 0",
            "5 10 8 0  2 0 10 6  0 0 1 0  8 0 9 1  2 0 10 6  0 6 10 6",
            "0 0 1 0  8 0 9 1  0 0 1 0  10 0 11 1  2 0 10 6  0 6 10 6",
        ],
    );
}

// ---------------------------------------------------------------------------------------------
// Groups

/// Edges 3 and 7, forth and back from (0, 0) to (1, 1), are a group of sum 0, and the sum stays 1. In
/// [1,3) the edges 0, 6, 5, 1 with the sums 1, 0, 1, 0, so the small triangle is left out.
#[test]
fn hole() {
    assert_fractured(
        "1  0 8  0 0  8 0  0 8  0 0  1 1  1 3  3 1  1 1",
        &[
            "0 0 1 0  0 0 1 1  0 0 1 0  1 0 2 1  0 0 8 0  0 8 8 0",
            "0 0 1 0  1 0 2 1  0 0 1 0  3 0 4 1  0 0 8 0  1 1 3 1",
            "0 0 1 0  1 0 2 1  0 0 1 0  3 0 4 1  1 3 3 1  0 8 8 0",
            "0 0 1 0  3 0 4 1  0 0 1 0  8 0 9 1  0 0 8 0  0 8 8 0",
        ],
    );
}

/// Edges 2 (leftward) and 3 (rightward) between two boxes are a group of sum 0, and the sum stays 1.
#[test]
fn group_of_sum_0() {
    assert_fractured(
        "1  0 7  0 0  4 0  4 2  0 2  4 2  4 4  0 4",
        &["0 0 1 0  0 0 1 1  0 0 1 0  4 0 5 1  0 0 4 0  0 4 4 4"],
    );
}

/// Edges 0 (2 0 4 0), 4 (2 0 8 0) and 7 (0 0 2 0) are rightward on one line. In [2,4) edges 0 and 4 are
/// a group of sum 2 with the line of edge 0; edge 2 above it makes 1, edge 5 makes 0.
#[test]
fn group_of_sum_2() {
    assert_fractured(
        "1  0 8  2 0  4 0  4 2  2 2  2 0  8 0  0 8  0 0",
        &[
            "0 0 1 0  0 0 1 1  0 0 1 0  2 0 3 1  0 0 2 0  0 8 8 0",
            "0 0 1 0  2 0 3 1  0 0 1 0  4 0 5 1  2 0 4 0  0 8 8 0",
            "0 0 1 0  4 0 5 1  0 0 1 0  8 0 9 1  2 0 8 0  0 8 8 0",
        ],
    );
}

/// In [1,3) edges 0 (leftward, 1 0 3 0), 1 (rightward, 1 0 4 0) and 5 (rightward, 0 0 3 0) are a group
/// of sum 1 with the line of edge 0; edge 5 is alone in [0,1), edge 1 in [3,4).
#[test]
fn group_of_sum_1_with_a_leftward_edge_first() {
    assert_fractured(
        "1  0 6  3 0  1 0  4 0  4 2  0 2  0 0",
        &[
            "0 0 1 0  0 0 1 1  0 0 1 0  1 0 2 1  0 0 3 0  0 2 4 2",
            "0 0 1 0  1 0 2 1  0 0 1 0  3 0 4 1  1 0 3 0  0 2 4 2",
            "0 0 1 0  3 0 4 1  0 0 1 0  4 0 5 1  1 0 4 0  0 2 4 2",
        ],
    );
}

/// Edge 7 makes -1, the group of edges 1 and 5 makes 1, edge 3 makes 0: the sum returns to 0 only there.
#[test]
fn from_minus_1_to_1() {
    assert_fractured(
        "1  0 8  0 0  0 2  4 2  4 4  0 4  0 2  4 2  4 0",
        &["0 0 1 0  0 0 1 1  0 0 1 0  4 0 5 1  0 0 4 0  0 4 4 4"],
    );
}

// ---------------------------------------------------------------------------------------------
// Names of events

/// Edges 0 (8 - x), 2 (x) and 4 (at 4) go through (4, 4); of the pairs 0 2, 0 4, 2 4 the first names the
/// event, with edge 0 first. In [0,4) the edges 1, 2, 4, 0 with the sums -1, 0, -1, 0; in [4,8) the edges
/// 1, 0, 4, 2.
#[test]
fn three_edges_through_one_point() {
    assert_fractured(
        "1  0 6  0 8  8 0  0 0  8 8  8 4  0 4",
        &[
            "0 0 1 0  0 0 1 1  0 8 8 0  0 0 8 8  0 0 8 0  0 0 8 8",
            "0 0 1 0  0 0 1 1  0 8 8 0  0 0 8 8  0 4 8 4  0 8 8 0",
            "0 8 8 0  0 0 8 8  0 0 1 0  8 0 9 1  0 0 8 0  0 8 8 0",
            "0 8 8 0  0 0 8 8  0 0 1 0  8 0 9 1  0 4 8 4  0 0 8 8",
        ],
    );
}

/// Edges 0 and 6 cross at (2, 6), edges 2 and 4 at (2, 1): of these pairs 0 6 is the lower and names the
/// event. In [0,2) the edges 4, 2, 0, 6 with the sums 1, 0, 1, 0; in [2,4) the edges 2, 4, 6, 0 with -1,
/// 0, -1, 0.
#[test]
fn two_crossings_at_one_event() {
    assert_fractured(
        "1  0 8  0 4  4 8  4 0  0 2  0 0  4 2  4 4  0 8",
        &[
            "0 0 1 0  0 0 1 1  0 4 4 8  0 8 4 4  0 0 4 2  0 2 4 0",
            "0 0 1 0  0 0 1 1  0 4 4 8  0 8 4 4  0 4 4 8  0 8 4 4",
            "0 4 4 8  0 8 4 4  0 0 1 0  4 0 5 1  0 2 4 0  0 0 4 2",
            "0 4 4 8  0 8 4 4  0 0 1 0  4 0 5 1  0 8 4 4  0 4 4 8",
        ],
    );
}

/// (g) run through twice: edges 0 and 4 are one group, edges 2 and 6 another; of the pairs 0 2, 0 6, 2 4,
/// 4 6 the first names 2.
#[test]
fn g_run_through_twice() {
    assert_fractured(
        "1  0 8  0 0  4 4  4 0  0 4  0 0  4 4  4 0  0 4",
        &[
            "0 0 1 0  0 0 1 1  0 0 4 4  0 4 4 0  0 0 4 4  0 4 4 0",
            "0 0 4 4  0 4 4 0  0 0 1 0  4 0 5 1  0 4 4 0  0 0 4 4",
        ],
    );
}

/// The vertex (4, 0) lies on edge 0, where two triangles meet; 4 is an event because a vertex is there.
#[test]
fn tip_on_an_edge() {
    assert_fractured(
        "1  0 5  0 0  8 0  8 4  4 0  0 4",
        &[
            "0 0 1 0  0 0 1 1  0 0 1 0  4 0 5 1  0 0 8 0  0 4 4 0",
            "0 0 1 0  4 0 5 1  0 0 1 0  8 0 9 1  0 0 8 0  4 0 8 4",
        ],
    );
}

/// Edges 0 (-x), 2 (x) and 4 (from 0 to 1 across the grid) cross at -2048/4097 (0 and 4), 0 (0 and 2) and
/// 2048/4095 (2 and 4); edge 1 is below them. The columns: 1, 2, 4, 0 (-1, 0, -1, 0); 1, 2, 0, 4 (-1, 0, 1,
/// 0); 1, 0, 2, 4 (the same); 1, 0, 4, 2.
#[test]
fn edges_across_the_grid() {
    assert_fractured(
        "1  0 6  -2048 2048  2048 -2048  -2048 -2048  2048 2048  2048 1  -2048 0",
        &[
            "0 0 1 0  -2048 0 -2047 1  -2048 2048 2048 -2048  -2048 0 2048 1
                -2048 -2048 2048 -2048  -2048 -2048 2048 2048",
            "0 0 1 0  -2048 0 -2047 1  -2048 2048 2048 -2048  -2048 0 2048 1
                -2048 0 2048 1  -2048 2048 2048 -2048",
            "-2048 2048 2048 -2048  -2048 0 2048 1  -2048 2048 2048 -2048  -2048 -2048 2048 2048
                -2048 -2048 2048 -2048  -2048 -2048 2048 2048",
            "-2048 2048 2048 -2048  -2048 0 2048 1  -2048 2048 2048 -2048  -2048 -2048 2048 2048
                -2048 2048 2048 -2048  -2048 0 2048 1",
            "-2048 2048 2048 -2048  -2048 -2048 2048 2048  -2048 -2048 2048 2048  -2048 0 2048 1
                -2048 -2048 2048 -2048  -2048 2048 2048 -2048",
            "-2048 2048 2048 -2048  -2048 -2048 2048 2048  -2048 -2048 2048 2048  -2048 0 2048 1
                -2048 -2048 2048 2048  -2048 0 2048 1",
            "-2048 -2048 2048 2048  -2048 0 2048 1  0 0 1 0  2047 1 2048 0
                -2048 -2048 2048 -2048  -2048 2048 2048 -2048",
            "-2048 -2048 2048 2048  -2048 0 2048 1  0 0 1 0  2047 1 2048 0
                -2048 0 2048 1  -2048 -2048 2048 2048",
        ],
    );
}
