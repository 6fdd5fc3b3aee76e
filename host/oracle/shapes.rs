//! Matrices and lists of many shapes, for the generator and the harness.

use crate::chance::Chance;

/// The shapes that the generator goes through.
#[derive(Clone, Copy)]
pub enum Shape {
    /// Points spread evenly, rounded straight-line times.
    Even,
    /// Points in a few heaps.
    Clusters,
    /// Few different times.
    ManyEqual,
    AllEqual,
    /// 0 and 65535 alone.
    Extremes,
    /// Any times.
    Any,
}

const SHAPES: [Shape; 6] = [
    Shape::Even,
    Shape::Clusters,
    Shape::ManyEqual,
    Shape::AllEqual,
    Shape::Extremes,
    Shape::Any,
];

/// The shape of the item with this number.
pub fn shape(item: usize) -> Shape {
    SHAPES[item % SHAPES.len()]
}

/// A matrix, row by row; symmetric, or both ways apart; its diagonal is anything.
pub fn matrix(chance: &mut Chance, shape: Shape, n: usize, symmetric: bool) -> Vec<u16> {
    let points = points(chance, shape, n);
    let equal = chance.below(65536) as u16;
    let mut matrix = vec![0; n * n];
    for i in 0..n {
        for j in 0..n {
            matrix[i * n + j] = match shape {
                _ if i == j => chance.one_of(&[0, 65535, 1, equal]),
                _ if symmetric && j < i => matrix[j * n + i],
                Shape::Even | Shape::Clusters => {
                    let slower = if symmetric {
                        0.0
                    } else {
                        chance.below(40) as f64
                    };
                    let (dx, dy) = (points[i].0 - points[j].0, points[i].1 - points[j].1);
                    ((dx * dx + dy * dy).sqrt() + slower).round() as u16
                }
                Shape::ManyEqual => chance.from(1, 4) as u16,
                Shape::AllEqual => equal,
                Shape::Extremes => chance.one_of(&[0, 65535]),
                Shape::Any => chance.below(65536) as u16,
            };
        }
    }
    matrix
}

/// The item's n, from a range, and its matrix: symmetric or not, some with many legs at 65535.
pub fn with_slow_legs(
    chance: &mut Chance,
    item: usize,
    range: (usize, usize),
) -> (usize, Vec<u16>) {
    let n = chance.from(range.0, range.1);
    let symmetric = chance.one_in(3);
    let mut matrix = matrix(chance, shape(item), n, symmetric);
    if chance.one_in(3) {
        for time in &mut matrix {
            if chance.one_in(2) {
                *time = u16::MAX;
            }
        }
    }
    (n, matrix)
}

/// Points of the plane.
fn points(chance: &mut Chance, shape: Shape, n: usize) -> Vec<(f64, f64)> {
    let heaps = match shape {
        Shape::Clusters => chance.from(1, 6),
        _ => 1,
    };
    let width = match shape {
        Shape::Clusters => 60,
        _ => 2000,
    };
    let corners: Vec<(usize, usize)> = (0..heaps)
        .map(|_| (chance.below(3000), chance.below(3000)))
        .collect();
    (0..n)
        .map(|_| {
            let (x, y) = chance.one_of(&corners);
            (
                (x + chance.below(width)) as f64,
                (y + chance.below(width)) as f64,
            )
        })
        .collect()
}

/// A near list of k per stop: ascending, its nearest shuffled, or any stops with repeats.
pub fn near(chance: &mut Chance, matrix: &[u16], n: usize, k: usize) -> Vec<u32> {
    let order = chance.below(4);
    if order == 0 {
        return any_list(chance, n, k);
    }
    let mut list = Vec::with_capacity(n * k);
    for stop in 0..n {
        let mut entries = nearest(matrix, n, stop, k);
        if order == 1 {
            chance.shuffle(&mut entries);
        }
        list.append(&mut entries);
    }
    list
}

/// An alpha list of ka per stop: the nearest, or any stops with repeats.
pub fn alpha(chance: &mut Chance, matrix: &[u16], n: usize, ka: usize) -> Vec<u32> {
    if !chance.one_in(2) {
        return any_list(chance, n, ka);
    }
    (0..n)
        .flat_map(|stop| nearest(matrix, n, stop, ka))
        .collect()
}

/// The nearest others, ascending; where there are too few, the last is repeated.
fn nearest(matrix: &[u16], n: usize, stop: usize, count: usize) -> Vec<u32> {
    let mut others: Vec<usize> = (0..n).filter(|&other| other != stop).collect();
    others.sort_by_key(|&other| matrix[stop * n + other]);
    (0..count)
        .map(|i| others[i.min(others.len() - 1)] as u32)
        .collect()
}

/// A list of any stops, `each` per stop.
pub fn any_list(chance: &mut Chance, n: usize, each: usize) -> Vec<u32> {
    (0..n).flat_map(|stop| any(chance, n, stop, each)).collect()
}

/// Any others, repeats allowed.
fn any(chance: &mut Chance, n: usize, stop: usize, count: usize) -> Vec<u32> {
    (0..count)
        .map(|_| ((stop + chance.from(1, n - 1)) % n) as u32)
        .collect()
}
