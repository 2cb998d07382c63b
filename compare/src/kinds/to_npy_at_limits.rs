//! Matrices to make .npy files of that are the same at every run: sizes, counts, rooms and numbers on both sides of
//! each limit.
use super::map::edges;
use super::matrices::{counts, counts_around, Counts, Matrix, TOO_LARGE};
use super::npy_files::{numbers, SIZES};
use super::packs::LONGEST;
use super::read::rooms_around;
use super::to_npy::{case, needed};
use super::write_at_limits::{HALF, TWO};
use super::Case;
use crate::random::Random;

fn of(n: u64, [rows, slots]: Counts) -> Matrix {
    let mut random = Random::new(n);
    Matrix {
        n,
        deviations: numbers(&mut random, rows),
        correlations: numbers(&mut random, slots),
    }
}

fn exact(matrix: &Matrix) -> Case {
    case(needed(matrix), matrix)
}

// None, one short, exact and larger; short within the header, and of all of the body.
fn in_rooms(matrix: &Matrix) -> Vec<Case> {
    let mut rooms = rooms_around(needed(matrix));
    rooms.extend([1, 61, 127, 128]);
    rooms.into_iter().map(|room| case(room, matrix)).collect()
}

fn every_size() -> Vec<Case> {
    let matrices = SIZES.map(|n| of(n, counts(n)));
    let mut cases: Vec<Case> = matrices.iter().map(exact).collect();
    for matrix in matrices.iter().filter(|matrix| matrix.n < 12) {
        cases.extend(in_rooms(matrix));
    }
    cases
}

// Counts that fit, and those beside them.
fn every_count() -> Vec<Case> {
    let mut cases = Vec::new();
    for n in [0, 1, 2, 3, 4, 9, 10, 11] {
        for counts in counts_around(n) {
            cases.extend(in_rooms(&of(n, counts)));
        }
    }
    cases
}

// With few numbers, and with as many as the size would ask for; some sizes have a square or pairs that are few in
// their low word.
fn too_large() -> Vec<Case> {
    let more = [1_000, 999_999_999, 1_000_000_000, 1 << 31, 3 << 62, 1 << 63];
    let mut cases = Vec::new();
    for n in TOO_LARGE.into_iter().chain(more) {
        for counts in [[0, 0], [1, 0], [2, 1], [0, 1], [256, 0]] {
            cases.extend([0, 128, LONGEST].map(|room| case(room, &of(n, counts))));
        }
    }
    cases.push(case(LONGEST, &of(257, [257, 32_896])));
    cases
}

// Each number at an edge, at each place.
fn every_edge() -> Vec<Case> {
    let mut cases = Vec::new();
    for bits in edges() {
        for n in [1, 2, 3] {
            let matrix = Matrix {
                n,
                deviations: vec![TWO; counts(n)[0]],
                correlations: vec![HALF; counts(n)[1]],
            };
            for place in 0..matrix.deviations.len() {
                let mut changed = matrix.clone();
                changed.deviations[place] = bits;
                cases.push(exact(&changed));
            }
            for place in 0..matrix.correlations.len() {
                let mut changed = matrix.clone();
                changed.correlations[place] = bits;
                cases.push(exact(&changed));
            }
        }
    }
    cases
}

// Every choice of what is refused: the first in document 02's order counts.
fn every_order() -> Vec<Case> {
    let mut cases = Vec::new();
    for choice in 0..16 {
        let wrong = |place: usize| choice >> place & 1 == 1;
        let n = if wrong(0) { 257 } else { 3 };
        let rows = if wrong(1) { 2 } else { 3 };
        let slots = if wrong(2) { 4 } else { 3 };
        let room = if wrong(3) { 199 } else { 200 };
        cases.push(case(room, &of(n, [rows, slots])));
    }
    cases
}

// As many rows as there can be: every room, and counts off by one.
fn largest() -> Vec<Case> {
    let [rows, slots] = counts(256);
    let whole = of(256, [rows, slots]);
    let exact = needed(&whole);
    let rooms = [0, 127, exact - 1, exact + 1, LONGEST];
    let mut cases = Vec::from(rooms.map(|room| case(room, &whole)));
    for counts in [
        [rows - 1, slots],
        [rows + 1, slots],
        [rows, slots - 1],
        [rows, slots + 1],
        [rows, 0],
        [0, slots],
    ] {
        cases.push(case(exact, &of(256, counts)));
    }
    cases
}

pub fn limits() -> Vec<Case> {
    let groups = [
        every_size,
        every_count,
        too_large,
        every_edge,
        every_order,
        largest,
    ];
    groups.iter().flat_map(|group| group()).collect()
}
