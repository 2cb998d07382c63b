//! `usable` at its limits: numbers, states and counts on both sides of each, and what the Rust reads of each code of a
//! byte.
use super::map::edges;
use super::matrices::{counts, counts_around, Counts, Matrix, TOO_LARGE};
use super::packs::slots;
use super::read::rooms_around;
use super::states::slots_of;
use super::usable::{all_values, case, Asked};
use super::write_at_limits::{HALF, TWO};
use super::Case;
use crate::klv::st1010::decode_sdcc_flp;

// Of numbers that all pass, and values.
fn passing(n: u64, [rows, slots]: Counts) -> Asked {
    all_values(Matrix {
        n,
        deviations: vec![TWO; rows],
        correlations: vec![HALF; slots],
    })
}

// The first, the middle and the last.
fn places(count: usize) -> Vec<usize> {
    let mut places = vec![0, count / 2, count.saturating_sub(1)];
    places.dedup();
    places.retain(|&place| place < count);
    places
}

// The matrix with this number, at each of the places of either list.
fn with(asked: &Asked, bits: u64) -> Vec<Case> {
    let mut cases = Vec::new();
    for place in places(asked.matrix.deviations.len()) {
        let mut changed = asked.clone();
        changed.matrix.deviations[place] = bits;
        cases.push(case(&changed));
    }
    for place in places(asked.matrix.correlations.len()) {
        let mut changed = asked.clone();
        changed.matrix.correlations[place] = bits;
        cases.push(case(&changed));
    }
    cases
}

// Each number at an edge, with deviations and without, and where a count is wrong besides.
fn every_edge() -> Vec<Case> {
    let mut cases = Vec::new();
    for n in [1, 2, 3, 9] {
        let [rows, slots] = counts(n);
        for counts in [
            [rows, slots],
            [0, slots],
            [rows + 1, slots],
            [rows, slots + 1],
        ] {
            let asked = passing(n, counts);
            cases.extend(edges().into_iter().flat_map(|bits| with(&asked, bits)));
        }
    }
    cases
}

// All of a list at an edge, one beside another.
fn all_edges() -> Vec<Case> {
    let mut cases = Vec::new();
    for first in edges() {
        for second in edges() {
            cases.push(case(&all_values(Matrix {
                n: 2,
                deviations: vec![first, second],
                correlations: vec![HALF],
            })));
            cases.push(case(&all_values(Matrix {
                n: 3,
                deviations: vec![],
                correlations: vec![first, second, first],
            })));
            cases.push(case(&all_values(Matrix {
                n: 2,
                deviations: vec![first, first],
                correlations: vec![second],
            })));
        }
    }
    cases
}

// Counts that fit, and those beside them.
fn every_count() -> Vec<Case> {
    let mut cases = Vec::new();
    for n in [0, 1, 2, 3, 4, 5, 6, 9, 17] {
        for counts in counts_around(n) {
            cases.push(case(&passing(n, counts)));
        }
    }
    cases
}

// Beside the limit, with the counts that the size asks for and with fewer.
fn largest() -> Vec<Case> {
    let mut cases = Vec::new();
    for n in [255, 256] {
        let [rows, slots] = counts(n);
        let whole = passing(n, [rows, slots]);
        for bits in [TWO, HALF, u64::MAX] {
            cases.extend(with(&whole, bits));
        }
        for counts in [
            [0, slots],
            [rows - 1, slots],
            [rows + 1, slots],
            [rows, slots - 1],
            [rows, slots + 1],
            [rows, 0],
            [0, 0],
        ] {
            cases.push(case(&passing(n, counts)));
        }
    }
    for n in TOO_LARGE {
        for counts in [[0, 0], [1, 0], [2, 1], [0, 1]] {
            cases.push(case(&passing(n, counts)));
        }
    }
    for counts in [[257, 32_896], [0, 32_896], [257, 32_640], [256, 32_640]] {
        cases.push(case(&passing(257, counts)));
    }
    cases
}

// Each state at each place, of a slot that reads 0.0 and of one that does not.
fn every_state() -> Vec<Case> {
    let mut cases = Vec::new();
    for n in [2, 3, 9, 256] {
        let asked = passing(n, counts(n));
        for place in places(asked.states.len()) {
            for number in [0, HALF] {
                for state in [0, 1, 2, 3, 4, 5, 6, 127, 128, 254, 255] {
                    let mut changed = asked.clone();
                    changed.matrix.correlations[place] = number;
                    changed.states[place] = state;
                    cases.push(case(&changed));
                }
            }
        }
    }
    cases
}

// As many states as there are slots, and others; absent, values, and one that is neither behind them.
fn every_state_count() -> Vec<Case> {
    let mut cases = Vec::new();
    for n in [0, 1, 2, 3, 4, 9, 255, 256] {
        for count in rooms_around(slots(n)) {
            for state in [0, 1] {
                let mut asked = passing(n, counts(n));
                asked.states = vec![state; count];
                cases.push(case(&asked));
                if let Some(last) = asked.states.last_mut() {
                    *last = 4;
                    cases.push(case(&asked));
                }
            }
        }
    }
    cases
}

// What the Rust reads of a pack of two rows, for each code of a byte: P1 to P4 are among them.
fn every_code() -> Vec<Case> {
    let read = |code: u8| {
        let bytes = [0x02, 0x91, 0x04, 0x3F, 0x80, 0, 0, 0x40, 0, 0, 0, code];
        let read = decode_sdcc_flp(&bytes).unwrap();
        let bits = |numbers: &[f64]| numbers.iter().map(|number| number.to_bits()).collect();
        let matrix = Matrix {
            n: read.matrix_size,
            deviations: bits(&read.std_devs),
            correlations: bits(&read.correlations),
        };
        let states = slots_of(&bytes, &read)
            .iter()
            .map(|slot| slot.state)
            .collect();
        case(&Asked { matrix, states })
    };
    (0..=u8::MAX).map(read).collect()
}

pub fn limits() -> Vec<Case> {
    let groups = [
        every_edge,
        all_edges,
        every_count,
        largest,
        every_state,
        every_state_count,
        every_code,
    ];
    groups.iter().flat_map(|group| group()).collect()
}
