//! `usable N COUNT BITS.. COUNT BITS.. COUNT STATE..`: whether a matrix can be used. The Rust has no such question, so
//! documents 01 and 02 are read a second time here.
use super::map::edges;
use super::matrices::{counts_at_random, size, Matrix};
use super::packs::slots;
use super::read::rooms_around;
use super::usable_at_limits::limits;
use super::write::{correlation, correlations, deviation, inside, ROWS};
use super::{Case, Kind};
use crate::random::Random;

pub const KIND: Kind = Kind {
    name: "usable",
    limits,
    random,
    share: 2,
};

// Finite and at least 0, which both zeros are.
fn passes(bits: u64) -> bool {
    let number = f64::from_bits(bits);
    number.is_finite() && number >= 0.0
}

// A matrix, and the states of its slots, whose count is the list's own.
#[derive(Clone)]
pub(super) struct Asked {
    pub matrix: Matrix,
    pub states: Vec<u8>,
}

// Every slot a value.
pub(super) fn all_values(matrix: Matrix) -> Asked {
    let states = vec![1; matrix.correlations.len()];
    Asked { matrix, states }
}

fn usable(asked: &Asked) -> bool {
    let matrix = &asked.matrix;
    if matrix.n > ROWS as u64 {
        return false;
    }
    let rows = matrix.deviations.len();
    (rows == 0 || rows == matrix.n as usize)
        && matrix.correlations.len() == slots(matrix.n)
        && asked.states.len() == slots(matrix.n)
        && matrix.deviations.iter().all(|&bits| passes(bits))
        && matrix.correlations.iter().all(|&bits| inside(bits))
        && asked.states.iter().all(|&state| state == 0 || state == 1)
}

pub(super) fn case(asked: &Asked) -> Case {
    let states: String = asked
        .states
        .iter()
        .map(|state| format!(" {state}"))
        .collect();
    let numbers = asked.matrix.request("usable");
    Case {
        request: format!("{numbers} {}{states}", asked.states.len()),
        answer: if usable(asked) { "yes" } else { "no" }.to_string(),
    }
}

// One that passes, or one that does not.
fn deviation_that(random: &mut Random, wanted: bool) -> u64 {
    loop {
        let bits = match random.below(8) {
            0 => random.pick(&edges()),
            _ => deviation(random),
        };
        if passes(bits) == wanted {
            return bits;
        }
    }
}

// Absent or values, as many as there are correlations, mostly.
fn states(random: &mut Random, slots: usize) -> Vec<u8> {
    let count = match random.below(8) {
        0 => random.pick(&rooms_around(slots)),
        _ => slots,
    };
    (0..count).map(|_| random.below(2) as u8).collect()
}

// A special, a reserved pattern, out of range, or no state at all.
fn other_state(random: &mut Random) -> u8 {
    match random.below(4) {
        0 => random.between(5, 255) as u8,
        _ => random.between(2, 4) as u8,
    }
}

fn random(random: &mut Random) -> Case {
    let n = size(random);
    let [rows, slots] = counts_at_random(random, n);
    let zeros = random.below(slots as u64 + 1) as usize;
    let mut asked = Asked {
        matrix: Matrix {
            n,
            deviations: (0..rows).map(|_| deviation_that(random, true)).collect(),
            correlations: correlations(random, slots, zeros),
        },
        states: states(random, slots),
    };
    // in half of them one or two that do not pass
    for _ in 0..random.pick(&[0, 0, 0, 1, 1, 2]) {
        let list = random.below(3);
        let count = [rows, slots, asked.states.len()][list as usize];
        if count == 0 {
            continue;
        }
        let any = random.below(count as u64) as usize;
        let place = random.pick(&[0, count / 2, count - 1, any]);
        match list {
            0 => asked.matrix.deviations[place] = deviation_that(random, false),
            1 => asked.matrix.correlations[place] = correlation(random, false),
            _ => asked.states[place] = other_state(random),
        }
    }
    case(&asked)
}
