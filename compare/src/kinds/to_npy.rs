//! `to-npy ROOM N COUNT BITS.. COUNT BITS..`: a matrix as a .npy file, by `npy`, since the Rust has none.
use super::matrices::{counts, counts_around, Matrix, TOO_LARGE};
use super::npy::exported;
use super::npy_files::{numbers, size};
use super::read::rooms_around;
use super::to_npy_at_limits::limits;
use super::{hex, Case, Kind};
use crate::random::Random;

pub const KIND: Kind = Kind {
    name: "to-npy",
    limits,
    random,
    share: 3,
};

// The file's length; where none is made, that of some file.
pub(super) fn needed(matrix: &Matrix) -> usize {
    exported(matrix).map_or(160, |file| file.len())
}

// The room is looked at last.
pub(super) fn case(room: usize, matrix: &Matrix) -> Case {
    let answer = match exported(matrix) {
        Ok(file) if room < file.len() => format!("refused 5 {} {room}", file.len()),
        Ok(file) => format!("done {} {}", file.len(), hex(&file)),
        Err(refused) => refused,
    };
    Case {
        request: matrix.request(&format!("to-npy {room}")),
        answer,
    }
}

fn random(random: &mut Random) -> Case {
    let n = match random.below(40) {
        0 => random.pick(&TOO_LARGE),
        _ => size(random),
    };
    let [rows, slots] = match random.below(8) {
        0 => random.pick(&counts_around(n)),
        _ => counts(n),
    };
    let matrix = Matrix {
        n,
        deviations: numbers(random, rows),
        correlations: numbers(random, slots),
    };
    let needed = needed(&matrix);
    let room = match random.below(8) {
        0 => needed + random.below(100) as usize,
        1 | 2 => random.pick(&rooms_around(needed)),
        _ => needed,
    };
    case(room, &matrix)
}
