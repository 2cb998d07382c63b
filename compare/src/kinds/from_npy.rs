//! `from-npy DROOM CROOM SROOM HEX`: the matrix of a .npy file, by `npy`, since the Rust has none.
use super::from_npy_at_limits::limits;
use super::npy::imported;
use super::npy_files::made;
use super::read::{rooms_at_random, stored, Rooms};
use super::{hex, Case, Kind};
use crate::random::Random;

pub const KIND: Kind = Kind {
    name: "from-npy",
    limits,
    random,
    share: 4,
};

// The rooms are looked at last, and every slot is a value.
pub(super) fn case(rooms: Rooms, file: &[u8]) -> Case {
    let [deviations, correlations, states] = rooms;
    let answer = match imported(file) {
        Ok(matrix) => stored(rooms, &matrix, &vec![1; matrix.correlations.len()]),
        Err(refused) => refused,
    };
    Case {
        request: format!(
            "from-npy {deviations} {correlations} {states} {}",
            hex(file)
        ),
        answer,
    }
}

fn random(random: &mut Random) -> Case {
    let (file, n) = made(random);
    case(rooms_at_random(random, n), &file)
}
