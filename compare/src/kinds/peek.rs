//! `peek HEX`: the size that a pack says, by the Rust's `peek_matrix_size`.
use super::packs_at_limits::{documented, every_control, every_short, every_size};
use super::packs_at_limits::{longest, of_long_codes, padded};
use super::packs_at_random::made;
use super::{cases, hex, Case, Kind};
use crate::klv::st1010::peek_matrix_size;
use crate::random::Random;

pub const KIND: Kind = Kind {
    name: "peek",
    limits,
    random,
    share: 1,
};

pub(super) fn case(bytes: &[u8]) -> Case {
    let answer = match peek_matrix_size(bytes) {
        Some(n) => format!("size {n}"),
        None => "nothing".to_string(),
    };
    Case {
        request: format!("peek {}", hex(bytes)),
        answer,
    }
}

fn limits() -> Vec<Case> {
    let mut strings = every_short();
    let longer = [every_control(), every_size(), of_long_codes()];
    for more in [documented(), padded()].into_iter().chain(longer) {
        strings.extend(more);
    }
    strings.push(longest());
    cases(&strings, case)
}

fn random(random: &mut Random) -> Case {
    case(&made(random).0)
}
