//! `map LEN ROOM BITS`: the code of a number from -1 to 1, by the Rust's `encode_imapb`.
use super::lent::{done, lend, refused, rooms, untouched, LENGTHS};
use super::{params, Case, Kind};
use crate::error::KlvEncodeError;
use crate::klv::imapb::encode_imapb;
use crate::random::Random;

pub const KIND: Kind = Kind {
    name: "map",
    limits,
    random,
    share: 1,
};

pub const SIGN: u64 = 1 << 63;
pub const ONE: u64 = 0x3FF << 52;
pub const INFINITY: u64 = 0x7FF << 52;

fn case(length: usize, room: usize, bits: u64) -> Case {
    let mut lent = lend(room);
    let answer = match encode_imapb(&params(length), f64::from_bits(bits), &mut lent) {
        Ok(()) => done(&lent, length),
        Err(KlvEncodeError::OutOfRange {
            value, min, max, ..
        }) => {
            assert!(untouched(&lent));
            outside(bits, value, min, max)
        }
        Err(error) => refused(&lent, error),
    };
    Case {
        request: format!("map {length} {room} {bits:016X}"),
        answer,
    }
}

// The Rust fixes no bits of a NaN that it hands back: the port hands back those that it was given.
pub fn outside(bits: u64, value: f64, min: f64, max: f64) -> String {
    assert!(value.to_bits() == bits || value.is_nan() && f64::from_bits(bits).is_nan());
    let (least, most) = (min.to_bits(), max.to_bits());
    format!("refused 3 {bits:016X} {least:016X} {most:016X}")
}

// The number and the two beside it, with either sign.
fn around(size: u64) -> Vec<u64> {
    let beside = [size.saturating_sub(1), size, size + 1];
    beside
        .iter()
        .flat_map(|&bits| [bits, SIGN | bits])
        .collect()
}

// 0 and the least subnormals, the greatest, numbers beside 1, and what is no number.
pub fn edges() -> Vec<u64> {
    let mut edges = Vec::new();
    for size in [0, 1, 1 << 51, 1 << 52, ONE / 2, ONE, 2 * ONE, INFINITY - 1] {
        edges.extend(around(size));
    }
    // infinity, and NaNs with payloads at both ends of either kind
    for payload in [0, 1, (1 << 51) - 1, 1 << 51, (1 << 51) + 1, (1 << 52) - 1] {
        edges.extend([INFINITY | payload, SIGN | INFINITY | payload]);
    }
    edges
}

// The numbers that the codes stand for at the ends of the range and between, and the numbers beside them: there the
// code changes.
fn beside_codes(length: usize) -> Vec<Case> {
    let half = 8 * length as u64 - 2;
    let mut codes: Vec<u64> = (0..=half)
        .flat_map(|place| [1 << place, 3 << place])
        .collect();
    codes.extend(0..=128);
    let mut cases = Vec::new();
    for y in codes {
        for y in [y, (2u64 << half) - y.min(2 << half)] {
            let number = y as f64 / (1u64 << half) as f64 - 1.0;
            let bits = number.to_bits();
            let beside = [bits.saturating_sub(1), bits, bits + 1];
            cases.extend(beside.map(|bits| case(length, length, bits)));
        }
    }
    cases
}

// Every power of two, and the numbers beside it, at one length; those that the sum with 1 shows, at each.
fn powers() -> Vec<Case> {
    let mut cases = Vec::new();
    for field in 0..2047 {
        let shown = (957..1026).contains(&field);
        for length in (1..=8).filter(|&length| shown || field % 8 == length as u64 - 1) {
            let numbers = around(field << 52).into_iter();
            cases.extend(numbers.map(|bits| case(length, length, bits)));
        }
    }
    cases
}

fn limits() -> Vec<Case> {
    let mut cases = powers();
    cases.push(case(8, 300_000, ONE));
    for length in LENGTHS {
        for room in rooms(length) {
            cases.extend(edges().iter().map(|&bits| case(length, room, bits)));
        }
    }
    for length in 1..=8 {
        cases.extend(beside_codes(length));
    }
    cases
}

// A number from -1 to 1, mostly.
pub fn number(random: &mut Random) -> u64 {
    let sign = random.below(2) << 63;
    let uniform = random.bits();
    match random.below(8) {
        0..=2 => sign | uniform % ONE,
        // from 2^-66 to 1
        3 => sign | ONE - 1 - uniform % (66 << 52),
        // of few digits, so that the sum with 1 is exact
        4 => sign | ONE - (random.below(1 << 14) << random.between(38, 44)),
        // just inside the range or outside
        5 => sign | ONE - random.any_length(20),
        6 => sign | ONE + random.any_length(62),
        _ => uniform,
    }
}

fn random(random: &mut Random) -> Case {
    let length = random.between(1, 8) as usize;
    let bits = number(random);
    match random.below(8) {
        0..=4 => case(length, length, bits),
        5 => case(length, length + random.below(4) as usize, bits),
        6 => case(length, length - 1, bits),
        _ => case(random.pick(&[0, 9]), random.below(12) as usize, bits),
    }
}
