//! `mapped LEN HEX`: what a code of mapped form reads as, by the Rust's `decode_imapb`.
use super::lent::LENGTHS;
use super::{hex, params, special, Case, Kind};
use crate::error::KlvFieldError;
use crate::klv::imapb::{decode_imapb, DecodedImapb};
use crate::random::Random;

pub const KIND: Kind = Kind {
    name: "mapped",
    limits,
    random,
    share: 1,
};

// What follows a code's first byte: each byte a repeated one, but the last another.
const TAILS: [(u8, u8); 8] = [
    (0x00, 0x00),
    (0x00, 0x01),
    (0x00, 0x80),
    (0x80, 0x00),
    (0x01, 0x00),
    (0x7F, 0xFF),
    (0xFF, 0xFE),
    (0xFF, 0xFF),
];

fn case(length: usize, bytes: &[u8]) -> Case {
    Case {
        request: format!("mapped {length} {}", hex(bytes)),
        answer: answer(decode_imapb(&params(length), bytes)),
    }
}

pub(super) fn answer(decoded: Result<DecodedImapb, KlvFieldError>) -> String {
    match decoded {
        Ok(decoded) => read(decoded),
        Err(KlvFieldError::UnsupportedImapbLength { length }) => format!("refused 4 {length}"),
        Err(KlvFieldError::InvalidImapbParams { .. }) => "refused 9".to_string(),
        Err(KlvFieldError::InvalidLength { expected, got, .. }) => {
            format!("refused 2 {expected} {got}")
        }
        Err(error) => panic!("{error:?}"),
    }
}

fn read(decoded: DecodedImapb) -> String {
    match decoded {
        DecodedImapb::Value(value) => format!("value {:016X}", value.to_bits()),
        DecodedImapb::OutOfRange { decoded } => format!("outside {:016X}", decoded.to_bits()),
        DecodedImapb::ReservedSpecial { raw } => format!("reserved {raw}"),
        DecodedImapb::Special(special) => {
            let (kind, payload) = special::spelled(special);
            format!("special {kind} {payload}")
        }
    }
}

// The code of a number's low bytes.
fn code(length: usize, y: u64) -> Case {
    case(length, &y.to_be_bytes()[8 - length..])
}

// All codes of one byte and of two.
fn every_short() -> Vec<Case> {
    let mut cases: Vec<Case> = (0..1 << 8).map(|y| code(1, y)).collect();
    cases.extend((0..1 << 16).map(|y| code(2, y)));
    cases
}

// Every first byte at a length, before each tail.
fn every_first(length: usize) -> Vec<Case> {
    let mut cases = Vec::new();
    for first in 0..=u8::MAX {
        for (middle, last) in TAILS {
            let mut bytes = vec![middle; length];
            bytes[length - 1] = last;
            bytes[0] = first;
            cases.push(case(length, &bytes));
        }
    }
    cases
}

// 0, the top code, where each family begins, E1 and E2: the codes beside them, and a bit more and less at each place.
fn beside_limits(length: usize) -> Vec<Case> {
    let bits = 8 * length;
    let mut limits: Vec<u64> = (24..32).map(|family| family << (bits - 5)).collect();
    limits.extend([0, 1 << (bits - 1), 0xE1 << (bits - 8), 0xE2 << (bits - 8)]);
    let mut cases = Vec::new();
    for limit in limits {
        cases.push(code(length, limit.wrapping_sub(1)));
        cases.push(code(length, limit));
        for place in 0..bits - 1 {
            cases.push(code(length, limit.wrapping_add(1 << place)));
            cases.push(code(length, limit.wrapping_sub(1 << place)));
        }
    }
    cases
}

// Codes of more digits than a binary64 has, at and beside a tie between two of them.
fn beside_ties(length: usize) -> Vec<Case> {
    let mut cases = Vec::new();
    for digits in 53..8 * length {
        let tie = 1 << (digits - 53);
        for above in [0, 2 * tie, (1 << digits) - 2 * tie] {
            let middle = (1 << digits) + above + tie;
            cases.extend([middle - 1, middle, middle + 1].map(|y| code(length, y)));
        }
    }
    cases
}

// More bytes than the length, up to as many as a request has to be taken with, and fewer.
fn wrong_counts() -> Vec<Case> {
    let mut cases = vec![case(8, &[0x40; 300_000])];
    for length in LENGTHS {
        for count in 0..12 {
            cases.push(case(length, &vec![0x40; count]));
            cases.push(case(length, &vec![0xC8; count]));
        }
    }
    cases
}

fn limits() -> Vec<Case> {
    let mut cases = every_short();
    for length in 1..=8 {
        cases.extend(beside_limits(length));
        cases.extend(beside_ties(length));
    }
    for length in 1..=9 {
        cases.extend(every_first(length));
    }
    cases.extend(wrong_counts());
    cases
}

fn random(random: &mut Random) -> Case {
    let length = random.between(1, 8) as usize;
    let uniform = random.bits();
    let bits = 8 * length as u64;
    let top = 1 << (bits - 1);
    match random.below(8) {
        0 | 1 => code(length, uniform % top),
        // just below the top code or above it
        2 => code(length, top - random.any_length(bits - 2)),
        3 => code(length, top + random.any_length(bits - 2)),
        // of some family
        4 | 5 => code(
            length,
            (uniform | 24) << (bits - 5) | random.any_length(bits - 5),
        ),
        6 => code(length, uniform),
        _ => {
            let count = random.between(length as u64 - 1, length as u64 + 1);
            let bytes: Vec<u8> = (0..count).map(|_| random.byte()).collect();
            case(random.pick(&[length, length, length, 0, 9]), &bytes)
        }
    }
}
