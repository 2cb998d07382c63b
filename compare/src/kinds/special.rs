//! `special KIND PAYLOAD LEN ROOM`: the codes of special values, by the Rust's `encode_imapb_special`.
use super::lent::{done, lend, refused, rooms, LENGTHS};
use super::{Case, Kind};
use crate::error::KlvEncodeError;
use crate::klv::imapb::{encode_imapb_special, ImapbSpecial};
use crate::random::Random;

pub const KIND: Kind = Kind {
    name: "special",
    limits,
    random,
    share: 1,
};

// Each kind's word, and its special value of a payload.
const SPECIALS: [(&str, fn(u64) -> ImapbSpecial); 9] = [
    ("user", |signal| ImapbSpecial::UserDefined { signal }),
    ("+inf", |_| ImapbSpecial::PositiveInfinity),
    ("+qnan", |nan_id| ImapbSpecial::PositiveQuietNaN { nan_id }),
    ("+snan", |signal| ImapbSpecial::PositiveSignalingNaN {
        signal,
    }),
    ("-inf", |_| ImapbSpecial::NegativeInfinity),
    ("-qnan", |nan_id| ImapbSpecial::NegativeQuietNaN { nan_id }),
    ("-snan", |signal| ImapbSpecial::NegativeSignalingNaN {
        signal,
    }),
    ("below", |_| ImapbSpecial::BelowMin),
    ("above", |_| ImapbSpecial::AboveMax),
];

// The kind's word and the payload that an answer gives.
pub fn spelled(special: ImapbSpecial) -> (&'static str, u64) {
    let payload = match special {
        ImapbSpecial::PositiveQuietNaN { nan_id } | ImapbSpecial::NegativeQuietNaN { nan_id } => {
            nan_id
        }
        ImapbSpecial::PositiveSignalingNaN { signal }
        | ImapbSpecial::NegativeSignalingNaN { signal }
        | ImapbSpecial::UserDefined { signal } => signal,
        _ => 0,
    };
    let is_kind = |of: &fn(u64) -> ImapbSpecial| of(payload) == special;
    let kind = SPECIALS.iter().find(|(_, of)| is_kind(of)).unwrap();
    (kind.0, payload)
}

fn case(kind: usize, payload: u64, length: usize, room: usize) -> Case {
    let (word, of) = SPECIALS[kind];
    let mut lent = lend(room);
    let answer = match encode_imapb_special(of(payload), length, &mut lent) {
        Ok(()) => done(&lent, length),
        Err(KlvEncodeError::OutOfRange {
            value, min, max, ..
        }) => {
            let most = (1u64 << (8 * length - 5)) - 1;
            assert!(payload > most);
            assert!(value == payload as f64 && min == 0.0 && max == most as f64);
            // document 01 has these as whole numbers, where the Rust rounds them to floats; and it has the lent memory
            // unchanged, where the Rust has zeroed it by now
            format!("refused 3 {payload} 0 {most}")
        }
        Err(error) => refused(&lent, error),
    };
    Case {
        request: format!("special {word} {payload} {length} {room}"),
        answer,
    }
}

// Payloads at both ends, and on both sides of the limit and of each power of two near it.
fn payloads(length: usize) -> Vec<u64> {
    let mut payloads = vec![0, 1, 7, 8, u64::MAX - 1, u64::MAX];
    if (1..=8).contains(&length) {
        for digits in 8 * length - 6..(8 * length + 1).min(64) {
            let power = 1 << digits;
            payloads.extend([power - 1, power, power + 1]);
        }
    }
    payloads
}

fn limits() -> Vec<Case> {
    let mut cases = Vec::new();
    for kind in 0..SPECIALS.len() {
        cases.push(case(kind, 1, 8, 300_000));
        for length in LENGTHS {
            for room in rooms(length) {
                let payloads = payloads(length).into_iter();
                cases.extend(payloads.map(|payload| case(kind, payload, length, room)));
            }
        }
    }
    cases
}

fn random(random: &mut Random) -> Case {
    let kind = random.below(SPECIALS.len() as u64) as usize;
    let length = random.between(1, 8) as usize;
    let limit = 1 << (8 * length - 5);
    let payload = match random.below(4) {
        0 => random.any_length(64),
        1 => random.below(limit),
        2 => random.pick(&payloads(length)),
        _ => limit + random.any_length(62) - random.below(2),
    };
    match random.below(8) {
        0..=4 => case(kind, payload, length, length),
        5 => case(kind, payload, length, length + random.below(4) as usize),
        6 => case(kind, payload, length, length - 1),
        _ => case(
            kind,
            payload,
            random.pick(&[0, 9]),
            random.below(12) as usize,
        ),
    }
}
