//! `oid HEX` and `strict-oid HEX`: BER-OID numbers, by the Rust's `read_ber_oid` and `read_ber_oid_strict`.
use super::packs_at_limits::up_to_two;
use super::{cases, hex, Case, Kind};
use crate::klv::length::{read_ber_oid, read_ber_oid_strict};
use crate::random::Random;

pub const KIND: Kind = Kind {
    name: "oid",
    limits: || cases(&limits(), case),
    random: |random| case(&string(random)),
    share: 1,
};

pub const STRICT: Kind = Kind {
    name: "strict-oid",
    limits: || cases(&[up_to_two(), limits()].concat(), strict_case),
    random: |random| strict_case(&string(random)),
    share: 1,
};

// Bytes at both ends of what a byte can mean: more follows or not, no digits or all, the top digits of 2^32 and below
// it.
const EDGES: [u8; 12] = [
    0x00, 0x01, 0x0F, 0x10, 0x7F, 0x80, 0x81, 0x8F, 0x90, 0xC0, 0xFE, 0xFF,
];

fn case(bytes: &[u8]) -> Case {
    let answer = match read_ber_oid(bytes) {
        Ok((value, left)) => format!("oid {value} {}", left.len()),
        // with document 02's two numbers
        Err(_) => "refused 1 0 0".to_string(),
    };
    Case {
        request: format!("oid {}", hex(bytes)),
        answer,
    }
}

pub(super) fn strict_case(bytes: &[u8]) -> Case {
    let answer = match read_ber_oid_strict(bytes) {
        Ok((value, left)) => format!("oid {value} {}", left.len()),
        Err(_) => "nothing".to_string(),
    };
    Case {
        request: format!("strict-oid {}", hex(bytes)),
        answer,
    }
}

// The value in the fewest bytes, after some 80s.
pub fn spelled(value: u64, padding: u64) -> Vec<u8> {
    let mut bytes = vec![(value % 128) as u8];
    let mut left = value / 128;
    while left > 0 {
        bytes.insert(0, 128 + (left % 128) as u8);
        left /= 128;
    }
    for _ in 0..padding {
        bytes.insert(0, 0x80);
    }
    bytes
}

fn limits() -> Vec<Vec<u8>> {
    // none, and as many as a request has to be taken with
    let mut strings = vec![vec![], vec![0x7F; 300_000]];
    for digits in [7, 14, 21, 28, 32, 35] {
        for value in [
            (1 << digits) - 2,
            (1 << digits) - 1,
            1 << digits,
            (1 << digits) + 1,
        ] {
            for padding in 0..8 {
                let bytes = spelled(value, padding);
                strings.push(bytes[..bytes.len() - 1].to_vec());
                strings.push([bytes.as_slice(), &[0x80, 0x00]].concat());
                strings.push(bytes);
            }
        }
    }
    for first in EDGES {
        strings.push(vec![first]);
        for second in EDGES {
            strings.push(vec![first, second]);
            strings.extend(EDGES.map(|third| vec![first, second, third]));
        }
    }
    strings
}

fn string(random: &mut Random) -> Vec<u8> {
    let mut bytes = match random.below(4) {
        0 => {
            let near = 1 << random.pick(&[7, 14, 21, 28, 32, 33, 35]);
            spelled(near + random.below(5) - 2, random.below(4))
        }
        1 => spelled(random.any_length(34), random.below(4)),
        2 => {
            let more = random.below(7);
            let mut run: Vec<u8> = (0..more).map(|_| random.pick(&EDGES) | 0x80).collect();
            run.push(random.pick(&EDGES));
            run
        }
        _ => (0..random.below(9)).map(|_| random.byte()).collect(),
    };
    // now and then cut short
    bytes.truncate(random.between(0, 40) as usize);
    for _ in 0..random.below(4) {
        bytes.push(random.byte());
    }
    bytes
}
