//! `ber HEX` and `strict-ber HEX`: BER lengths, by the Rust's `read_ber` and `read_ber_strict`.
use super::packs_at_limits::up_to_two;
use super::{cases, hex, Case, Kind};
use crate::error::KlvDecodeError;
use crate::klv::length::{read_ber, read_ber_strict};
use crate::random::Random;

pub const KIND: Kind = Kind {
    name: "ber",
    limits: || cases(&limits(), case),
    random: |random| case(&string(random)),
    share: 1,
};

pub const STRICT: Kind = Kind {
    name: "strict-ber",
    limits: || cases(&limits(), strict_case),
    random: |random| strict_case(&string(random)),
    share: 1,
};

// Bytes of length at both ends of what the short form holds, and of what a byte does.
const EDGES: [u8; 5] = [0x00, 0x01, 0x7F, 0x80, 0xFF];

fn told(name: &str, bytes: &[u8], read: Result<(usize, &[u8]), KlvDecodeError>) -> Case {
    let answer = match read {
        Ok((value, left)) => format!("length {value} {}", left.len()),
        Err(_) => "nothing".to_string(),
    };
    Case {
        request: format!("{name} {}", hex(bytes)),
        answer,
    }
}

pub(super) fn case(bytes: &[u8]) -> Case {
    told("ber", bytes, read_ber(bytes))
}

pub(super) fn strict_case(bytes: &[u8]) -> Case {
    told("strict-ber", bytes, read_ber_strict(bytes))
}

// So many bytes of length are said, and so many are there: one, others and a last.
fn long(said: usize, there: usize, [head, middle, last]: [u8; 3]) -> Vec<u8> {
    let mut bytes = vec![middle; there + 1];
    bytes[there] = last;
    if there > 0 {
        bytes[1] = head;
    }
    bytes[0] = 0x80 + said as u8;
    bytes
}

fn limits() -> Vec<Vec<u8>> {
    let mut strings = up_to_two();
    strings.push(vec![0x7F; 300_000]);
    for said in [0, 1, 2, 3, 4, 7, 8, 9, 10, 126, 127] {
        for there in [said.max(1) - 1, said, said + 2] {
            for head in EDGES {
                for middle in EDGES {
                    strings.extend(EDGES.map(|last| long(said, there, [head, middle, last])));
                }
            }
        }
    }
    strings
}

fn string(random: &mut Random) -> Vec<u8> {
    // the indefinite form and nine bytes of length among them
    let said = random.below(11) as usize;
    let mut bytes: Vec<u8> = (0..=said).map(|_| random.byte()).collect();
    bytes[0] = 0x80 + said as u8;
    match random.below(4) {
        0 => bytes[0] = random.byte(),
        // some zeros first
        1 => bytes[1..][..random.below(said as u64 + 1) as usize].fill(0x00),
        2 => {
            let edges = [(); 3].map(|_| random.pick(&EDGES));
            bytes = long(said, said, edges);
        }
        _ => {}
    }
    // now and then cut short, or with bytes behind it
    bytes.truncate(random.between(0, 40) as usize);
    for _ in 0..random.below(4) {
        bytes.push(random.byte());
    }
    bytes
}
