//! `mapped-in MIN MAX LEN HEX`: what a code of mapped form reads as in a range, by the Rust's `decode_imapb`.
use super::in_range::{decode, spelled};
use super::lent::LENGTHS;
use super::mapped::answer;
use super::ranges::{any_code, at_random, beside_powers, edges, low, of_ends, BAD, PLAIN};
use super::{hex, Case, Kind, Range};
use crate::random::Random;

pub const KIND: Kind = Kind {
    name: "mapped-in",
    limits,
    random,
    share: 1,
};

fn case(range: Range, length: usize, bytes: &[u8]) -> Case {
    Case {
        request: format!("mapped-in {} {length} {}", spelled(range), hex(bytes)),
        answer: answer(decode(range, length, bytes)),
    }
}

fn at_edges(range: Range, length: usize) -> [Case; 6] {
    edges(range, length).map(|bytes| case(range, length, &bytes))
}

// All codes of one byte, and those at the edges of each length.
fn every_length(range: Range) -> Vec<Case> {
    let short = (0..=u8::MAX).map(|byte| case(range, 1, &[byte]));
    short
        .chain((2..=8).flat_map(|length| at_edges(range, length)))
        .collect()
}

// Lengths that have no code, and more bytes or fewer than the length, in ranges that are taken and in those that are
// not.
fn wrong_counts() -> Vec<Case> {
    let mut cases = vec![case(PLAIN[0], 8, &[0x40; 300_000])];
    for range in [PLAIN[2], BAD[0], BAD[3], BAD[5]] {
        for length in LENGTHS {
            cases.extend((0..12).map(|count| case(range, length, &vec![0x40; count])));
        }
    }
    cases
}

fn limits() -> Vec<Case> {
    let mut cases = wrong_counts();
    cases.extend(PLAIN.into_iter().flat_map(every_length));
    // every length in turn
    let lengths = (1..=8).cycle();
    let ranges = [BAD.to_vec(), of_ends(), beside_powers()].concat();
    for (range, length) in ranges.into_iter().zip(lengths) {
        cases.extend(at_edges(range, length));
    }
    cases
}

fn random(random: &mut Random) -> Case {
    let range = at_random(random);
    let length = random.between(1, 8) as usize;
    match random.below(16) {
        0 => {
            let count = random.between(length as u64 - 1, length as u64 + 1) as usize;
            let bytes = low(count.min(8), random.bits());
            case(range, random.pick(&[length, length, 0, 9]), &bytes)
        }
        _ => case(range, length, &any_code(random, range, length)),
    }
}
