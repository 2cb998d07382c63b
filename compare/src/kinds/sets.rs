//! ST 0601 sets: items one behind the other, whole and faulty.
use super::oid::spelled;
use super::packs::slots;
use super::packs_at_random;
use super::write::{correlations, deviations, Sent};
use crate::klv::length::{ber_len, write_ber};
use crate::random::Random;

// The items that are no source of a pack.
pub const PACK: u32 = 102;
pub const CHECKSUM: u32 = 1;

// Those, what decode.rs treats apart, and tags at the limits of one byte, of two and of all.
pub const TAGS: [u32; 13] = [
    0,
    CHECKSUM,
    2,
    65,
    101,
    PACK,
    103,
    115,
    127,
    128,
    300,
    16_384,
    u32::MAX,
];

// A length in the fewest bytes.
pub fn length(value: usize) -> Vec<u8> {
    let mut bytes = vec![0; ber_len(value)];
    write_ber(value, &mut bytes).unwrap();
    bytes
}

pub fn item(tag: u32, value: &[u8]) -> Vec<u8> {
    [&spelled(tag.into(), 0), &length(value.len()), value].concat()
}

// A pack of so many rows, by the Rust's writer.
pub fn pack(random: &mut Random, rows: usize) -> Vec<u8> {
    let count = slots(rows as u64);
    let zeros = random.below(count as u64 + 1) as usize;
    let sent = Sent {
        clen: Some(random.between(1, 8) as usize),
        deviations: deviations(random, rows),
        correlations: correlations(random, count, zeros),
    };
    sent.written().unwrap()
}

fn bytes(random: &mut Random, count: usize) -> Vec<u8> {
    (0..count).map(|_| random.byte()).collect()
}

// One of the Rust's writer mostly, one of any layout that may be damaged, or no pack.
fn pack_or_not(random: &mut Random) -> Vec<u8> {
    match random.below(16) {
        0 => packs_at_random::made(random).0,
        1 => {
            let count = random.below(6) as usize;
            bytes(random, count)
        }
        _ => {
            let rows = random.below(6) as usize;
            pack(random, rows)
        }
    }
}

fn tag(random: &mut Random) -> u32 {
    match random.below(8) {
        0 => random.any_length(32) as u32,
        1..=3 => PACK,
        _ => random.pick(&TAGS),
    }
}

// Mostly short, and now and then with a length in long form.
fn value(random: &mut Random, tag: u32) -> Vec<u8> {
    if tag == PACK {
        return pack_or_not(random);
    }
    let count = match random.below(16) {
        0 => random.pick(&[126, 127, 128, 255, 256, 300]),
        _ => random.below(6) as usize,
    };
    bytes(random, count)
}

// The tag or the length in more bytes than it takes, a length that is none, a tag that is none, or too long a length.
fn faulty(random: &mut Random, tag: u32, value: &[u8]) -> Vec<u8> {
    let (plain, count) = (spelled(tag.into(), 0), value.len());
    let low = count.to_be_bytes();
    let (tag, length) = match random.below(7) {
        0 => (spelled(tag.into(), 1), length(count)),
        1 => (plain, [&[0x82], &low[6..]].concat()),
        2 => (plain, [&[0x88], &low[..]].concat()),
        3 => (plain, vec![random.pick(&[0x80, 0x89, 0xFF])]),
        4 => (plain, length(count + 1 + random.below(300) as usize)),
        5 => (plain, [&[0x88], &[0xFF; 8][..]].concat()),
        _ => (spelled((1 << 32) + u64::from(tag), 0), length(count)),
    };
    [tag.as_slice(), &length, value].concat()
}

// A set's bytes, and how many tags its items have that a pack can refine.
pub fn made(random: &mut Random) -> (Vec<u8>, usize) {
    let mut set = Vec::new();
    let mut tags = 0;
    let count = random.below(12);
    for _ in 0..count {
        let tag = tag(random);
        let value = value(random, tag);
        tags += usize::from(tag != PACK && tag != CHECKSUM);
        set.extend(match random.below(40) {
            0 => faulty(random, tag, &value),
            _ => item(tag, &value),
        });
    }
    if random.below(16) == 0 {
        set.truncate(random.below(set.len() as u64 + 1) as usize);
    }
    (set, tags)
}
