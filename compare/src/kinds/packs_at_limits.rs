//! Byte strings that are the same at every run: all short ones, document 01's packs, and packs that end at and beside
//! each element's end.
use super::oid::spelled;
use super::packs::{controls, pack, Control, Pack, LONGEST};
use crate::random::Random;

// First bytes that say something: a size, that more follows, or the most of either.
const FIRST: [u8; 10] = [0x00, 0x01, 0x02, 0x03, 0x04, 0x80, 0x81, 0x82, 0x90, 0xFF];

// All strings of two bytes.
fn pairs() -> impl Iterator<Item = [u8; 2]> {
    (0..=u16::MAX).map(u16::to_be_bytes)
}

// All strings of up to two bytes.
pub fn up_to_two() -> Vec<Vec<u8>> {
    let mut strings = vec![vec![]];
    strings.extend((0..=u8::MAX).map(|first| vec![first]));
    strings.extend(pairs().map(Vec::from));
    strings
}

// Those, and the strings of three bytes that start with one of the bytes above.
pub fn every_short() -> Vec<Vec<u8>> {
    let mut strings = up_to_two();
    for first in FIRST {
        strings.extend(pairs().map(|[second, third]| vec![first, second, third]));
    }
    strings
}

// Two deviations between what is before and after: document 01's D.
fn with_d(head: &[u8], tail: &[u8]) -> Vec<u8> {
    [head, &[0x3F, 0x80, 0, 0, 0x40, 0, 0, 0], tail].concat()
}

// Document 01's own.
pub fn documented() -> Vec<Vec<u8>> {
    let mut packs = vec![
        vec![],
        vec![0x02, 0x80, 0x00],
        vec![0x82, 0x01, 0x80, 0x04],
        vec![0x82, 0x00, 0x80, 0x04],
        vec![0x00, 0x90, 0x04],
        with_d(&[0x02, 0x41], &[0x60]),
        with_d(&[0x02, 0xA0, 0x04, 0x80], &[]),
        with_d(&[0x02, 0xBF, 0x04, 0x00], &[]),
        with_d(&[0x02, 0x90, 0x14], &[]),
        with_d(&[0x02, 0x91, 0x04], &[0x60, 0x00]),
        with_d(&[0x02, 0xBF, 0x04, 0x80], &[0x60; 14]),
        with_d(&[0x02, 0xBF, 0x04, 0x80], &[0x60; 15]),
    ];
    packs.extend([0x60, 0x80, 0x81, 0xC8].map(|last| with_d(&[0x02, 0x91, 0x04], &[last])));
    packs
}

// The size after some 80s, up to more than it can have.
pub fn padded() -> Vec<Vec<u8>> {
    let body = with_d(&[0x91, 0x04], &[0x60]);
    (0..8)
        .map(|padding| [spelled(2, padding), body.clone()].concat())
        .collect()
}

// Whole, and one byte short of each element's end, at it and past it.
pub fn cut_at_ends(random: &mut Random, mut made: Pack) -> Vec<Vec<u8>> {
    made.bytes.extend([random.byte(), random.byte()]);
    let ends = made.ends.iter().flat_map(|&end| [end - 1, end, end + 1]);
    let mut lengths: Vec<usize> = ends.collect();
    lengths.dedup();
    lengths
        .iter()
        .map(|&length| made.bytes[..length].to_vec())
        .collect()
}

// Every Parse Control with the smallest sizes.
pub fn every_control() -> Vec<Vec<u8>> {
    let mut random = Random::new(0);
    let mut packs = Vec::new();
    for mut control in controls() {
        for n in [0, 1, 2, 4] {
            control.ignored = random.pick(&[[0x00, 0x00], [0xFF, 0xFF]]);
            let made = pack(&mut random, n, 0, control);
            packs.extend(cut_at_ends(&mut random, made));
        }
    }
    packs
}

// Cut at every byte, so that each element is short by each of its lengths.
pub fn every_cut() -> Vec<Vec<u8>> {
    let mut random = Random::new(3);
    let mut packs = Vec::new();
    for n in [2, 3, 5, 9] {
        for (cf, clen, slen) in [
            (true, 1, 4),
            (true, 3, 8),
            (true, 8, 4),
            (false, 4, 4),
            (true, 9, 8),
        ] {
            for cs in [false, true] {
                let whole = pack(&mut random, n, 0, Control::of(cs, cf, clen, slen)).bytes;
                packs.extend((0..whole.len()).map(|length| whole[..length].to_vec()));
            }
        }
    }
    packs
}

// Sizes up to the largest and beyond.
pub fn every_size() -> Vec<Vec<u8>> {
    of_sizes(1, &[3, 9, 17, 64, 255, 256, 257, (1 << 32) - 1])
}

// With a Bit Vector and without.
pub fn of_sizes(seed: u64, sizes: &[u64]) -> Vec<Vec<u8>> {
    let layouts = [
        (true, 0, 0),
        (true, 0, 4),
        (true, 1, 0),
        (true, 2, 8),
        (true, 8, 4),
        (false, 4, 4),
        (false, 8, 8),
    ];
    let mut random = Random::new(seed);
    let mut packs = Vec::new();
    for &n in sizes {
        for ((cf, clen, slen), cs) in layouts.into_iter().flat_map(|of| [(of, false), (of, true)]) {
            let made = pack(&mut random, n, 0, Control::of(cs, cf, clen, slen));
            packs.extend(cut_at_ends(&mut random, made));
        }
    }
    packs
}

// The most rows with the longest codes, which no reader takes: whole, one byte short and one byte over.
pub fn of_long_codes() -> Vec<Vec<u8>> {
    let mut random = Random::new(8);
    let mut packs = Vec::new();
    for clen in 9..=15 {
        for (cs, cf) in [(false, true), (false, false), (true, true), (true, false)] {
            let whole = pack(&mut random, 256, 0, Control::of(cs, cf, clen, 4)).bytes;
            packs.push(whole[..whole.len() - 1].to_vec());
            packs.push([whole.as_slice(), &[0x00]].concat());
            packs.push(whole);
        }
    }
    packs
}

pub fn longest() -> Vec<u8> {
    with_d(&[0x02, 0x91, 0x04], &[0x60; LONGEST - 11])
}
