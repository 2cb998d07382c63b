//! Packs at random, whole and damaged.
use super::packs::{pack, Control, LONGEST};
use crate::random::Random;

// A length that can be read, mostly.
pub fn length(random: &mut Random, mapped: bool) -> u8 {
    match random.below(8) {
        0 => random.below(16) as u8,
        1 => 0,
        _ if mapped => random.between(1, 8) as u8,
        _ => random.pick(&[4, 8]),
    }
}

pub fn control(random: &mut Random) -> Control {
    let mode2 = random.below(4) > 0;
    let mask = if mode2 { 15 } else { 7 };
    let cf = random.below(3) > 0;
    Control {
        mode2,
        cs: random.below(2) == 1,
        cf,
        clen: length(random, cf || !mode2) & mask,
        sf: random.below(16) == 0,
        slen: length(random, false) & mask,
        ignored: random.pick(&[[0x00, 0x00], [0x40, 0x00], [0x00, 0xE0], [0xFF, 0xFF]]),
    }
}

// Mostly small, since all that a pack holds is printed.
pub fn size(random: &mut Random) -> u64 {
    match random.below(2000) {
        0 => random.pick(&[255, 256]),
        1..=4 => random.pick(&[63, 64, 65]),
        5..=40 => random.pick(&[257, 258, 512, 1 << 14, (1 << 32) - 1, 1 << 32]),
        41..=140 => random.pick(&[9, 17]),
        141..=240 => random.between(5, 24),
        _ => random.below(5),
    }
}

fn damage(random: &mut Random, bytes: &mut Vec<u8>) {
    let places = bytes.len() as u64;
    let place = random.below(places) as usize;
    match random.below(6) {
        // a bit, or all of a byte; a bit of the first three, with which most is decided
        0 => bytes[place] ^= 1 << random.below(8),
        1 => bytes[place] = random.byte(),
        2 => bytes[random.below(places.min(3)) as usize] ^= 1 << random.below(8),
        3 => bytes.truncate(place),
        4 => bytes.insert(place, random.byte()),
        _ => bytes.push(random.byte()),
    }
}

// A pack's bytes, and the size with which it was made.
pub fn made(random: &mut Random) -> (Vec<u8>, u64) {
    let n = size(random);
    let padding = random.pick(&[0, 0, 0, 0, 0, 1, 2, 4]);
    let control = control(random);
    let bytes = pack(random, n, padding, control).bytes;
    (damaged(random, bytes), n)
}

// The bytes of a pack, as often as not damaged.
pub fn damaged(random: &mut Random, mut bytes: Vec<u8>) -> Vec<u8> {
    for _ in 0..random.pick(&[0, 0, 0, 1, 1, 2]) {
        if !bytes.is_empty() {
            damage(random, &mut bytes);
        }
    }
    bytes.truncate(LONGEST);
    bytes
}
