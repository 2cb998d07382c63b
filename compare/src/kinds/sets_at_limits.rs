//! Sets that are the same at every run: short ones, every order of faults and of packs among other items, every cut
//! of one set, lengths at the limits of their forms, and the longest.
use super::packs::LONGEST;
use super::packs_at_limits::up_to_two;
use super::read::rooms_around;
use super::set::case;
use super::sets::{item, length, pack, CHECKSUM, PACK, TAGS};
use super::Case;
use crate::random::Random;

// A size that no byte follows: peek does not pass it.
const NO_PACK: [u8; 1] = [0x02];

// A length that the short form holds.
const MALFORMED: [u8; 4] = [0x02, 0x81, 0x01, 0x00];

// The first faulty item decides, and a full list refuses neither a pack nor a checksum.
fn every_order() -> Vec<Case> {
    let parts = [
        MALFORMED.to_vec(),
        item(PACK, &NO_PACK),
        item(PACK, &pack(&mut Random::new(4), 1)),
        item(CHECKSUM, &[0x12, 0x34]),
        item(65, &[0x13]),
    ];
    let mut cases = Vec::new();
    for first in &parts {
        for second in &parts {
            for third in &parts {
                let set = [first.as_slice(), second, third].concat();
                cases.extend((0..4).map(|room| case(room, &set)));
            }
        }
    }
    cases
}

// Packs of few rows, with few tags before them, some of them packs and checksums.
fn every_capture() -> Vec<Case> {
    let mut random = Random::new(5);
    let mut cases = Vec::new();
    for rows in 0..6 {
        for before in 0..7 {
            for between in [CHECKSUM, PACK, 300] {
                let wanted = item(PACK, &pack(&mut random, rows));
                let mut set = Vec::new();
                for place in 0..before {
                    set.extend(item(2 + place, &[]));
                    set.extend(item(between, &pack(&mut random, 1)));
                }
                set.extend(wanted);
                set.extend(item(3, &[0x00]));
                cases.push(case(16, &set));
            }
        }
    }
    cases
}

// Cut at every byte, and with each byte changed.
fn every_fault() -> Vec<Case> {
    let mut random = Random::new(6);
    let mut set = Vec::new();
    for (place, tag) in TAGS.into_iter().enumerate() {
        set.extend(item(tag, &pack(&mut random, place % 4)));
    }
    let tags = TAGS.len() - 2;
    let mut cases: Vec<Case> = rooms_around(tags)
        .into_iter()
        .map(|room| case(room, &set))
        .collect();
    for place in 0..set.len() {
        cases.push(case(tags, &set[..place]));
        for other in [set[place] ^ 0x80, set[place] ^ 0x01, 0x80, 0x00] {
            let mut changed = set.clone();
            changed[place] = other;
            cases.push(case(tags + 9, &changed));
        }
    }
    cases
}

// Values on both sides of what a form of length holds, whole, one byte short and with a byte left over.
fn every_length() -> Vec<Case> {
    let mut cases = Vec::new();
    for count in [0, 1, 126, 127, 128, 129, 255, 256, 257, 65_535, 65_536] {
        for tag in TAGS {
            let whole = item(tag, &vec![0x00; count]);
            cases.push(case(1, &whole));
            cases.push(case(1, &whole[..whole.len() - 1]));
            cases.push(case(1, &[whole.as_slice(), &[0x02]].concat()));
        }
    }
    // more than a place can be
    let most = [&[0x02], length(usize::MAX).as_slice()].concat();
    cases.push(case(1, &most));
    cases
}

// As many tags as there can be, each of two bytes, with a pack at the end; and one item that is all of the set.
fn longest() -> Vec<Case> {
    let wanted = item(PACK, &pack(&mut Random::new(7), 3));
    let mut set = item(2, &[]).repeat(LONGEST / 2);
    let mut cases = vec![case(LONGEST / 2, &set), case(LONGEST / 2 - 1, &set)];
    set.truncate(LONGEST - 2 * wanted.len());
    set.extend(wanted);
    cases.push(case(LONGEST / 2, &set));
    cases.push(case(1, &item(300, &vec![0x66; LONGEST - 6])));
    cases
}

pub fn limits() -> Vec<Case> {
    // their tags and lengths are compared alone, so of the short ones a few will do
    let short = up_to_two().into_iter().step_by(41);
    let mut cases: Vec<Case> = short.map(|bytes| case(1, &bytes)).collect();
    cases.extend([0, 1].map(|room| case(room, &[])));
    for more in [
        every_order(),
        every_capture(),
        every_fault(),
        every_length(),
        longest(),
    ] {
        cases.extend(more);
    }
    cases
}
