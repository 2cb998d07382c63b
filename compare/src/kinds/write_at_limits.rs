//! Packs to write that are the same at every run: document 01's own, and those on both sides of each limit.
use super::lent::LENGTHS;
use super::map::{edges, ONE, SIGN};
use super::packs::{slots, LONGEST};
use super::read::rooms_around;
use super::write::{correlations, deviations, inside, Sent};
use super::Case;
use crate::random::Random;

pub const TWO: u64 = 0x4000 << 48;
pub const HALF: u64 = 0x3FE << 52;

// As many correlations as there are slots, so many of them 0.
fn with_zeros(random: &mut Random, rows: usize, clen: Option<usize>, zeros: usize) -> Sent {
    Sent {
        clen,
        deviations: deviations(random, rows),
        correlations: correlations(random, slots(rows as u64), zeros),
    }
}

// Of these correlations, whose count is that of some rows' slots.
fn of(clen: usize, rows: usize, correlations: &[u64]) -> Sent {
    Sent {
        clen: Some(clen),
        deviations: vec![ONE; rows],
        correlations: correlations.to_vec(),
    }
}

fn exact(sent: &Sent) -> Case {
    sent.case(sent.needed())
}

// None, one short, exact and larger.
fn in_rooms(sent: &Sent) -> Vec<Case> {
    let rooms = rooms_around(sent.needed()).into_iter();
    rooms.map(|room| sent.case(room)).collect()
}

fn listed() -> Vec<Sent> {
    let mut random = Random::new(3);
    let mut p12 = of(1, 2, &[0]);
    p12.deviations = vec![ONE, TWO];
    let mut rounded = of(1, 1, &[]);
    rounded.deviations = vec![16_777_217f64.to_bits()];
    let mut packs = vec![p12, rounded, of(1, 2, &[ONE - 1])];
    for (rows, zeros) in [(9, 4), (9, 5), (17, 17), (17, 18)] {
        packs.push(with_zeros(&mut random, rows, Some(1), zeros));
    }
    packs
}

fn documented() -> Vec<Case> {
    listed().iter().flat_map(in_rooms).collect()
}

// Those that document 01 has written.
pub fn written() -> Vec<Vec<u8>> {
    listed()
        .iter()
        .map(|sent| sent.written().unwrap())
        .collect()
}

// Beside the count of zeros from which on a pack is sparse, at every Clen.
fn beside_sparse() -> Vec<Case> {
    let mut random = Random::new(4);
    let mut cases = Vec::new();
    for rows in [2, 3, 4, 5, 9, 17, 24] {
        for clen in 1..=8 {
            let slots = slots(rows as u64);
            let most = slots / (8 * clen);
            for zeros in [0, most.saturating_sub(1), most, most + 1, most + 2, slots] {
                if zeros <= slots {
                    let sent = with_zeros(&mut random, rows, Some(clen), zeros);
                    cases.extend(in_rooms(&sent));
                }
            }
        }
    }
    cases
}

// Both zeros and a number, in every order.
fn zeros() -> Vec<Case> {
    const VALUES: [u64; 3] = [0, SIGN, HALF];
    let mut cases = Vec::new();
    for choice in 0..27 {
        let values = [choice / 9, choice / 3 % 3, choice % 3].map(|value| VALUES[value]);
        cases.extend((1..=8).map(|clen| exact(&of(clen, 3, &values))));
    }
    cases
}

// Every Clen, with packs of few rows and with none.
fn every_clen() -> Vec<Case> {
    let mut random = Random::new(5);
    let mut clens = LENGTHS.map(Some).to_vec();
    clens.push(None);
    let mut cases = Vec::new();
    for rows in [0, 1, 2, 3, 9] {
        for &clen in &clens {
            for zeros in [0, slots(rows as u64)] {
                let sent = with_zeros(&mut random, rows, clen, zeros);
                cases.extend(in_rooms(&sent));
            }
        }
    }
    cases
}

// Counts of correlations beside that of the slots.
fn every_count() -> Vec<Case> {
    let mut random = Random::new(6);
    let mut cases = Vec::new();
    for rows in [0, 1, 2, 3, 4, 5, 9, 17] {
        let slots = slots(rows as u64);
        for count in [0, slots.saturating_sub(1), slots, slots + 1, slots + 8] {
            for zeros in [0, count] {
                let mut sent = with_zeros(&mut random, rows, None, 0);
                sent.correlations = correlations(&mut random, count, zeros);
                cases.extend(in_rooms(&sent));
            }
        }
    }
    cases
}

// Each number at an edge, first, in the middle and last, among numbers and among zeros.
fn every_edge() -> Vec<Case> {
    let mut cases = Vec::new();
    for bits in edges() {
        for place in 0..3 {
            for clen in 1..=8 {
                for other in [HALF, 0, SIGN | ONE] {
                    let mut values = [other; 3];
                    values[place] = bits;
                    cases.push(exact(&of(clen, 3, &values)));
                }
            }
            let mut sent = of(2, 3, &[HALF, 0, 0]);
            sent.deviations[place] = bits;
            cases.push(exact(&sent));
        }
        let mut alone = of(2, 1, &[]);
        alone.deviations[0] = bits;
        cases.push(exact(&alone));
    }
    cases
}

// Two correlations that are refused, of which the first counts.
fn two_refused() -> Vec<Case> {
    let bad: Vec<u64> = edges().into_iter().filter(|&bits| !inside(bits)).collect();
    let mut cases = Vec::new();
    for &first in &bad {
        for &second in &bad {
            for (place, next) in [(0, 5), (2, 3), (4, 5)] {
                let mut values = [0; 6];
                values[place] = first;
                values[next] = second;
                cases.push(exact(&of(1, 4, &values)));
            }
        }
    }
    cases
}

// Every choice of what is refused: the first in the writer's order counts.
fn every_order() -> Vec<Case> {
    let mut cases = Vec::new();
    for choice in 0..32 {
        let wrong = |place: usize| choice >> place & 1 == 1;
        let rows = if wrong(0) { 257 } else { 3 };
        let clen = if wrong(1) { 9 } else { 8 };
        let count = if wrong(2) { 4 } else { 3 };
        let mut values = vec![HALF; count];
        if wrong(3) {
            values[1] = TWO;
        }
        let room = if wrong(4) { 0 } else { 60 };
        cases.push(of(clen, rows, &values).case(room));
    }
    cases
}

// As many rows as a pack can have, and one fewer.
fn largest() -> Vec<Case> {
    let mut random = Random::new(7);
    let mut cases = Vec::new();
    for rows in [255, 256] {
        for clen in [Some(1), None, Some(8)] {
            let slots = slots(rows as u64);
            let most = slots / (8 * clen.unwrap_or(2));
            for zeros in [0, most, most + 1, slots] {
                let sent = with_zeros(&mut random, rows, clen, zeros);
                cases.push(exact(&sent));
            }
        }
    }
    let mut sent = with_zeros(&mut random, 256, Some(8), 0);
    cases.push(sent.case(sent.needed() - 1));
    cases.push(sent.case(LONGEST));
    // the last is refused; one too few, one too many
    *sent.correlations.last_mut().unwrap() = ONE + 1;
    cases.push(sent.case(LONGEST));
    sent.correlations.pop();
    cases.push(sent.case(LONGEST));
    sent.correlations.extend([HALF, HALF]);
    cases.push(sent.case(LONGEST));
    cases
}

// More rows, with no correlation and with as many as a request has to be taken with.
fn too_many_rows() -> Vec<Case> {
    let mut cases = Vec::new();
    for (rows, count) in [
        (257, 0),
        (257, 1),
        (257, 32_640),
        (257, slots(257)),
        (300, 0),
        (300, 33_000),
    ] {
        for clen in [Some(2), None] {
            let mut sent = of(2, rows, &vec![HALF; count]);
            sent.clen = clen;
            cases.push(sent.case(2000));
        }
    }
    cases
}

pub fn limits() -> Vec<Case> {
    let groups = [
        documented,
        beside_sparse,
        zeros,
        every_clen,
        every_count,
        every_edge,
        two_refused,
        every_order,
        largest,
        too_many_rows,
    ];
    groups.iter().flat_map(|group| group()).collect()
}
