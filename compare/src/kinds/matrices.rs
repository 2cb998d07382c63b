//! Matrices that a request spells: the size, and the numbers that a pack holds of it.
use super::packs::slots;
use super::read::rooms_around;
use super::write::{list, ROWS};
use crate::random::Random;

// The counts are the lists' own.
#[derive(Clone)]
pub struct Matrix {
    pub n: u64,
    pub deviations: Vec<u64>,
    pub correlations: Vec<u64>,
}

impl Matrix {
    // A request about it, up to its numbers.
    pub fn request(&self, name: &str) -> String {
        let (deviations, correlations) = (list(&self.deviations), list(&self.correlations));
        format!("{name} {} {deviations} {correlations}", self.n)
    }
}

// So many deviations and correlations.
pub type Counts = [usize; 2];

// Those that a size asks for; few, where it can have none.
pub fn counts(n: u64) -> Counts {
    if n > ROWS as u64 {
        return [2, 1];
    }
    [n as usize, slots(n)]
}

// None, one short, exact and longer, of either.
pub fn counts_around(n: u64) -> Vec<Counts> {
    let [rows, slots] = counts(n);
    let mut counts = Vec::new();
    for deviations in rooms_around(rows) {
        for correlations in rooms_around(slots) {
            counts.push([deviations, correlations]);
        }
    }
    counts
}

// Sizes above the limit; some are small in their low byte or word.
pub const TOO_LARGE: [u64; 9] = [
    ROWS as u64 + 1,
    ROWS as u64 + 2,
    300,
    512,
    1 << 16,
    1 << 32,
    (1 << 32) + 2,
    1 << 33,
    u64::MAX,
];

// Mostly small, since a request spells all that the matrix holds.
pub fn size(random: &mut Random) -> u64 {
    match random.below(20_000) {
        0 => random.pick(&[255, 256]),
        1..=20 => random.pick(&[63, 64, 65]),
        21..=400 => random.pick(&TOO_LARGE),
        401..=1000 => random.pick(&[9, 17]),
        1001..=2500 => random.between(7, 24),
        _ => random.below(7),
    }
}

// Those that the size asks for, mostly; often without deviations.
pub fn counts_at_random(random: &mut Random, n: u64) -> Counts {
    let exact = counts(n);
    match random.below(16) {
        0..=2 => random.pick(&counts_around(n)),
        3..=6 => [0, exact[1]],
        _ => exact,
    }
}
