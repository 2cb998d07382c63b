//! Ranges, and codes in them, at the limits and at random.
use super::in_range::{is_good, top};
use super::Range;
use crate::random::Random;

// The powers that are taken, and those beside them.
const POWERS: [i64; 2] = [-62, 62];

// Units in the last place from an exact power. Where a span is 1 above it, or up to 2, 5 or 11 as the power grows, the
// Rust's logarithm chooses another; near 2^0 it never does.
const BESIDE: [i64; 9] = [-1, 0, 1, 2, 3, 5, 6, 11, 12];

// Ranges as an interface sheet has them; one for which the Rust's logarithm chooses another power; one with an offset
// of exactly 1.
pub const PLAIN: [Range; 9] = [
    [-1.0, 1.0],
    [0.0, 1.0],
    [0.0, 50.0],
    [0.0, 100.0],
    [-0.5, 9.5],
    [1.0, 5.0],
    [-900.0, 19_000.0],
    [16.2, 32.2],
    [-1e-300, 1.0],
];

// A span whose power is too high, and its inverse's is too low.
const HIGH: f64 = (1u64 << 61) as f64;

// Of each kind that is refused: an infinite end, no number, ends that are equal, an infinite span, a power too high or
// too low.
pub const BAD: [Range; 7] = [
    [0.0, f64::INFINITY],
    [f64::NEG_INFINITY, 0.0],
    [f64::NAN, 1.0],
    [1.0, 1.0],
    [-f64::MAX, f64::MAX],
    [0.0, HIGH],
    [0.0, 1.0 / HIGH],
];

// Zero, the ends of the subnormals, numbers of the least and the greatest powers, and what is no number: their bits.
const ENDS: [u64; 14] = [
    0,
    1,
    (1 << 52) - 1,
    1 << 52,
    0x3C2 << 52,
    0x3C3 << 52,
    0x3FF << 52,
    (0x3FF << 52) + 1,
    0x43B << 52,
    0x43C << 52,
    (0x7FF << 52) - 1,
    0x7FF << 52,
    (0x7FF << 52) + 1,
    0x7FF8 << 48,
];

fn signed(sign: u64, bits: u64) -> f64 {
    f64::from_bits(sign << 63 | bits)
}

// The number so many units in the last place from a power of two.
fn near(power: i64, units: i64) -> f64 {
    f64::from_bits((((1023 + power) << 52) + units) as u64)
}

// From 0 up, to 0, around it, and on either side of it.
fn placed(span: f64) -> [Range; 5] {
    let quarter = span / 4.0;
    [
        [0.0, span],
        [-span, 0.0],
        [-quarter, span - quarter],
        [span, 2.0 * span],
        [-2.0 * span, -span],
    ]
}

// Spans at each power and beside it.
pub fn beside_powers() -> Vec<Range> {
    let [least, most] = POWERS;
    let spans = (least..=most).flat_map(|power| BESIDE.map(|units| near(power, units)));
    spans.flat_map(placed).collect()
}

// Every pair of ends.
pub fn of_ends() -> Vec<Range> {
    let ends = [0, 1].map(|sign| ENDS.map(|bits| signed(sign, bits)));
    let ends = ends.concat();
    let pairs = ends
        .iter()
        .flat_map(|&min| ends.iter().map(move |&max| [min, max]));
    pairs.collect()
}

fn span(random: &mut Random) -> f64 {
    let [least, most] = POWERS;
    let power = random.between(0, (most - least) as u64) as i64 + least;
    match random.below(8) {
        0 => near(power, 0),
        1 | 2 => near(power, random.any_length(5) as i64),
        3 => near(power, -(random.any_length(5) as i64)),
        // of few digits
        4 => near(power, (random.below(1 << 12) << 40) as i64),
        _ => near(power, random.below(1 << 52) as i64),
    }
}

// A number up to that size, of any size down to the least.
fn down_from(random: &mut Random, most: f64) -> f64 {
    f64::from_bits(random.below(most.to_bits()))
}

pub fn at_random(random: &mut Random) -> Range {
    let span = span(random);
    let sign = random.pick(&[-1.0, 1.0]);
    match random.below(32) {
        0 => random.pick(&BAD),
        1 => [0, 0].map(|_| signed(random.below(2), random.pick(&ENDS))),
        2 => [0, 0].map(|_| f64::from_bits(random.bits())),
        // the wrong way round
        3 => [span, sign * down_from(random, span)],
        4..=6 => random.pick(&PLAIN),
        7..=14 => random.pick(&placed(span)),
        // around 0, anywhere
        15..=21 => {
            let min = -span * (random.below(1 << 53) as f64 / near(53, 0));
            [min, min + span]
        }
        // one end nearer to 0 than the other
        22..=24 => [sign * down_from(random, span), span],
        25..=27 => [-span, sign * down_from(random, span)],
        // both far from it
        _ => {
            let min = sign * span * near(random.below(60) as i64, random.below(1 << 52) as i64);
            [min, min + span]
        }
    }
}

// The low bytes of a number.
pub fn low(length: usize, y: u64) -> Vec<u8> {
    y.to_be_bytes()[8 - length..].to_vec()
}

// The top code; where the range is refused, that of one whose span is an exact power.
fn top_or_half(range: Range, length: usize) -> u64 {
    if is_good(range) {
        top(range, length)
    } else {
        1 << (8 * length - 1)
    }
}

// The ends of the values, the codes beside them, and one in the middle.
pub fn edges(range: Range, length: usize) -> [Vec<u8>; 6] {
    let top = top_or_half(range, length);
    [0, 1, top / 2 + 1, top.saturating_sub(1), top, top + 1].map(|y| low(length, y))
}

// A code of a value.
pub fn value(random: &mut Random, range: Range, length: usize) -> Vec<u8> {
    let top = top_or_half(range, length);
    low(length, random.bits() % (top + 1))
}

pub fn any_code(random: &mut Random, range: Range, length: usize) -> Vec<u8> {
    let bits = 8 * length as u64;
    let top = top_or_half(range, length);
    let y = match random.below(8) {
        0 => random.any_length(bits),
        1 => top + random.below(3),
        2 => top.saturating_sub(random.any_length(bits - 1)),
        // of some family
        3 => random.bits() | 3 << (bits - 2),
        4 => (random.bits() | 24) << (bits - 5) | random.any_length(bits - 5),
        5 => random.bits(),
        _ => return value(random, range, length),
    };
    low(length, y)
}
