//! .npy files at random, whole and broken; the numbers and the texts of which they are made.
use super::map::{INFINITY, SIGN};
use super::matrices::Matrix;
use super::npy::{exported, header, with_text, BODY, NUMBER};
use super::packs::slots;
use crate::random::Random;

// The smallest, those where the header has a digit more, and the largest.
pub const SIZES: [u64; 17] = [
    0, 1, 2, 3, 4, 5, 8, 9, 10, 11, 12, 98, 99, 100, 101, 255, 256,
];

// Mostly small, since a request spells all that the matrix holds.
pub fn size(random: &mut Random) -> u64 {
    match random.below(20_000) {
        0 => random.pick(&[255, 256]),
        1..=20 => random.pick(&[63, 64, 65, 99, 100, 101]),
        _ => random.below(13),
    }
}

// Any bits; often a zero, an infinity, or a NaN with a payload of any length.
fn number(random: &mut Random) -> u64 {
    let sign = random.below(2) << 63;
    match random.below(6) {
        0 => sign,
        1 => sign | INFINITY | random.any_length(52),
        _ => random.bits(),
    }
}

pub fn numbers(random: &mut Random, count: usize) -> Vec<u64> {
    (0..count).map(|_| number(random)).collect()
}

pub fn matrix(random: &mut Random, n: u64) -> Matrix {
    Matrix {
        n,
        deviations: numbers(random, n as usize),
        correlations: numbers(random, slots(n)),
    }
}

// The file of a matrix with any numbers.
pub fn file(random: &mut Random, n: u64) -> Vec<u8> {
    exported(&matrix(random, n)).unwrap()
}

// The file with this number in row i and column j, where it is long enough.
pub fn put(file: &mut [u8], n: u64, [i, j]: [u64; 2], bits: u64) {
    let place = BODY + 8 * (n * i + j) as usize;
    if let Some(entry) = file.get_mut(place..place + 8) {
        entry.copy_from_slice(&bits.to_le_bytes());
    }
}

// Sizes that a header can say and no file has.
pub const TOO_LARGE: [u64; 7] = [257, 300, 1_024, 1_025, 65_536, 100_000_000, 999_999_999];

// Sizes as they are spelt, rightly and wrongly; some are 2 in their low word.
pub const SPELT: [&str; 32] = [
    "",
    "0",
    "00",
    "01",
    "02",
    "002",
    "0000000002",
    "1",
    "2",
    "9",
    "10",
    "11",
    "99",
    "100",
    "256",
    "257",
    "1025",
    "99999999",
    "999999999",
    "1000000000",
    "4294967298",
    "18446744073709551618",
    "-2",
    "+2",
    " 2",
    "2 ",
    "2L",
    "2.0",
    "2/",
    "2:",
    "0x2",
    "None",
];

pub fn with_shape(shape: &str) -> Vec<u8> {
    let text = format!("{{'descr': '<f8', 'fortran_order': False, 'shape': {shape}, }}");
    with_text(&text)
}

// What NumPy writes for other arrays, and texts that say the same in another way.
pub const TEXTS: [&str; 24] = [
    "{'descr': '>f8', 'fortran_order': False, 'shape': (2, 2), }",
    "{'descr': '<f4', 'fortran_order': False, 'shape': (2, 2), }",
    "{'descr': '<i8', 'fortran_order': False, 'shape': (2, 2), }",
    "{'descr': '|u1', 'fortran_order': False, 'shape': (2, 2), }",
    "{'descr': '<f8', 'fortran_order': True, 'shape': (2, 2), }",
    "{'descr': '<f8', 'fortran_order': False, 'shape': (2, 3), }",
    "{'descr': '<f8', 'fortran_order': False, 'shape': (2, 2, 2), }",
    "{'descr': '<f8', 'fortran_order': False, 'shape': (2,), }",
    "{'descr': '<f8', 'fortran_order': False, 'shape': (), }",
    "{'descr': '<f8', 'fortran_order': False, 'shape': (2,2), }",
    "{'descr': '<f8', 'fortran_order': False, 'shape': (2,  2), }",
    "{'descr': '<f8', 'fortran_order': False, 'shape': (2, 2,), }",
    "{'descr': '<f8', 'fortran_order': False, 'shape': [2, 2], }",
    "{'descr': '<f8', 'fortran_order': False, 'shape': (2, 2)}",
    "{'descr': '<f8', 'fortran_order': False, 'shape': (2, 2) }",
    "{'descr': '<f8', 'fortran_order': False, 'shape': (2, 2),}",
    "{'descr': '<f8', 'fortran_order': False, 'shape': (2, 2), } }",
    "{'descr': '<f8', 'fortran_order': False, 'shape': (2, 2), }\n",
    "{'descr': '<f8','fortran_order': False, 'shape': (2, 2), }",
    "{'descr':  '<f8', 'fortran_order': False, 'shape': (2, 2), }",
    "{\"descr\": \"<f8\", \"fortran_order\": False, \"shape\": (2, 2), }",
    "{'fortran_order': False, 'descr': '<f8', 'shape': (2, 2), }",
    " {'descr': '<f8', 'fortran_order': False, 'shape': (2, 2), }",
    "",
];

fn other_header(random: &mut Random) -> Vec<u8> {
    match random.below(4) {
        0 => with_text(random.pick(&TEXTS)),
        1 => header(random.pick(&TOO_LARGE)),
        _ => {
            let (first, second) = (random.pick(&SPELT), random.pick(&SPELT));
            with_shape(&format!("({first}, {second})"))
        }
    }
}

// Two that are not the same bits: zeros, NaNs, or any with a bit or the order of their bytes changed.
fn unlike(random: &mut Random) -> [u64; 2] {
    let nan = INFINITY | random.any_length(51) << 1 | 1;
    let bits = random.bits();
    match random.below(4) {
        0 => [0, SIGN],
        1 => [nan, nan ^ random.pick(&[SIGN, 1 << 51, 1 << 25, 2])],
        2 => [bits, bits.swap_bytes()],
        _ => [bits, bits ^ 1 << random.below(64)],
    }
}

fn damage(random: &mut Random, file: &mut Vec<u8>, n: u64) {
    let (length, head) = (file.len() as u64, file.len().min(BODY) as u64);
    let number = (NUMBER as u64 + random.below(8)).min(length.saturating_sub(1));
    match random.below(8) {
        // a bit of the header, or a byte of its numbers
        0 if head > 0 => file[random.below(head) as usize] ^= 1 << random.below(8),
        1 if length > 0 => file[number as usize] = random.pick(b"0129 ,)/:\n"),
        2 => drop(file.splice(..head as usize, other_header(random))),
        3 => file.truncate(random.below(length + 1) as usize),
        4 => file.truncate(length.saturating_sub(random.pick(&[1, 8])) as usize),
        5 => file.extend(vec![random.byte(); random.pick(&[1, 8])]),
        // a pair of rows, where there is one
        6 | 7 if n > 1 => {
            let i = random.below(n);
            let j = (i + 1 + random.below(n - 1)) % n;
            let [one, other] = unlike(random);
            put(file, n, [i, j], one);
            put(file, n, [j, i], other);
        }
        _ => {}
    }
}

// A file, as often as not broken, and the size with which it was made.
pub fn made(random: &mut Random) -> (Vec<u8>, u64) {
    let n = size(random);
    let file = file(random, n);
    (broken(random, file, n), n)
}

pub fn broken(random: &mut Random, mut file: Vec<u8>, n: u64) -> Vec<u8> {
    for _ in 0..random.pick(&[0, 0, 0, 1, 1, 2]) {
        damage(random, &mut file, n);
    }
    file
}
