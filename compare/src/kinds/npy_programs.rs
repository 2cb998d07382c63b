//! What the programs `to_npy` and `to_pack` write: to standard output the file of a pack that the Rust reads, and the
//! pack that the Rust writes of a file; to standard error why there is none.
use super::lent::LENGTHS;
use super::matrices::Matrix;
use super::npy::{exported, header, imported};
use super::npy_files::{broken, matrix, size};
use super::packs::{slots, Control};
use super::packs_at_limits::{documented, every_cut};
use super::print::TOO_BIG;
use super::set_printed::BYTES;
use super::write::{correlation, correlations, deviations, Sent};
use super::{packs, packs_at_random, read, sets, write_at_limits};
use crate::klv::st1010::decode_sdcc_flp;
use crate::program::{Input, Written};
use crate::random::Random;

fn written(input: &Input, made: fn(&Input) -> Result<Vec<u8>, String>) -> Written {
    if input.bytes.len() > BYTES {
        return Written::to_error(TOO_BIG);
    }
    match made(input) {
        Ok(bytes) => Written::to_output(bytes),
        Err(refused) => Written::to_error(refused + "\n"),
    }
}

pub fn to_npy(input: &Input) -> Written {
    written(input, |Input { bytes, .. }| match decode_sdcc_flp(bytes) {
        Ok(read) => exported(&read::matrix(bytes, &read)),
        Err(error) => Err(read::refused(error, bytes)),
    })
}

// The only argument, where there is one, is the Clen.
pub fn to_pack(input: &Input) -> Written {
    written(input, |Input { words, bytes, .. }| {
        let matrix = imported(bytes)?;
        let sent = Sent {
            clen: words.first().map(|clen| clen.parse().unwrap()),
            deviations: matrix.deviations,
            correlations: matrix.correlations,
        };
        sent.written()
    })
}

// As many bytes as are read, and one more.
fn longest(bytes: &[u8]) -> [Vec<u8>; 2] {
    [BYTES, BYTES + 1].map(|length| {
        let mut longer = bytes.to_vec();
        longer.resize(length, 0);
        longer
    })
}

// How many packs of any layout at random, how many of the Rust's writer, and how many files.
const PACKS: usize = 600;
const SENT: usize = 200;
const FILES: usize = 1000;

// Full and sparse, with mapped codes, of which many are no values, and IEEE; without deviations, and without
// correlations.
fn of_every_layout(random: &mut Random) -> Vec<Vec<u8>> {
    let layouts = [
        (true, 2, 4),
        (true, 8, 8),
        (false, 8, 8),
        (true, 0, 4),
        (true, 1, 0),
    ];
    let mut packs = Vec::new();
    for n in [0, 1, 2, 9, 10, 99, 100, 255, 256] {
        for ((cf, clen, slen), cs) in layouts.into_iter().flat_map(|of| [(of, false), (of, true)]) {
            packs.push(packs::pack(random, n, 0, Control::of(cs, cf, clen, slen)).bytes);
        }
    }
    packs
}

pub fn packs(random: &mut Random) -> Vec<Input> {
    let listed = [documented(), write_at_limits::written()].concat();
    let mut at_once = listed.clone();
    at_once.extend(of_every_layout(random));
    at_once.extend(every_cut().into_iter().step_by(9));
    at_once.extend((0..PACKS).map(|_| packs_at_random::made(random).0));
    for _ in 0..SENT {
        let rows = random.below(13) as usize;
        at_once.push(sets::pack(random, rows));
    }
    at_once.extend(longest(&listed[0]));
    let at_once = at_once.into_iter().map(Input::at_once);
    at_once
        .chain(listed.into_iter().map(Input::by_byte))
        .collect()
}

// One that a pack can hold, or now and then one with a correlation that none can; or any.
fn sendable(random: &mut Random, n: u64) -> Matrix {
    if random.below(16) == 0 {
        return matrix(random, n);
    }
    let slots = slots(n);
    let zeros = random.below(slots as u64 + 1) as usize;
    let mut correlations = correlations(random, slots, zeros);
    if random.below(8) == 0 && slots > 0 {
        correlations[random.below(slots as u64) as usize] = correlation(random, false);
    }
    Matrix {
        n,
        deviations: deviations(random, n as usize),
        correlations,
    }
}

fn clen(random: &mut Random) -> Option<usize> {
    match random.below(16) {
        0..=3 => None,
        4 => Some(random.pick(&LENGTHS)),
        _ => Some(random.between(1, 8) as usize),
    }
}

fn with_clen(clen: Option<usize>, file: Vec<u8>) -> Input {
    Input {
        words: clen.iter().map(|clen| clen.to_string()).collect(),
        ..Input::at_once(file)
    }
}

// Every Clen, and none, of small files and of the largest.
fn of_every_clen(random: &mut Random) -> Vec<Input> {
    let clens = LENGTHS.map(Some).into_iter().chain([None]);
    let mut inputs = Vec::new();
    for n in [0, 1, 2, 9, 10, 99, 256] {
        for clen in clens.clone() {
            let file = exported(&sendable(random, n)).unwrap();
            inputs.push(with_clen(clen, file));
        }
    }
    inputs
}

pub fn files(random: &mut Random) -> Vec<Input> {
    let mut inputs = of_every_clen(random);
    for _ in 0..FILES {
        let n = size(random);
        let file = exported(&sendable(random, n)).unwrap();
        inputs.push(with_clen(clen(random), broken(random, file, n)));
    }
    let plain = [Vec::new(), header(0), header(257)];
    inputs.extend(plain.clone().map(Input::at_once));
    inputs.extend(plain.map(Input::by_byte));
    inputs.extend(longest(&header(256)).map(Input::at_once));
    inputs
}
