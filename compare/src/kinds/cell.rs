//! `cell N COUNT BITS.. COUNT BITS.. I J`: an entry of a matrix, by the Rust's `SdccFlp::correlation`.
use super::matrices::{counts, counts_around, counts_at_random, size, Counts, Matrix, TOO_LARGE};
use super::write::{numbers, ROWS};
use super::{narrow, Case, Kind};
use crate::klv::st1010::SdccFlp;
use crate::random::Random;
use std::panic;

pub const KIND: Kind = Kind {
    name: "cell",
    limits,
    random,
    share: 2,
};

// What the Rust gives, or nothing where it panics.
fn looked_up(matrix: &Matrix, i: u64, j: u64) -> Option<f64> {
    let pack = SdccFlp {
        matrix_size: matrix.n,
        std_devs: numbers(&matrix.deviations),
        correlations: numbers(&matrix.correlations),
        correlation_present: vec![true; matrix.correlations.len()],
    };
    // the panic is an answer, and is not to be printed
    let hook = panic::take_hook();
    panic::set_hook(Box::new(|_| {}));
    let looked_up = panic::catch_unwind(|| pack.correlation(i as usize, j as usize));
    panic::set_hook(hook);
    looked_up.ok()
}

// The limit is added: above it the Rust is not asked.
fn case(matrix: &Matrix, i: u64, j: u64) -> Case {
    let looked_up = if matrix.n > ROWS as u64 {
        None
    } else {
        looked_up(matrix, i, j)
    };
    let answer = match looked_up {
        Some(number) => format!("number {:016X}", number.to_bits()),
        None => format!("refused 7 {i} {j}"),
    };
    Case {
        request: format!("{} {i} {j}", matrix.request("cell")),
        answer,
    }
}

// No two of its numbers are the same, so that another place shows.
fn distinct(n: u64, [rows, slots]: Counts) -> Matrix {
    let from = |first: u64, count: usize| (first..).take(count).collect();
    Matrix {
        n,
        deviations: from(0x4000 << 48, rows),
        correlations: from(0x3FE0 << 48, slots),
    }
}

// Every cell of the smallest, and those beside them.
fn smallest() -> Vec<Case> {
    let mut cases = Vec::new();
    for n in 0..=6 {
        for counts in counts_around(n) {
            let matrix = distinct(n, counts);
            for i in 0..=n + 1 {
                cases.extend((0..=n + 1).map(|j| case(&matrix, i, j)));
            }
        }
    }
    cases
}

// Places at and beyond the ends; some are small in their low word.
fn places(n: u64) -> Vec<u64> {
    let mut places = vec![0, 1, 127, (1 << 32) - 1, 1 << 32, (1 << 32) + 1, u64::MAX];
    places.extend([n.saturating_sub(1), n, n.saturating_add(1)]);
    places
}

// Sizes beside the limit and beyond it, with few numbers.
fn with_few() -> Vec<Case> {
    let mut sizes = vec![0, 1, 2, 3, 9, 255, 256];
    sizes.extend(TOO_LARGE);
    let mut cases = Vec::new();
    for n in sizes {
        for counts in [[0, 0], [2, 1], [3, 3], [300, 130]] {
            let matrix = distinct(n, counts);
            for i in places(n) {
                cases.extend(places(n).into_iter().map(|j| case(&matrix, i, j)));
            }
        }
    }
    cases
}

// The largest, whole and with the last of either list missing, at the ends of its rows and in the middle.
fn largest() -> Vec<Case> {
    let mut cases = Vec::new();
    for n in [255, 256] {
        let [rows, slots] = counts(n);
        let whole = distinct(n, [rows, slots]);
        for (i, j) in [(0, 1), (0, n - 1), (1, 2), (127, 128), (n - 3, n - 1)] {
            cases.extend([case(&whole, i, j), case(&whole, j, i)]);
        }
        let short = distinct(n, [rows - 1, slots - 1]);
        for matrix in [&whole, &short] {
            for (i, j) in [(n - 2, n - 1), (n - 1, n - 2), (n - 1, n - 1), (n - 1, n)] {
                cases.push(case(matrix, i, j));
            }
        }
    }
    // as many numbers as its size would ask for, were it not above the limit
    cases.push(case(&distinct(257, [257, 32_896]), 0, 1));
    cases
}

fn limits() -> Vec<Case> {
    let groups = [smallest, with_few, largest];
    groups.iter().flat_map(|group| group()).collect()
}

// In the matrix, mostly.
fn place(random: &mut Random, n: u64) -> u64 {
    match random.below(16) {
        0 => random.pick(&places(n)),
        1 => random.any_length(64),
        _ => random.below(n.max(1)),
    }
}

fn random(random: &mut Random) -> Case {
    let n = size(random);
    let [rows, slots] = counts_at_random(random, n);
    let mut list = |count: usize| -> Vec<u64> {
        let number = |_| match random.below(4) {
            0 => narrow::number(random),
            _ => random.bits(),
        };
        (0..count).map(number).collect()
    };
    let matrix = Matrix {
        n,
        deviations: list(rows),
        correlations: list(slots),
    };
    let i = place(random, n);
    let j = match random.below(4) {
        0 => i,
        _ => place(random, n),
    };
    case(&matrix, i, j)
}
