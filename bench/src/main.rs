//! The Rust's side of what bench/run measures: the operation, the matrix and the figure of the program `pace`.
mod codes;
mod matrix;
mod npy;

use std::env;
use tst_core::klv::st1010::{decode_sdcc_flp, encode_sdcc_flp_mode2, SdccFlp};
use tst_core::peek_matrix_size;

#[derive(Clone, Copy)]
enum Op {
    Read,
    Write,
    Peek,
    Cell,
    Value,
    Special,
    ToNpy,
    FromNpy,
    Each,
    Idle,
}

#[derive(Clone, Copy, PartialEq)]
enum Kind {
    Full,
    Sparse,
    Specials,
}

struct Job {
    op: Op,
    rows: usize,
    clen: usize,
    kind: Kind,
    reps: usize,
}

// What the operations change. Where the operation is one of .npy files, the pack is such a file.
struct State {
    matrix: SdccFlp,
    pack: Vec<u8>,
}

fn asked() -> Job {
    let words: Vec<String> = env::args().skip(1).collect();
    assert!(words.len() == 5, "usage: pace OP N CLEN KIND REPS");
    let number = |i: usize| words[i].parse().expect("N, CLEN and REPS are numbers");
    Job {
        op: match words[0].as_str() {
            "read" => Op::Read,
            "write" => Op::Write,
            "peek" => Op::Peek,
            "cell" => Op::Cell,
            "value" => Op::Value,
            "special" => Op::Special,
            "to-npy" => Op::ToNpy,
            "from-npy" => Op::FromNpy,
            "each" => Op::Each,
            "idle" => Op::Idle,
            _ => panic!(
                "OP is read, write, peek, cell, value, special, to-npy, from-npy, each or idle"
            ),
        },
        rows: number(1),
        clen: number(2),
        kind: match words[3].as_str() {
            "full" => Kind::Full,
            "sparse" => Kind::Sparse,
            "specials" => Kind::Specials,
            _ => panic!("KIND is full, sparse or specials"),
        },
        reps: number(4),
    }
}

fn written(matrix: &SdccFlp, clen: usize) -> Vec<u8> {
    encode_sdcc_flp_mode2(&matrix.std_devs, &matrix.correlations, clen).expect("it is written")
}

fn add(figure: u64, word: u64) -> u64 {
    (figure % (1 << 56) * 131) ^ word
}

// Another input each time, as `pace` has it.
fn vary(state: &mut State) {
    for numbers in [&mut state.matrix.std_devs, &mut state.matrix.correlations] {
        if let Some(first) = numbers.first_mut() {
            *first = -*first;
        }
    }
    if let Some(last) = state.pack.last_mut() {
        *last ^= 1;
    }
}

// The figure with the cells of row i.
fn of_row(from: u64, matrix: &SdccFlp, i: usize) -> u64 {
    let mut figure = from;
    for j in 0..matrix.std_devs.len() {
        figure = add(figure, matrix.correlation(i, j).to_bits());
    }
    figure
}

fn of_matrix(matrix: &SdccFlp) -> u64 {
    let mut figure = 0;
    for i in 0..matrix.std_devs.len() {
        figure = of_row(figure, matrix, i);
    }
    figure
}

fn read(state: &mut State) -> u64 {
    state.matrix = decode_sdcc_flp(&state.pack).expect("it is read");
    state.matrix.correlations.len() as u64
}

fn write(state: &mut State, clen: usize) -> u64 {
    state.pack = written(&state.matrix, clen);
    state.pack.len() as u64
}

fn peek(state: &State) -> u64 {
    peek_matrix_size(&state.pack).expect("it has a size") as u64
}

fn to_npy(matrix: &SdccFlp, out: &mut [u8]) -> u64 {
    let (deviations, correlations) = (&matrix.std_devs, &matrix.correlations);
    npy::export(deviations.len(), deviations, correlations, out).expect("it is made") as u64
}

fn from_npy(file: &[u8], matrix: &mut SdccFlp) -> u64 {
    let (deviations, correlations) = (&mut matrix.std_devs, &mut matrix.correlations);
    let present = &mut matrix.correlation_present;
    npy::import(file, deviations, correlations, present).expect("it is read") as u64
}

fn each(state: &mut State, clen: usize) -> u64 {
    let slots = read(state);
    let values = codes::of_values(&state.matrix.correlations, clen, &mut state.pack);
    let specials = codes::of_specials(state.matrix.correlations.len(), clen, &mut state.pack);
    let length = write(state, clen);
    let rows = peek(state);
    let coded = add(add(slots, values), specials);
    add(add(add(coded, length), rows), of_matrix(&state.matrix))
}

fn once(job: &Job, state: &mut State) -> u64 {
    match job.op {
        Op::Read => read(state),
        Op::Write => write(state, job.clen),
        Op::Peek => peek(state),
        Op::Cell => of_matrix(&state.matrix),
        Op::Value => codes::of_values(&state.matrix.correlations, job.clen, &mut state.pack),
        Op::Special => {
            codes::of_specials(state.matrix.correlations.len(), job.clen, &mut state.pack)
        }
        Op::ToNpy => to_npy(&state.matrix, &mut state.pack),
        Op::FromNpy => from_npy(&state.pack, &mut state.matrix),
        Op::Each => each(state, job.clen),
        Op::Idle => 0,
    }
}

fn repeat(job: &Job, state: &mut State) -> u64 {
    let mut sum = 0;
    for left in (0..job.reps).rev() {
        vary(state);
        sum = add(sum, once(job, state));
        let correlations = &state.matrix.correlations;
        sum = add(sum, correlations[left % correlations.len()].to_bits());
        sum = add(sum, state.pack[left % state.pack.len()].into());
    }
    sum
}

fn pack_of(job: &Job, matrix: &SdccFlp) -> Vec<u8> {
    let mut pack = written(matrix, job.clen);
    // element 2 stands behind one byte of N, or two
    let control = pack[if job.rows < 128 { 1 } else { 2 }];
    let sparse = job.kind == Kind::Sparse;
    assert_eq!(control & 0x20 != 0, sparse, "the pack is of the other kind");
    if job.kind == Kind::Specials {
        codes::over_last(matrix.correlations.len(), job.clen, &mut pack);
    }
    pack
}

fn file_of(matrix: &SdccFlp) -> Vec<u8> {
    let mut file = vec![0; npy::length(matrix.std_devs.len())];
    to_npy(matrix, &mut file);
    file
}

// The matrix, and its pack or file.
fn made(job: &Job) -> State {
    let matrix = matrix::made(job.rows, job.kind == Kind::Sparse);
    let pack = match job.op {
        Op::ToNpy | Op::FromNpy => file_of(&matrix),
        _ => pack_of(job, &matrix),
    };
    State { matrix, pack }
}

fn main() {
    let job = asked();
    let mut state = made(&job);
    let repeated = repeat(&job, &mut state);
    let State { matrix, pack } = state;
    let numbers = matrix.std_devs.iter().chain(&matrix.correlations);
    let of_numbers = numbers.fold(repeated, |figure, x| add(figure, x.to_bits()));
    let present = matrix.correlation_present.iter().map(|&said| said.into());
    let bytes = present.chain(pack.iter().map(|&byte| byte.into()));
    let figure = bytes.fold(of_numbers, add);
    println!("pack {} figure {figure}", pack.len());
}
