//! Asks the program `replay` and the Rust the same requests, and compares every answer.
extern crate alloc;

mod kinds;
mod program;
mod random;
mod runs;
mod stand_in;

// The Rust's own modules, which find the stand-in under the names of their crate.
pub(crate) use stand_in::{binding_record, error, float_ext};
#[allow(dead_code)]
mod klv {
    include!(concat!(env!("OUT_DIR"), "/klv.rs"));
}

use kinds::{has_other_power, Case, Kind, KINDS};
use program::{written, Input};
use random::Random;
use std::env;
use std::fs;
use std::io;
use std::iter::repeat_n;
use std::path::Path;
use std::process::ExitCode;

// How many differing answers are printed, and how much of a line.
const SHOWN: usize = 10;
const WIDTH: usize = 300;

// How many requests at the limits a sample has of each kind, and how long they may be.
const FEW: usize = 140;
const SHORT: usize = 600;

fn at_the_limits() -> Vec<Case> {
    KINDS.iter().flat_map(|kind| (kind.limits)()).collect()
}

// So many requests, of each kind its share in turn.
fn at_random(seed: u64, count: usize) -> Vec<Case> {
    let mut random = Random::new(seed);
    let turn = KINDS.iter().flat_map(|kind| repeat_n(kind, kind.share));
    let kinds = turn.cycle().take(count);
    kinds.map(|kind| (kind.random)(&mut random)).collect()
}

// Some of the short ones of each kind, evenly spaced.
fn few_at_the_limits() -> Vec<Case> {
    let few = |kind: &Kind| {
        let mut cases = (kind.limits)();
        cases.retain(|case| case.request.len() <= SHORT);
        let step = cases.len().div_ceil(FEW).max(1);
        cases.into_iter().step_by(step)
    };
    KINDS.iter().flat_map(few).collect()
}

fn lines_of(cases: &[Case], line: fn(&Case) -> &str) -> String {
    cases.iter().flat_map(|case| [line(case), "\n"]).collect()
}

// What the program writes when it is given the requests.
fn asked(program: &[String], cases: &[Case]) -> io::Result<String> {
    let requests = lines_of(cases, |case| &case.request);
    let written = written(program, &Input::at_once(requests.into_bytes()))?;
    if !written.err.is_empty() {
        return Err(io::Error::other(cut(&written
            .err
            .escape_ascii()
            .to_string())));
    }
    String::from_utf8(written.out).map_err(io::Error::other)
}

fn cut(line: &str) -> String {
    if line.len() <= WIDTH {
        line.to_string()
    } else {
        format!("{line:.WIDTH$}.. of {} bytes", line.len())
    }
}

// How many answers differ; the first of them are printed.
fn differing(cases: &[Case], answers: &str) -> usize {
    let mut lines = answers.split_terminator('\n');
    let mut count = 0;
    for case in cases {
        let line = lines.next().unwrap_or("(no answer)");
        if line == case.answer {
            continue;
        }
        count += 1;
        if count <= SHOWN {
            println!("request {}", cut(&case.request));
            println!("  Rust  {}", cut(&case.answer));
            println!("  port  {}", cut(line));
        }
    }
    let more = lines.count();
    if more > 0 {
        println!("{more} lines more than requests");
    }
    count + more
}

// Where the Rust's logarithm chooses another power, the answer is not the Rust's own, and is counted apart.
const APART: &str = "log2";

// The name that a request is counted under.
fn counted(case: &Case) -> &str {
    if has_other_power(&case.request) {
        return APART;
    }
    case.request.split(' ').next().unwrap()
}

fn compare(seed: u64, count: usize, program: &[String]) -> io::Result<ExitCode> {
    let mut cases = at_the_limits();
    cases.extend(at_random(seed, count));
    let answers = asked(program, &cases)?;
    let differ = differing(&cases, &answers);
    for name in KINDS.map(|kind| kind.name).into_iter().chain([APART]) {
        let compared = cases.iter().filter(|case| counted(case) == name).count();
        println!("{name}: {compared} compared");
    }
    println!("{} compared, {differ} differ", cases.len());
    Ok(ExitCode::from(u8::from(differ > 0)))
}

// Every string of three bytes, those of one first byte at a time.
fn three_bytes(program: &[String]) -> io::Result<ExitCode> {
    let mut compared = 0;
    let mut differ = 0;
    for first in 0..=u8::MAX {
        let cases = kinds::of_three(first);
        differ += differing(&cases, &asked(program, &cases)?);
        compared += cases.len();
    }
    println!("{compared} compared, {differ} differ");
    Ok(ExitCode::from(u8::from(differ > 0)))
}

// The requests into sample.req, and the Rust's answers into sample.ans.
fn sample(seed: u64, count: usize, folder: &Path) -> io::Result<ExitCode> {
    let mut cases = few_at_the_limits();
    cases.extend(at_random(seed, count));
    let requests = folder.join("sample.req");
    let answers = folder.join("sample.ans");
    fs::write(&requests, lines_of(&cases, |case| &case.request))?;
    fs::write(&answers, lines_of(&cases, |case| &case.answer))?;
    println!("{}\n{}", requests.display(), answers.display());
    Ok(ExitCode::SUCCESS)
}

fn main() -> ExitCode {
    let words: Vec<String> = env::args().skip(1).collect();
    let number = |word: &String| word.parse().expect("SEED and COUNT are numbers");
    let ended = match words.as_slice() {
        [mode, seed, count, folder] if mode == "--sample" => {
            sample(number(seed), number(count) as usize, Path::new(folder))
        }
        [mode, program @ ..] if mode == "--three-bytes" && !program.is_empty() => {
            three_bytes(program)
        }
        [mode, name, seed, program @ ..] if mode == "--runs" && !program.is_empty() => {
            runs::compare(name, number(seed), program)
        }
        [seed, count, program @ ..] if !program.is_empty() => {
            compare(number(seed), number(count) as usize, program)
        }
        _ => Err(io::Error::other(
            "usage: compare SEED COUNT PROGRAM.. | compare --three-bytes PROGRAM.. | compare --runs NAME SEED PROGRAM.. | compare --sample SEED COUNT FOLDER",
        )),
    };
    ended.unwrap_or_else(|error| {
        eprintln!("compare: {error}");
        ExitCode::from(2)
    })
}
