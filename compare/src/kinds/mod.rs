//! The kinds of request that are compared, a file for each.
use crate::klv::imapb::ImapbParams;
use crate::random::Random;
pub use in_range::has_other_power;

mod ber;
mod cell;
mod from_npy;
mod from_npy_at_limits;
mod from_npy_headers;
mod in_range;
mod lent;
mod map;
mod mapped;
mod mapped_in;
mod matrices;
mod narrow;
mod npy;
mod npy_files;
pub mod npy_programs;
mod oid;
mod packs;
mod packs_at_limits;
mod packs_at_random;
mod peek;
pub mod print;
mod ranges;
mod read;
mod read_in;
pub mod reasons;
mod rules;
mod set;
pub mod set_printed;
mod sets;
mod sets_at_limits;
mod short;
mod special;
mod states;
mod to_npy;
mod to_npy_at_limits;
mod usable;
mod usable_at_limits;
mod why;
mod widen;
mod write;
mod write_at_limits;

// A request and what the Rust answers to it, in the form of an answer of the program.
pub struct Case {
    pub request: String,
    pub answer: String,
}

pub struct Kind {
    // the first word of its requests
    pub name: &'static str,
    // the same at every run
    pub limits: fn() -> Vec<Case>,
    pub random: fn(&mut Random) -> Case,
    // how many of those come in each turn of the kinds
    pub share: usize,
}

pub const KINDS: [Kind; 21] = [
    oid::KIND,
    oid::STRICT,
    ber::KIND,
    ber::STRICT,
    widen::KIND,
    narrow::KIND,
    mapped::KIND,
    mapped_in::KIND,
    map::KIND,
    special::KIND,
    peek::KIND,
    read::KIND,
    read_in::KIND,
    write::KIND,
    cell::KIND,
    usable::KIND,
    print::KIND,
    why::KIND,
    set::KIND,
    to_npy::KIND,
    from_npy::KIND,
];

// A request for each byte string.
fn cases(strings: &[Vec<u8>], case: fn(&[u8]) -> Case) -> Vec<Case> {
    strings.iter().map(|bytes| case(bytes)).collect()
}

// Every string of three bytes that starts with this one, peeked at and read, as a number and a length too.
pub fn of_three(first: u8) -> Vec<Case> {
    let rest = (0..=u16::MAX).map(u16::to_be_bytes);
    let strings = rest.map(|[second, third]| [first, second, third]);
    strings
        .flat_map(|bytes| {
            [
                peek::case(&bytes),
                read::case(read::SMALL, &bytes),
                oid::strict_case(&bytes),
                ber::case(&bytes),
                ber::strict_case(&bytes),
            ]
        })
        .collect()
}

// A byte string as requests and answers spell it.
pub fn hex(bytes: &[u8]) -> String {
    if bytes.is_empty() {
        return "-".to_string();
    }
    bytes.iter().map(|byte| format!("{byte:02X}")).collect()
}

// The least number and the greatest.
type Range = [f64; 2];

fn within([min, max]: Range, length: usize) -> ImapbParams {
    ImapbParams { min, max, length }
}

// The range of correlations.
fn params(length: usize) -> ImapbParams {
    within([-1.0, 1.0], length)
}
