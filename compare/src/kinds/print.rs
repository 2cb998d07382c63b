//! `print HEX`: what the program `sdcc` prints, by the Rust's `peek_matrix_size` and `decode_sdcc_flp`.
use super::packs::{pack, Control};
use super::packs_at_limits::{documented, every_control, every_size, longest, of_sizes, padded};
use super::packs_at_random::made;
use super::{cases, hex, read, write_at_limits, Case, Kind};
use crate::klv::st1010::peek_matrix_size;
use crate::program::Input;
use crate::random::Random;

pub const KIND: Kind = Kind {
    name: "print",
    limits,
    random,
    share: 2,
};

// The most that the program reads, which is added.
const BYTES: usize = 20_480;
const ROWS: usize = 64;

pub(super) const TOO_BIG: &str = "too big for this program\n";

pub(super) fn is_too_big(bytes: &[u8]) -> bool {
    bytes.len() > BYTES || peek_matrix_size(bytes).is_some_and(|n| n > ROWS)
}

// All that it writes, each line with its newline.
pub fn printed(bytes: &[u8]) -> String {
    if is_too_big(bytes) {
        return TOO_BIG.to_string();
    }
    read::answer(read::LARGEST, bytes).replace(';', "\n") + "\n"
}

fn case(bytes: &[u8]) -> Case {
    Case {
        request: format!("print {}", hex(bytes)),
        answer: printed(bytes).replace('\n', ";"),
    }
}

// So long, with zeros at the end where it was shorter.
fn of_length(bytes: &[u8], length: usize) -> Vec<u8> {
    let mut bytes = bytes.to_vec();
    bytes.resize(length, 0);
    bytes
}

// As many bytes as are read, and one fewer or more: packs with bytes left over, and those of 64 rows and 65, with
// codes of a length that has none.
fn beside_bytes() -> Vec<Vec<u8>> {
    let mut random = Random::new(8);
    let mut packs = documented();
    for n in [64, 65] {
        for clen in [9, 10, 15] {
            for cs in [false, true] {
                packs.push(pack(&mut random, n, 0, Control::of(cs, true, clen, 4)).bytes);
            }
        }
    }
    let lengths = [BYTES - 1, BYTES, BYTES + 1, 2 * BYTES];
    let longer = packs
        .iter()
        .flat_map(|pack| lengths.map(|length| of_length(pack, length)));
    longer.collect()
}

// Document 01's packs, those that are read and those that are written.
fn listed() -> Vec<Vec<u8>> {
    [documented(), write_at_limits::written()].concat()
}

fn limits() -> Vec<Case> {
    let mut strings = [
        every_size(),
        of_sizes(9, &[62, 63, 64, 65, 66]),
        padded(),
        listed(),
        beside_bytes(),
    ]
    .concat();
    // of those that are too long, and of those that `read` goes through, a few will do
    strings.retain(|bytes| bytes.len() <= 2 * BYTES);
    strings.push(longest());
    strings.extend(every_control().into_iter().step_by(5));
    cases(&strings, case)
}

fn random(random: &mut Random) -> Case {
    let (bytes, _) = made(random);
    match random.below(500) {
        0 => case(&of_length(&bytes, BYTES + random.below(2) as usize)),
        _ => case(&bytes),
    }
}

// How many packs at random, whole and damaged.
const RUNS: usize = 2000;

// As many rows as are printed, and one more.
fn beside_rows(random: &mut Random) -> Vec<Vec<u8>> {
    let mut packs = Vec::new();
    for n in [64, 65] {
        for (cs, clen, slen) in [(false, 8, 8), (true, 2, 4), (false, 0, 8), (true, 8, 0)] {
            packs.push(pack(random, n, 0, Control::of(cs, true, clen, slen)).bytes);
        }
    }
    packs
}

// A pack that the deviations end, cut at every byte: at random hardly a deviation is short.
fn cut_in_deviations(random: &mut Random) -> Vec<Vec<u8>> {
    let whole = pack(random, 17, 0, Control::of(true, true, 0, 4)).bytes;
    let lengths = 0..whole.len();
    lengths.map(|length| whole[..length].to_vec()).collect()
}

pub fn inputs(random: &mut Random) -> Vec<Input> {
    let mut at_once = listed();
    at_once.extend(beside_rows(random));
    at_once.extend(cut_in_deviations(random));
    at_once.extend((0..RUNS).map(|_| made(random).0));
    for length in [BYTES, BYTES + 1, 1_000_000] {
        at_once.extend(listed().iter().map(|pack| of_length(pack, length)));
    }
    let at_once = at_once.into_iter().map(Input::at_once);
    let by_byte = listed().into_iter().map(Input::by_byte);
    at_once.chain(by_byte).collect()
}
