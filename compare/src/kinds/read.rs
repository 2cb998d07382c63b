//! `read DROOM CROOM SROOM HEX`: a whole pack, by the Rust's `decode_sdcc_flp`; `states` has what each slot was.
use super::matrices::Matrix;
use super::packs::{pack, slots, Control};
use super::packs_at_limits::{documented, every_control, every_cut, every_short, every_size};
use super::packs_at_limits::{longest, of_long_codes, padded};
use super::packs_at_random::made;
use super::short::{body, numbers};
use super::states::{slots_of, Slot};
use super::widen::wide_nan;
use super::{hex, Case, Kind};
use crate::error::KlvFieldError;
use crate::klv::length::read_ber_oid;
use crate::klv::st1010::{decode_sdcc_flp, SdccFlp};
use crate::random::Random;
use std::fmt::Write;

pub const KIND: Kind = Kind {
    name: "read",
    limits,
    random,
    share: 1,
};

// How many deviations, correlations and states are lent.
pub(super) type Rooms = [usize; 3];

// As many as a request has to be taken with, and enough for what is small.
pub(super) const LARGEST: Rooms = [300, 33_000, 33_000];
pub(super) const SMALL: Rooms = [9, 40, 40];

pub(super) fn answer(rooms: Rooms, bytes: &[u8]) -> String {
    answer_of(rooms, bytes, decode_sdcc_flp(bytes))
}

// That of a pack which was decoded so.
pub(super) fn answer_of(
    rooms: Rooms,
    bytes: &[u8],
    decoded: Result<SdccFlp, KlvFieldError>,
) -> String {
    match decoded {
        Ok(read) => stored(rooms, &matrix(bytes, &read), &states(bytes, &read)),
        Err(error) => refused(error, bytes),
    }
}

pub(super) fn case(rooms: Rooms, bytes: &[u8]) -> Case {
    let [deviations, correlations, states] = rooms;
    Case {
        request: format!("read {deviations} {correlations} {states} {}", hex(bytes)),
        answer: answer(rooms, bytes),
    }
}

pub(super) fn refused(error: KlvFieldError, bytes: &[u8]) -> String {
    match error {
        KlvFieldError::TruncatedField { .. } => {
            let [needed, got] = numbers(bytes);
            format!("refused 1 {needed} {got}")
        }
        KlvFieldError::InvalidLength { expected, got, .. } => {
            format!("refused 2 {expected} {got}")
        }
        // the sizes are whole numbers, which the Rust carries as floats
        KlvFieldError::OutOfRange {
            value, min, max, ..
        } => format!("refused 3 {} {} {}", value as u64, min as u64, max as u64),
        KlvFieldError::UnsupportedImapbLength { length } => format!("refused 4 {length}"),
        error => panic!("{error:?}"),
    }
}

// Rule l), which the Rust has no need of: it allocates.
fn no_room(needed: Rooms, rooms: Rooms) -> Option<String> {
    let mut lent = needed.into_iter().zip(rooms);
    let (needed, got) = lent.find(|(needed, got)| got < needed)?;
    Some(format!("refused 5 {needed} {got}"))
}

// The bits of what was read from these bytes. Those of a NaN follow from the bytes: the Rust fixes none where it
// converts it.
fn bits(number: f64, bytes: &[u8]) -> u64 {
    if !number.is_nan() {
        return number.to_bits();
    }
    match bytes.try_into() {
        Ok(four) => wide_nan(u32::from_be_bytes(four)),
        Err(_) => u64::from_be_bytes(bytes.try_into().unwrap()),
    }
}

// The numbers of a pack that was read, which stand at the end of its bytes.
pub(super) fn matrix(bytes: &[u8], read: &SdccFlp) -> Matrix {
    let (_, control) = read_ber_oid(bytes).unwrap();
    let slen = body(control).unwrap().slen;
    let slots = slots_of(bytes, read);
    let codes = slots.first().map_or(bytes.len(), |slot| slot.code.start);
    let deviations = &bytes[codes - read.std_devs.len() * slen..];
    let deviation = |(row, &number): (usize, &f64)| bits(number, &deviations[row * slen..][..slen]);
    let correlation = |(slot, &number): (&Slot, &f64)| bits(number, &bytes[slot.code.clone()]);
    Matrix {
        n: read.matrix_size,
        deviations: read.std_devs.iter().enumerate().map(deviation).collect(),
        correlations: slots
            .iter()
            .zip(&read.correlations)
            .map(correlation)
            .collect(),
    }
}

fn states(bytes: &[u8], read: &SdccFlp) -> Vec<u8> {
    let slots = slots_of(bytes, read);
    slots.iter().map(|slot| slot.state).collect()
}

// The answer where the numbers and the states are stored in these rooms.
pub(super) fn stored(rooms: Rooms, matrix: &Matrix, states: &[u8]) -> String {
    let (rows, slots) = (matrix.deviations.len(), matrix.correlations.len());
    no_room([rows, slots, slots], rooms).unwrap_or_else(|| lines(matrix, states))
}

fn lines(matrix: &Matrix, states: &[u8]) -> String {
    let Matrix {
        n,
        deviations,
        correlations,
    } = matrix;
    let (rows, slots) = (deviations.len(), correlations.len());
    let mut lines = format!("n {n} deviations {rows} slots {slots}");
    for (row, bits) in deviations.iter().enumerate() {
        write!(lines, ";s {row} {bits:016X}").unwrap();
    }
    let cells = (0..*n).flat_map(|i| (i + 1..*n).map(move |j| (i, j)));
    for (((i, j), state), bits) in cells.zip(states).zip(correlations) {
        write!(lines, ";c {i} {j} {state} {bits:016X}").unwrap();
    }
    lines
}

// None, one short, exact and larger.
pub fn rooms_around(needed: usize) -> Vec<usize> {
    let mut rooms = vec![0, needed, needed + 1, needed + 5];
    rooms.extend(needed.checked_sub(1));
    rooms
}

// Every choice of rooms for a pack of this size.
pub(super) fn every_room_of(n: u64) -> Vec<Rooms> {
    let mut rooms = Vec::new();
    for deviations in rooms_around(n as usize) {
        for correlations in rooms_around(slots(n)) {
            for states in rooms_around(slots(n)) {
                rooms.push([deviations, correlations, states]);
            }
        }
    }
    rooms
}

// Small packs, with deviations and without.
fn every_room() -> Vec<Case> {
    let mut random = Random::new(2);
    let mut cases = Vec::new();
    for n in [0, 1, 2, 3, 4, 9] {
        for (cs, slen) in [(false, 4), (true, 4), (false, 0), (true, 0)] {
            let made = pack(&mut random, n, 0, Control::of(cs, true, 2, slen));
            let rooms = every_room_of(n).into_iter();
            cases.extend(rooms.map(|rooms| case(rooms, &made.bytes)));
        }
    }
    cases
}

fn limits() -> Vec<Case> {
    let mut cases = every_room();
    for small in [
        every_short(),
        documented(),
        padded(),
        every_control(),
        every_cut(),
    ] {
        cases.extend(small.iter().map(|bytes| case(SMALL, bytes)));
    }
    let long = [of_long_codes(), vec![longest()]];
    for any in [documented(), every_size()].into_iter().chain(long) {
        cases.extend(any.iter().map(|bytes| case(LARGEST, bytes)));
    }
    cases
}

// Rooms for a pack that was made with this size.
pub(super) fn rooms_at_random(random: &mut Random, n: u64) -> Rooms {
    if n > 256 {
        return SMALL;
    }
    let needed = [n as usize, slots(n), slots(n)];
    match random.below(32) {
        0 => LARGEST,
        1..=8 => needed.map(|needed| random.pick(&rooms_around(needed))),
        9..=16 => needed.map(|needed| needed + random.below(4) as usize),
        _ => needed,
    }
}

fn random(random: &mut Random) -> Case {
    let (bytes, n) = made(random);
    case(rooms_at_random(random, n), &bytes)
}
