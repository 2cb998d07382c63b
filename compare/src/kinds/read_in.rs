//! `read-in MIN MAX DROOM CROOM SROOM HEX`: a whole pack whose deviations may be mapped, by the Rust's
//! `decode_sdcc_flp` and `decode_imapb`.
//!
//! The Rust's reader refuses mapped deviations. What they read as is the Rust's `decode_imapb`; that they are taken in
//! turn, and what rule h) refuses, is worked out here. All other rules are the Rust's reader's: a) to g) on the pack as
//! it stands, i) to k) on the pack with each mapped deviation as its binary64.
use super::in_range::{decode, is_good, spelled};
use super::packs::{pack, slots, Control, Pack};
use super::packs_at_limits::{cut_at_ends, documented, longest};
use super::packs_at_random::{control, damaged, length, size};
use super::ranges::{any_code, at_random, value, BAD, PLAIN};
use super::read::{answer, answer_of, every_room_of, rooms_at_random, Rooms, LARGEST, SMALL};
use super::{hex, mapped, Case, Kind, Range};
use crate::error::KlvFieldError;
use crate::klv::imapb::DecodedImapb;
use crate::klv::length::read_ber_oid;
use crate::klv::st1010::{decode_sdcc_flp, parse_mode2, peek_matrix_size};
use crate::random::Random;

pub const KIND: Kind = Kind {
    name: "read-in",
    limits,
    random,
    share: 1,
};

// One deviation in so many may be no value: a pack has hardly one.
const FEW: u64 = 1000;

fn case(range: Range, rooms: Rooms, bytes: &[u8]) -> Case {
    let [deviations, correlations, states] = rooms;
    Case {
        request: format!(
            "read-in {} {deviations} {correlations} {states} {}",
            spelled(range),
            hex(bytes)
        ),
        answer: ranged_answer(range, rooms, bytes),
    }
}

fn ranged_answer(range: Range, rooms: Rooms, bytes: &[u8]) -> String {
    if !is_good(range) {
        return "refused 9".to_string();
    }
    match unmapped(range, bytes) {
        None => answer(rooms, bytes),
        Some(Err(refused)) => refused,
        Some(Ok(longer)) => {
            let added = longer.len() - bytes.len();
            let decoded = decode_sdcc_flp(&longer).map_err(|error| shorter(error, added));
            answer_of(rooms, &longer, decoded)
        }
    }
}

// Rule k) counts the bytes of the pack as it stands.
fn shorter(error: KlvFieldError, added: usize) -> KlvFieldError {
    match error {
        KlvFieldError::InvalidLength { tag, expected, got } if expected > 0 => {
            KlvFieldError::InvalidLength {
                tag,
                expected: expected - added,
                got: got - added,
            }
        }
        error => error,
    }
}

// The pack with its mapped deviations as binary64, or what rule h) refuses. None where there are no such deviations, or
// the pack is refused before h).
fn unmapped(range: Range, bytes: &[u8]) -> Option<Result<Vec<u8>, String>> {
    let n = peek_matrix_size(bytes)?;
    let (_, control) = read_ber_oid(bytes).ok()?;
    let &[one, two, ref body @ ..] = control else {
        return None;
    };
    let (cs, _, _, sf, slen) = parse_mode2(one, two);
    if one < 0x80 || !sf || slen == 0 {
        return None;
    }
    let vector = if cs { slots(n as u64).div_ceil(8) } else { 0 };
    let (vector, left) = body.split_at(vector);
    Some(in_turn(range, slen, n, left).map(|deviations| {
        let head = &bytes[..bytes.len() - control.len()];
        let control = [one, two & 0xE0 | 8];
        [head, &control, vector, &deviations, &left[n * slen..]].concat()
    }))
}

// Rule h): the deviations in turn, as the bytes of binary64.
fn in_turn(range: Range, slen: usize, n: usize, mut left: &[u8]) -> Result<Vec<u8>, String> {
    let mut numbers = Vec::new();
    for row in 0..n {
        if left.len() < slen {
            return Err(format!("refused 1 {slen} {}", left.len()));
        }
        let (code, rest) = left.split_at(slen);
        left = rest;
        match decode(range, slen, code) {
            Ok(DecodedImapb::Value(number)) => numbers.extend(number.to_be_bytes()),
            Ok(_) => return Err(format!("refused 8 {row}")),
            refused => return Err(mapped::answer(refused)),
        }
    }
    Ok(numbers)
}

// A pack with the deviations that its control says; mapped ones are codes in the range, one in so many of any kind and
// the others values.
fn pack_in(random: &mut Random, range: Range, n: u64, control: Control, one_in: u64) -> Pack {
    let mut made = pack(random, n, 0, control);
    let slen = control.slen.into();
    if control.mode2 && control.sf && (1..=8).contains(&slen) {
        let [.., start, end, _] = made.ends[..] else {
            unreachable!()
        };
        for deviation in made.bytes[start..end].chunks_mut(slen) {
            let code = match random.below(one_in) {
                0 => any_code(random, range, slen),
                _ => value(random, range, slen),
            };
            deviation.copy_from_slice(&code);
        }
    }
    made
}

fn with_sf(cs: bool, cf: bool, clen: u8, slen: u8) -> Control {
    Control {
        sf: true,
        ..Control::of(cs, cf, clen, slen)
    }
}

// Every Slen with the smallest sizes.
fn every_slen() -> Vec<Case> {
    let layouts = [
        (false, true, 0),
        (true, true, 0),
        (false, true, 1),
        (true, true, 1),
        (false, false, 4),
        (true, false, 3),
        (false, true, 9),
        (true, true, 9),
    ];
    let mut random = Random::new(4);
    let mut cases = Vec::new();
    for slen in 0..=15 {
        for (n, (cs, cf, clen)) in [0, 1, 2, 4]
            .into_iter()
            .flat_map(|n| layouts.map(|of| (n, of)))
        {
            let range = random.pick(&PLAIN);
            let one_in = random.pick(&[4, FEW]);
            let made = pack_in(&mut random, range, n, with_sf(cs, cf, clen, slen), one_in);
            let cut = cut_at_ends(&mut random, made);
            cases.extend(cut.iter().map(|bytes| case(range, SMALL, bytes)));
        }
    }
    cases
}

// No value in each row, and bytes missing from each row on, which the Bit Vector has taken.
fn every_row() -> Vec<Case> {
    let mut random = Random::new(5);
    let mut cases = Vec::new();
    for row in 0..20 {
        let mut bytes = pack_in(&mut random, PLAIN[1], 20, with_sf(true, true, 0, 1), FEW).bytes;
        let start = bytes.len() - 20;
        bytes[start + row] = random.pick(&[0x81, 0xC8, 0xE2]);
        let cut = (start..=bytes.len()).map(|end| case(PLAIN[1], LARGEST, &bytes[..end]));
        cases.extend(cut);
    }
    cases
}

fn every_room() -> Vec<Case> {
    let mut random = Random::new(6);
    let mut cases = Vec::new();
    for (n, slen) in [(0, 1), (1, 3), (3, 2), (4, 8), (4, 0)] {
        let made = pack_in(&mut random, PLAIN[2], n, with_sf(true, true, 2, slen), FEW);
        let rooms = every_room_of(n).into_iter();
        cases.extend(rooms.map(|rooms| case(PLAIN[2], rooms, &made.bytes)));
    }
    cases
}

// The most bytes, and sizes up to the largest and beyond.
fn every_size() -> Vec<Case> {
    let mut random = Random::new(7);
    let mut cases = vec![case(PLAIN[0], LARGEST, &longest())];
    for n in [64, 255, 256, 257] {
        for (cs, slen) in [(false, 1), (true, 5), (true, 8), (false, 9)] {
            let made = pack_in(&mut random, PLAIN[4], n, with_sf(cs, true, 1, slen), FEW);
            cases.push(case(PLAIN[4], LARGEST, &made.bytes));
        }
    }
    cases
}

// Document 01's packs in every range: a bad one comes before all else, and a good one counts only where Sf=1.
fn in_every_range() -> Vec<Case> {
    let ranges = PLAIN.into_iter().chain(BAD);
    let packs = documented();
    ranges
        .flat_map(|range| packs.iter().map(move |bytes| case(range, SMALL, bytes)))
        .collect()
}

fn limits() -> Vec<Case> {
    let few = [every_row(), every_room(), every_size()].into_iter();
    let cases = [in_every_range(), every_slen()].into_iter().chain(few);
    cases.flatten().collect()
}

fn random(random: &mut Random) -> Case {
    let range = at_random(random);
    let n = match random.below(4) {
        0 => random.below(21),
        _ => size(random),
    };
    let mut control = control(random);
    if control.mode2 && random.below(8) > 0 {
        control.sf = true;
        control.slen = length(random, true);
    }
    let one_in = random.pick(&[2, 8, FEW, FEW]);
    let padding = vec![0x80; random.pick(&[0, 0, 0, 0, 1, 4])];
    let made = pack_in(random, range, n, control, one_in);
    let bytes = damaged(random, [padding, made.bytes].concat());
    case(range, rooms_at_random(random, n), &bytes)
}
