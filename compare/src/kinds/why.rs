//! `why HEX`: the rule that refuses a pack, or where its elements and slots stand. Whether it is refused, with which
//! numbers, and which slots are present is the Rust's `decode_sdcc_flp`; `states` has what each slot was.
use super::packs_at_limits::{documented, every_control, every_cut, every_size};
use super::packs_at_limits::{longest, of_long_codes, padded, up_to_two};
use super::packs_at_random::made;
use super::rules::ends;
use super::states::{slots_of, Slot};
use super::{cases, hex, read, Case, Kind};
use crate::error::KlvFieldError;
use crate::klv::st1010::{decode_sdcc_flp, SdccFlp};
use crate::random::Random;
use std::fmt::Write;

pub const KIND: Kind = Kind {
    name: "why",
    limits,
    random,
    share: 1,
};

pub(super) fn answer(bytes: &[u8]) -> String {
    match decode_sdcc_flp(bytes) {
        Ok(read) => accepted(bytes, &read),
        Err(error) => refused(bytes, error),
    }
}

fn refused(bytes: &[u8], error: KlvFieldError) -> String {
    let Err(rule) = ends(bytes) else {
        panic!("no rule refuses {}", hex(bytes));
    };
    let refused = read::refused(error, bytes);
    // the rule is one that refuses as the Rust did
    assert!(refused.starts_with(&format!("refused {} ", rule.number)));
    format!("rule {} {} {refused}", rule.letter, rule.place)
}

fn accepted(bytes: &[u8], read: &SdccFlp) -> String {
    let Ok(ends) = ends(bytes) else {
        panic!("a rule refuses {}", hex(bytes));
    };
    let mut text = format!("accepted {}", bytes.len());
    let mut start = 0;
    for (name, end) in ["n", "control", "vector", "deviations", "codes"]
        .into_iter()
        .zip(ends)
    {
        write!(text, ";{name} {start} {end}").unwrap();
        start = end;
    }
    let [.., mut next, end] = ends;
    for Slot { i, j, state, code } in slots_of(bytes, read) {
        // the slots that the Rust calls present fill the codes
        assert_eq!(code.start, next);
        next = code.end;
        match state {
            0 => write!(text, ";slot {i} {j} 0 absent").unwrap(),
            _ => write!(text, ";slot {i} {j} {state} {} {next}", code.start).unwrap(),
        }
    }
    assert_eq!(next, end);
    text
}

fn case(bytes: &[u8]) -> Case {
    Case {
        request: format!("why {}", hex(bytes)),
        answer: answer(bytes),
    }
}

fn limits() -> Vec<Case> {
    // those of three bytes are `read`'s
    let mut strings = up_to_two();
    for more in [documented(), padded(), every_control(), every_cut()] {
        strings.extend(more);
    }
    strings.extend(every_size());
    // of the long ones, a few will do
    strings.extend(of_long_codes().into_iter().step_by(5));
    strings.push(longest());
    cases(&strings, case)
}

fn random(random: &mut Random) -> Case {
    case(&made(random).0)
}
