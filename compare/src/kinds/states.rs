//! What each slot of a pack was: its state, and where its code stands. Which slots are present is the Rust's
//! `decode_sdcc_flp`, and what a code of mapped form is the Rust's `decode_imapb`.
use super::params;
use super::short::body;
use crate::klv::imapb::{decode_imapb, DecodedImapb};
use crate::klv::length::read_ber_oid;
use crate::klv::st1010::SdccFlp;
use std::ops::Range;

// The two rows of a slot, its state, and the bytes of its code, none where it is absent.
pub(super) struct Slot {
    pub i: usize,
    pub j: usize,
    pub state: u8,
    pub code: Range<usize>,
}

// The state of a slot with this code, in mapped form or IEEE.
fn of_code(cf: bool, code: &[u8]) -> u8 {
    if !cf {
        return 1;
    }
    match decode_imapb(&params(code.len()), code).unwrap() {
        DecodedImapb::Value(_) => 1,
        DecodedImapb::Special(_) => 2,
        DecodedImapb::ReservedSpecial { .. } => 3,
        DecodedImapb::OutOfRange { .. } => 4,
    }
}

// The slots of a pack that was read, in turn. Their codes stand at the end of the bytes.
pub(super) fn slots_of(bytes: &[u8], read: &SdccFlp) -> Vec<Slot> {
    let (_, control) = read_ber_oid(bytes).unwrap();
    let body = body(control).unwrap();
    let present = &read.correlation_present;
    let codes = present.iter().filter(|&&present| present).count();
    let mut next = bytes.len() - codes * body.clen;
    let n = read.matrix_size as usize;
    let cells = (0..n).flat_map(|i| (i + 1..n).map(move |j| (i, j)));
    let slot = |((i, j), &present)| {
        let start = next;
        next += if present { body.clen } else { 0 };
        let state = match present {
            true => of_code(body.cf, &bytes[start..next]),
            false => 0,
        };
        let code = start..next;
        Slot { i, j, state, code }
    };
    cells.zip(present).map(slot).collect()
}
