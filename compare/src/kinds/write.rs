//! `write CLEN ROOM COUNT BITS.. COUNT BITS..`: a whole pack, by the Rust's `encode_sdcc_flp_mode2`.
use super::lent::LENGTHS;
use super::map::{outside, INFINITY, ONE, SIGN};
use super::narrow::narrow_nan;
use super::oid::spelled;
use super::packs::slots;
use super::read::rooms_around;
use super::write_at_limits::limits;
use super::{hex, map, narrow, Case, Kind};
use crate::error::KlvEncodeError;
use crate::klv::st1010::encode_sdcc_flp_mode2;
use crate::random::Random;

pub const KIND: Kind = Kind {
    name: "write",
    limits,
    random,
    share: 12,
};

// Both are added: the most rows that are written, and the Clen where none is named.
pub const ROWS: usize = 256;
const CLEN: usize = 2;

// What is to be written, and the Clen where one is named.
#[derive(Clone)]
pub struct Sent {
    pub clen: Option<usize>,
    pub deviations: Vec<u64>,
    pub correlations: Vec<u64>,
}

pub fn numbers(bits: &[u64]) -> Vec<f64> {
    bits.iter().map(|&bits| f64::from_bits(bits)).collect()
}

pub fn list(bits: &[u64]) -> String {
    let entries: String = bits.iter().map(|bits| format!(" {bits:016X}")).collect();
    format!("{}{entries}", bits.len())
}

// Whether a correlation lies from -1 to 1.
pub fn inside(bits: u64) -> bool {
    (-1.0..=1.0).contains(&f64::from_bits(bits))
}

impl Sent {
    // The slots of so many rows.
    pub fn slots(&self) -> usize {
        slots(self.deviations.len() as u64)
    }

    // The pack, or the refusal before which no room is looked at.
    pub fn written(&self) -> Result<Vec<u8>, String> {
        let rows = self.deviations.len();
        if rows > ROWS {
            return Err(format!("refused 6 {rows}"));
        }
        let written = encode_sdcc_flp_mode2(
            &numbers(&self.deviations),
            &numbers(&self.correlations),
            self.clen.unwrap_or(CLEN),
        );
        match written {
            Ok(mut pack) => {
                self.fix_nans(&mut pack);
                Ok(pack)
            }
            Err(error) => Err(self.refused(error)),
        }
    }

    // The bits of the deviations that are NaN, of which the Rust fixes none.
    fn fix_nans(&self, pack: &mut [u8]) {
        let head = spelled(self.deviations.len() as u64, 0).len();
        let sparse = pack[head] & 0x20 != 0;
        let vector = if sparse { self.slots().div_ceil(8) } else { 0 };
        let fields = pack[head + 2 + vector..].chunks_exact_mut(4);
        for (&bits, field) in self.deviations.iter().zip(fields) {
            let narrow = f32::from_be_bytes(field.try_into().unwrap());
            assert_eq!(narrow.is_nan(), f64::from_bits(bits).is_nan());
            if narrow.is_nan() {
                field.copy_from_slice(&narrow_nan(bits).to_be_bytes());
            }
        }
    }

    fn refused(&self, error: KlvEncodeError) -> String {
        let (count, slots) = (self.correlations.len(), self.slots());
        match error {
            // the counts are whole numbers, which the Rust carries as floats
            KlvEncodeError::OutOfRange {
                value, min, max, ..
            } if count != slots => {
                assert!(value == count as f64 && min == slots as f64 && max == min);
                format!("refused 3 {count} {slots} {slots}")
            }
            KlvEncodeError::OutOfRange {
                value, min, max, ..
            } => {
                let mut bad = self.correlations.iter().filter(|&&bits| !inside(bits));
                outside(*bad.next().unwrap(), value, min, max)
            }
            KlvEncodeError::UnsupportedImapbLength { length } => format!("refused 4 {length}"),
            error => panic!("{error:?}"),
        }
    }

    // The pack's length; where none is written, that of some pack.
    pub fn needed(&self) -> usize {
        self.written().map_or(12, |pack| pack.len())
    }

    // The room is looked at last, where the Rust allocates.
    pub fn case(&self, room: usize) -> Case {
        let answer = match self.written() {
            Ok(pack) if room < pack.len() => format!("refused 5 {} {room}", pack.len()),
            Ok(pack) => format!("done {} {}", pack.len(), hex(&pack)),
            Err(refused) => refused,
        };
        let clen = match self.clen {
            Some(clen) => clen.to_string(),
            None => "-".to_string(),
        };
        let (deviations, correlations) = (list(&self.deviations), list(&self.correlations));
        Case {
            request: format!("write {clen} {room} {deviations} {correlations}"),
            answer,
        }
    }
}

// Of correlations, so many that are 0, of either sign.
pub fn correlations(random: &mut Random, count: usize, zeros: usize) -> Vec<u64> {
    let mut values: Vec<u64> = (0..count)
        .map(|slot| match slot {
            slot if slot < zeros => random.pick(&[0, SIGN]),
            _ => correlation(random, true),
        })
        .collect();
    for slot in 1..count {
        values.swap(slot, random.below(slot as u64 + 1) as usize);
    }
    values
}

// Inside the range or outside, with what is no number.
pub fn correlation(random: &mut Random, wanted: bool) -> u64 {
    loop {
        let sign = random.below(2) << 63;
        let bits = match random.below(4) {
            0 if !wanted => sign | INFINITY | random.any_length(52),
            1 if !wanted => sign | (ONE + 1 + random.any_length(12)),
            _ => map::number(random),
        };
        if inside(bits) == wanted {
            return bits;
        }
    }
}

pub fn deviation(random: &mut Random) -> u64 {
    match random.below(2) {
        0 => narrow::number(random),
        _ => (random.any_length(30) as f64 / 16.0).to_bits(),
    }
}

pub fn deviations(random: &mut Random, rows: usize) -> Vec<u64> {
    (0..rows).map(|_| deviation(random)).collect()
}

// Mostly few, since a request spells all that a pack holds.
fn rows(random: &mut Random) -> usize {
    match random.below(20_000) {
        0 => random.pick(&[255, 256]),
        1..=20 => random.pick(&[63, 64, 65]),
        21..=60 => random.pick(&[257, 258, 300]),
        61..=1000 => random.pick(&[9, 17]),
        1001..=2000 => random.between(5, 24) as usize,
        _ => random.below(5) as usize,
    }
}

fn clen(random: &mut Random) -> Option<usize> {
    match random.below(16) {
        0 | 1 => None,
        2 => Some(random.pick(&LENGTHS)),
        _ => Some(random.between(1, 8) as usize),
    }
}

// As many as there are slots, mostly.
fn count(random: &mut Random, rows: usize) -> usize {
    if rows > ROWS {
        return random.below(4) as usize;
    }
    let slots = slots(rows as u64);
    match random.below(32) {
        0 => slots + 1,
        1 => slots.saturating_sub(1),
        2 => random.below(4) as usize,
        _ => slots,
    }
}

// On both sides of where a pack becomes sparse, none, all, or any number of them.
fn zeros(random: &mut Random, count: usize, clen: Option<usize>) -> usize {
    let most = count / (8 * clen.unwrap_or(CLEN).clamp(1, 8));
    let zeros = match random.below(8) {
        0 | 1 => 0,
        2 => most,
        3 => most + 1,
        4 => count,
        _ => random.below(count as u64 + 1) as usize,
    };
    zeros.min(count)
}

fn sent(random: &mut Random) -> Sent {
    let rows = rows(random);
    let clen = clen(random);
    let count = count(random, rows);
    let zeros = zeros(random, count, clen);
    let mut correlations = correlations(random, count, zeros);
    // now and then one or two that are refused
    let bad = match random.below(16) {
        0 => 2,
        1 | 2 => 1,
        _ => 0,
    };
    for _ in 0..bad.min(count) {
        let any = random.below(count as u64) as usize;
        let place = random.pick(&[0, count / 2, count - 1, any]);
        correlations[place] = correlation(random, false);
    }
    Sent {
        clen,
        deviations: deviations(random, rows),
        correlations,
    }
}

fn random(random: &mut Random) -> Case {
    let sent = sent(random);
    let needed = sent.needed();
    let room = match random.below(8) {
        0 => needed + random.below(100) as usize,
        1 | 2 => random.pick(&rooms_around(needed)),
        _ => needed,
    };
    sent.case(room)
}
