//! What a code reads as in a range that is lent, by the Rust's `decode_imapb`.
//!
//! The Rust takes more ranges than document 02, and it finds the power of a range by a logarithm, which may choose
//! another near an exact power. There its steps are taken here with the exact power; everywhere else its own answer
//! stands, and the steps are held to it.
use super::{within, Range};
use crate::error::KlvFieldError;
use crate::float_ext::FloatExt;
use crate::klv::imapb::{decode_imapb, DecodedImapb};

// The least whole b with 2^b at least the span, by the bits of the span: 1024 for infinity, and for all subnormals
// -1022 or less.
fn power([min, max]: Range) -> i32 {
    let bits = (max - min).to_bits();
    let is_above = bits << 12 != 0;
    (bits >> 52) as i32 - 1023 + i32::from(is_above)
}

// Whether document 02 takes it. A range with an infinite end has an infinite span.
pub fn is_good(range: Range) -> bool {
    range[0] < range[1] && (-60..=60).contains(&power(range))
}

// Whether the Rust's logarithm, as imapb.rs takes it, chooses another power.
fn is_apart([min, max]: Range) -> bool {
    let chosen = FloatExt::ceil(FloatExt::log2(max - min));
    is_good([min, max]) && chosen != f64::from(power([min, max]))
}

fn scale(range: Range, length: usize) -> f64 {
    let exponent = 8 * length as i32 - 1 - power(range);
    f64::from_bits(((1023 + exponent) as u64) << 52)
}

fn offset(range: Range, length: usize) -> f64 {
    let [min, max] = range;
    if min < 0.0 && max > 0.0 {
        let scaled = scale(range, length) * min;
        scaled - scaled.floor()
    } else {
        0.0
    }
}

// The top code of a range that is taken.
pub fn top(range: Range, length: usize) -> u64 {
    let [min, max] = range;
    (scale(range, length) * (max - min) + offset(range, length)).floor() as u64
}

// imapb.rs's steps for a code that is no special. With a power from -60 to 60 a number is always finite, and never
// below the least by more than its epsilon, so that the top code alone decides.
fn by_steps(range: Range, bytes: &[u8]) -> DecodedImapb {
    let length = bytes.len();
    let y = bytes.iter().fold(0, |y, &byte| y << 8 | u64::from(byte));
    let step = 1.0 / scale(range, length);
    let decoded = step * (y as f64 - offset(range, length)) + range[0];
    if y > top(range, length) {
        DecodedImapb::OutOfRange { decoded }
    } else {
        DecodedImapb::Value(decoded)
    }
}

pub fn decode(range: Range, length: usize, bytes: &[u8]) -> Result<DecodedImapb, KlvFieldError> {
    match decode_imapb(&within(range, length), bytes) {
        Err(error @ KlvFieldError::UnsupportedImapbLength { .. }) => Err(error),
        _ if !is_good(range) => Err(KlvFieldError::InvalidImapbParams {
            min: range[0],
            max: range[1],
            length: length as u8,
        }),
        Ok(number @ (DecodedImapb::Value(_) | DecodedImapb::OutOfRange { .. })) => {
            let stepped = by_steps(range, bytes);
            if is_apart(range) {
                return Ok(stepped);
            }
            assert_eq!(stepped, number);
            Ok(number)
        }
        decoded => decoded,
    }
}

// A range as requests spell it.
pub fn spelled(range: Range) -> String {
    let [min, max] = range.map(f64::to_bits);
    format!("{min:016X} {max:016X}")
}

// Whether a request is about a range for which the Rust's logarithm chooses another power.
pub fn has_other_power(request: &str) -> bool {
    let mut words = request.split(' ');
    let is_ranged = words.next().is_some_and(|name| name.ends_with("-in"));
    let mut end = || {
        let bits = u64::from_str_radix(words.next().unwrap(), 16).unwrap();
        f64::from_bits(bits)
    };
    is_ranged && is_apart([end(), end()])
}
