//! `narrow BITS`: a binary64 as the nearest binary32, by the Rust's writer, in the pack of one deviation that it
//! writes.
use super::{Case, Kind};
use crate::klv::st1010::encode_sdcc_flp_mode2;
use crate::random::Random;

pub const KIND: Kind = Kind {
    name: "narrow",
    limits,
    random,
    share: 1,
};

// The exponent's field of the least normal binary32, and that of the greatest finite one.
const NORMAL: u64 = 897;
const GREATEST: u64 = 1150;
const ALL: u64 = (1 << 52) - 1;

fn case(bits: u64) -> Case {
    let number = f64::from_bits(bits);
    let pack = encode_sdcc_flp_mode2(&[number], &[], 1).unwrap();
    let written = u32::from_be_bytes(pack[3..].try_into().unwrap());
    assert_eq!(f32::from_bits(written).is_nan(), number.is_nan());
    let narrow = if number.is_nan() {
        narrow_nan(bits)
    } else {
        written
    };
    Case {
        request: format!("narrow {bits:016X}"),
        answer: format!("{narrow:08X}"),
    }
}

// The Rust fixes no bits here: the sign and the top of the fraction stay, and the quiet bit is set.
pub fn narrow_nan(bits: u64) -> u32 {
    let sign = (bits >> 63) << 31;
    let fraction = bits >> 29 & 0x7F_FFFF;
    (sign | 0x7FC0_0000 | fraction) as u32
}

fn bits_of(sign: u64, field: u64, digits: u64) -> u64 {
    sign << 63 | field << 52 | digits & ALL
}

// What is rounded off the digits of a number with this field, in units of their last place.
fn unit(field: u64) -> u64 {
    let lost = 29 + NORMAL.saturating_sub(field.max(1));
    1 << lost.min(53)
}

// The digits at and beside a tie, where what stands above it is given.
fn around_tie(field: u64, above: u64) -> [u64; 6] {
    let unit = unit(field);
    let base = above / unit * unit;
    let tie = base + unit / 2;
    [base, base + 1, tie - 1, tie, tie + 1, base + unit - 1]
}

fn near_a_limit(field: u64) -> bool {
    let near = |limit: u64| field.abs_diff(limit) < 4;
    field.is_multiple_of(64)
        || (868..NORMAL + 4).contains(&field)
        || [0, 1023, 1075, GREATEST, 2046].into_iter().any(near)
}

fn limits() -> Vec<Case> {
    let mut cases = Vec::new();
    for field in (0..2048).filter(|&field| near_a_limit(field)) {
        let unit = unit(field);
        for above in [0, unit, 2 * unit, ALL.saturating_sub(unit), ALL] {
            for digits in around_tie(field, above) {
                cases.extend([0, 1].map(|sign| case(bits_of(sign, field, digits))));
            }
        }
    }
    cases
}

// Near a tie, a limit, or what is no number, mostly.
pub fn number(random: &mut Random) -> u64 {
    let sign = random.below(2);
    let uniform = random.bits();
    match random.below(8) {
        0 | 1 => {
            let field = random.between(NORMAL - 27, NORMAL + 2);
            bits_of(sign, field, random.pick(&around_tie(field, uniform & ALL)))
        }
        2 | 3 => {
            let field = random.between(NORMAL, GREATEST);
            bits_of(sign, field, random.pick(&around_tie(field, uniform & ALL)))
        }
        // on both sides of 2^128-2^103, from which on the answer is infinity
        4 => bits_of(
            sign,
            GREATEST,
            0xF_FFFF_F000_0000 + random.between(0, 1 << 29) - (1 << 28),
        ),
        // a NaN, or infinity
        5 => bits_of(sign, 2047, random.any_length(52)),
        // a NaN with digits on both sides of those that stay, or a number as large as they get
        6 => bits_of(
            sign,
            random.pick(&[2046, 2047]),
            random.pick(&around_tie(2047, uniform & ALL)),
        ),
        _ => uniform,
    }
}

fn random(random: &mut Random) -> Case {
    case(number(random))
}
