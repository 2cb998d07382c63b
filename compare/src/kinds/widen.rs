//! `widen BITS32`: a binary32 as a binary64, by the Rust's reader, from a pack of one deviation in four bytes.
use super::{Case, Kind};
use crate::klv::st1010::decode_sdcc_flp;
use crate::random::Random;

pub const KIND: Kind = Kind {
    name: "widen",
    limits,
    random,
    share: 1,
};

const FRACTIONS: [u32; 10] = [
    0, 1, 2, 0x3F_FFFF, 0x40_0000, 0x40_0001, 0x55_5555, 0x2A_AAAA, 0x7F_FFFE, 0x7F_FFFF,
];

fn case(bits: u32) -> Case {
    let mut pack = vec![0x01, 0x80, 0x04];
    pack.extend(bits.to_be_bytes());
    let read = decode_sdcc_flp(&pack).unwrap().std_devs[0];
    assert_eq!(read.is_nan(), f32::from_bits(bits).is_nan());
    let wide = if read.is_nan() {
        wide_nan(bits)
    } else {
        read.to_bits()
    };
    Case {
        request: format!("widen {bits:08X}"),
        answer: format!("{wide:016X}"),
    }
}

// The Rust fixes no bits here: the sign stays, the fraction goes to the top, and the quiet bit is set.
pub fn wide_nan(bits: u32) -> u64 {
    let sign = u64::from(bits >> 31) << 63;
    let fraction = u64::from(bits & 0x7F_FFFF) << 29;
    sign | 0x7FF8_0000_0000_0000 | fraction
}

fn limits() -> Vec<Case> {
    let mut cases = Vec::new();
    for sign_and_exponent in 0..512 {
        cases.extend(FRACTIONS.map(|fraction| case(sign_and_exponent << 23 | fraction)));
    }
    cases
}

fn random(random: &mut Random) -> Case {
    let uniform = random.bits() as u32;
    case(match random.below(4) {
        // a subnormal, or zero
        0 => uniform & 0x8000_0000 | random.any_length(23) as u32,
        // a NaN, or infinity
        1 => uniform & 0x8000_0000 | 0x7F80_0000 | random.any_length(23) as u32,
        2 => uniform & 0xFF80_0000 | random.pick(&FRACTIONS),
        _ => uniform,
    })
}
