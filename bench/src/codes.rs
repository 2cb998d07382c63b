//! A code for every slot, one behind the other, as `pace` has them.
use crate::add;
use tst_core::klv::imapb::{encode_imapb, encode_imapb_special, ImapbParams, ImapbSpecial};

pub fn of_values(correlations: &[f64], clen: usize, out: &mut [u8]) -> u64 {
    let params = ImapbParams {
        min: -1.0,
        max: 1.0,
        length: clen,
    };
    let mut figure = 0;
    let mut at = 0;
    for &correlation in correlations {
        encode_imapb(&params, correlation, &mut out[at..]).expect("it has a code");
        figure = add(figure, clen as u64);
        at += clen;
    }
    figure
}

fn special(k: usize) -> ImapbSpecial {
    let signal = k as u64 % 8;
    match k % 9 {
        0 => ImapbSpecial::PositiveInfinity,
        1 => ImapbSpecial::NegativeInfinity,
        2 => ImapbSpecial::PositiveQuietNaN { nan_id: signal },
        3 => ImapbSpecial::NegativeQuietNaN { nan_id: signal },
        4 => ImapbSpecial::PositiveSignalingNaN { signal },
        5 => ImapbSpecial::NegativeSignalingNaN { signal },
        6 => ImapbSpecial::BelowMin,
        7 => ImapbSpecial::AboveMax,
        _ => ImapbSpecial::UserDefined { signal },
    }
}

pub fn of_specials(slots: usize, clen: usize, out: &mut [u8]) -> u64 {
    let mut figure = 0;
    let mut at = 0;
    for k in 0..slots {
        encode_imapb_special(special(k), clen, &mut out[at..]).expect("it has a code");
        figure = add(figure, clen as u64);
        at += clen;
    }
    figure
}

// In the place of those that end a full pack.
pub fn over_last(slots: usize, clen: usize, pack: &mut [u8]) {
    let start = pack.len() - slots * clen;
    of_specials(slots, clen, &mut pack[start..]);
}
