//! The two numbers of refusal 1, from document 02: the bytes that are needed and the bytes there. The Rust tells that
//! bytes are missing and not how many.
use super::packs::{ones, slots};
use crate::klv::length::read_ber_oid;

// The bytes needed and the bytes there.
pub(super) type Short = [usize; 2];

// What Parse Control says of the elements behind it, and their bytes.
pub(super) struct Body<'a> {
    pub cs: bool,
    pub cf: bool,
    pub clen: usize,
    pub sf: bool,
    pub slen: usize,
    pub bytes: &'a [u8],
}

pub(super) fn body(control: &[u8]) -> Option<Body<'_>> {
    let (cs, cf, clen, sf, slen, bytes) = match control {
        [one, bytes @ ..] if *one < 0x80 => (one & 0x08, 1, one & 7, 0, one >> 4, bytes),
        [one, two, bytes @ ..] => {
            let (cf, sf) = (one & 0x10, two & 0x10);
            (one & 0x20, cf, one & 15, sf, two & 15, bytes)
        }
        _ => return None,
    };
    Some(Body {
        cs: cs != 0,
        cf: cf != 0,
        clen: clen.into(),
        sf: sf != 0,
        slen: slen.into(),
        bytes,
    })
}

// What is left behind so many bytes.
fn behind(bytes: &[u8], needed: usize) -> Result<&[u8], Short> {
    bytes.get(needed..).ok_or([needed, bytes.len()])
}

// The rules that bytes can be missing for, in their order, element by element.
fn walk(bytes: &[u8]) -> Result<(), Short> {
    // a) and b)
    let (n, control) = read_ber_oid(bytes).map_err(|_| [0, 0])?;
    let body = body(control).ok_or([1, 0])?;
    let slots = slots(n.into());
    // e)
    behind(body.bytes, n as usize * body.slen)?;
    // f) and g)
    let (mut left, present) = if body.cs {
        let left = behind(body.bytes, slots.div_ceil(8))?;
        (left, ones(body.bytes, slots))
    } else {
        behind(body.bytes, slots * body.clen)?;
        (body.bytes, slots)
    };
    // h)
    for _ in 0..n {
        left = behind(left, body.slen)?;
    }
    // i)
    if body.cs {
        behind(left, present * body.clen)?;
    }
    // j)
    for _ in 0..present {
        left = behind(left, body.clen)?;
    }
    Ok(())
}

// Of a pack that the Rust calls truncated, the numbers of the first rule that lacks bytes.
pub(super) fn numbers(bytes: &[u8]) -> Short {
    walk(bytes).expect_err("no rule lacks bytes")
}
