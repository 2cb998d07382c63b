//! The rules a) to k) in document 01's order: which of them refuses a pack, at which place, and where the elements end.
//! The Rust has no letters and no places.
use super::packs::{ones, slots};
use super::short::{body, Body};
use crate::klv::length::read_ber_oid;

// A rule that refuses: its letter, its place, and the number of its refusal.
pub(super) struct Rule {
    pub letter: char,
    pub place: usize,
    pub number: u64,
}

fn rule(letter: char, place: usize, number: u64) -> Rule {
    Rule {
        letter,
        place,
        number,
    }
}

fn hold(holds: bool, letter: char, place: usize, number: u64) -> Result<(), Rule> {
    holds.then_some(()).ok_or(rule(letter, place, number))
}

// A pack's rows and their pairs, where its control starts, and what that says.
pub(super) struct Header<'a> {
    pub n: usize,
    pub slots: usize,
    pub control: usize,
    pub body: Body<'a>,
}

// Rules a) to d).
pub(super) fn header(bytes: &[u8]) -> Result<Header<'_>, Rule> {
    let (n, control) = read_ber_oid(bytes).map_err(|_| rule('a', 0, 1))?;
    let start = bytes.len() - control.len();
    let body = body(control).ok_or(rule('b', start, 1))?;
    hold(body.slen + body.clen > 0, 'c', start, 2)?;
    hold(n <= 256, 'd', 0, 3)?;
    Ok(Header {
        n: n as usize,
        slots: slots(n.into()),
        control: start,
        body,
    })
}

// Rules e) to g).
fn sizes(header: &Header, place: usize) -> Result<(), Rule> {
    let Header { n, slots, body, .. } = header;
    let there = body.bytes.len();
    hold(n * body.slen <= there, 'e', place, 1)?;
    hold(body.cs || slots * body.clen <= there, 'f', place, 1)?;
    hold(!body.cs || *slots <= 8 * there, 'g', place, 1)
}

// Values of one size in turn, of a form that is refused by a number or by none.
struct Values {
    letter: char,
    start: usize,
    count: usize,
    size: usize,
    refused: Option<u64>,
}

// Where they end in a pack of this length, or the first that is short or refused.
fn in_turn(values: Values, length: usize) -> Result<usize, Rule> {
    let end = |count: usize| values.start + count * values.size;
    for value in 0..values.count {
        let place = end(value);
        hold(end(value + 1) <= length, values.letter, place, 1)?;
        if let Some(number) = values.refused {
            return Err(rule(values.letter, place, number));
        }
    }
    Ok(end(values.count))
}

fn is_ieee(size: usize) -> bool {
    size == 4 || size == 8
}

// Rule h).
fn deviations(header: &Header, start: usize) -> Values {
    let Body { sf, slen, .. } = header.body;
    Values {
        letter: 'h',
        start,
        count: if slen == 0 { 0 } else { header.n },
        size: slen,
        refused: (sf || !is_ieee(slen)).then_some(2),
    }
}

// Rule j).
fn codes(header: &Header, start: usize) -> Values {
    let Body {
        cs,
        cf,
        clen,
        bytes,
        ..
    } = header.body;
    let refused = match cf {
        true => (clen > 8).then_some(4),
        false => (!is_ieee(clen)).then_some(2),
    };
    let count = match (clen, cs) {
        (0, _) => 0,
        (_, true) => ones(bytes, header.slots),
        (_, false) => header.slots,
    };
    Values {
        letter: 'j',
        start,
        count,
        size: clen,
        refused,
    }
}

// Where the five elements of a pack end that no rule refuses.
pub(super) fn ends(bytes: &[u8]) -> Result<[usize; 5], Rule> {
    let header = header(bytes)?;
    let length = bytes.len();
    let control = length - header.body.bytes.len();
    sizes(&header, control)?;
    let vector = match header.body.cs {
        true => control + header.slots.div_ceil(8),
        false => control,
    };
    let deviations = in_turn(deviations(&header, vector), length)?;
    let codes = codes(&header, deviations);
    let needed = codes.count * codes.size;
    // i)
    let is_there = !header.body.cs || needed <= length - deviations;
    hold(is_there, 'i', deviations, 1)?;
    let codes = in_turn(codes, length)?;
    // k)
    hold(codes == length, 'k', codes, 2)?;
    Ok([header.control, control, vector, deviations, codes])
}
