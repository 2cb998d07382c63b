//! .npy files with a header that is broken: at every byte, cut at every length, every size as it can be spelt, other
//! texts, and other forms.
use super::from_npy::case;
use super::from_npy_at_limits::of;
use super::npy::{header, with_text, BODY};
use super::npy_files::{with_shape, SPELT, TEXTS, TOO_LARGE};
use super::packs_at_limits::up_to_two;
use super::read::SMALL;
use super::Case;

// Whole, or without a body where that would be long.
fn light(n: u64) -> Vec<u8> {
    if n < 13 {
        of(n)
    } else {
        header(n)
    }
}

// Every other byte at every offset of one header, and those that could pass for the right one in others.
fn every_byte() -> Vec<Case> {
    let mut cases = Vec::new();
    let changed = |from: &[u8], offset: usize, byte: u8| {
        let mut file = from.to_vec();
        file[offset] = byte;
        case(SMALL, &file)
    };
    for (n, all) in [
        (1, true),
        (0, false),
        (2, false),
        (10, false),
        (256, false),
        (999_999_999, false),
    ] {
        let whole = light(n);
        for offset in 0..BODY {
            let right = whole[offset];
            let few = b"\x00\n ()',/0123456789:\x93".iter().copied();
            let near = [right ^ 0x01, right ^ 0x20, right ^ 0x80];
            let bytes: Vec<u8> = match all {
                true => (0..=u8::MAX).collect(),
                false => few.chain(near).collect(),
            };
            cases.extend(bytes.iter().map(|&byte| changed(&whole, offset, byte)));
        }
    }
    cases
}

// Cut at every byte, and with bytes left over.
fn every_cut() -> Vec<Case> {
    let mut cases = Vec::new();
    for n in [0, 1, 2, 3, 10, 100, 256, 257, 999_999_999] {
        let mut whole = light(n);
        whole.extend([0; 17]);
        cases.extend((0..=whole.len()).map(|length| case(SMALL, &whole[..length])));
    }
    // those that are no .npy file from the start
    let short = up_to_two().into_iter();
    cases.extend(short.take(300).map(|bytes| case(SMALL, &bytes)));
    cases
}

// Every two sizes in a header, and every other text, before a body that would be right of a size of 2, and of none.
fn every_text() -> Vec<Case> {
    let mut headers = Vec::new();
    for first in SPELT {
        for second in SPELT {
            headers.push(with_shape(&format!("({first}, {second})")));
        }
    }
    headers.extend(TEXTS.map(with_text));
    headers.extend(TOO_LARGE.map(header));
    headers.extend(other_forms());
    let body = &of(2)[BODY..];
    let mut cases = Vec::new();
    for header in headers {
        cases.push(case(SMALL, &[&header, body].concat()));
        cases.push(case(SMALL, &header));
    }
    cases
}

// Of other versions, of other lengths, and ended otherwise.
fn other_forms() -> Vec<Vec<u8>> {
    let plain = header(2);
    let (start, text) = plain.split_at(10);
    let magic = &start[..6];
    let mut forms = vec![
        [magic, b"\x02\x00\x74\x00\x00\x00", &text[..115], b"\n"].concat(),
        [magic, b"\x03\x00\x74\x00\x00\x00", &text[..115], b"\n"].concat(),
        [magic, b"\x01\x00\x00\x76", text].concat(),
        [magic, b"\x01\x00\x46\x00", &text[..69], b"\n"].concat(),
        [magic, b"\x01\x00\xB6\x00", &text[..117], &[b' '; 64], b"\n"].concat(),
    ];
    for end in [b"\r\n", b"\n\n", b"\n ", b"  ", b" \0"] {
        forms.push([&plain[..126], &end[..]].concat());
    }
    forms
}

pub fn limits() -> Vec<Case> {
    let groups = [every_byte, every_cut, every_text];
    groups.iter().flat_map(|group| group()).collect()
}
