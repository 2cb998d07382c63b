//! Document 02's .npy files, made and read by plain loops: the Rust has none of its own.
use std::io::Write;

const BODY: usize = 128;
const LIMIT: usize = 256;

// Where the header's first number starts, and the digits that it may have.
const NUMBER: usize = 61;
const DIGITS: usize = 9;

pub fn length(n: usize) -> usize {
    BODY + 8 * n * n
}

fn slots(n: usize) -> usize {
    n * n.saturating_sub(1) / 2
}

fn header(n: usize) -> [u8; BODY] {
    let mut header = [b' '; BODY];
    header[..10].copy_from_slice(b"\x93NUMPY\x01\x00\x76\x00");
    let text = format_args!("{{'descr': '<f8', 'fortran_order': False, 'shape': ({n}, {n}), }}");
    write!(&mut header[10..], "{text}").expect("it fits");
    header[BODY - 1] = b'\n';
    header
}

fn put(entry: &mut [u8], number: f64) {
    entry.copy_from_slice(&number.to_le_bytes());
}

fn number(entry: &[u8]) -> f64 {
    f64::from_le_bytes(entry.try_into().expect("it has eight bytes"))
}

// The file's length, or nothing where it is refused.
pub fn export(n: usize, deviations: &[f64], correlations: &[f64], out: &mut [u8]) -> Option<usize> {
    let fits = n <= LIMIT && deviations.len() == n && correlations.len() == slots(n);
    if !fits || out.len() < length(n) {
        return None;
    }
    let (head, body) = out[..length(n)].split_at_mut(BODY);
    head.copy_from_slice(&header(n));
    let mut start = 0;
    for (i, row) in body.chunks_exact_mut(8 * n.max(1)).enumerate() {
        let (left, rest) = row.split_at_mut(8 * i);
        let (diagonal, right) = rest.split_at_mut(8);
        // the slots of a column, which lie one closer in each row
        let mut slot = i.saturating_sub(1);
        for (j, entry) in left.chunks_exact_mut(8).enumerate() {
            put(entry, correlations[slot]);
            slot += n - 2 - j;
        }
        put(diagonal, deviations[i]);
        let of_row = &correlations[start..][..n - 1 - i];
        for (entry, &correlation) in right.chunks_exact_mut(8).zip(of_row) {
            put(entry, correlation);
        }
        start += of_row.len();
    }
    Some(length(n))
}

// The N of a header that is whole.
fn size(file: &[u8]) -> Option<usize> {
    let head = file.get(..BODY)?;
    let number = head[NUMBER..][..DIGITS].iter();
    let digits = number.take_while(|byte| byte.is_ascii_digit());
    let n = digits.fold(0, |n, digit| 10 * n + usize::from(digit - b'0'));
    (head == header(n)).then_some(n)
}

// Whether each entry above the diagonal is the same, bit for bit, as the one across it.
fn is_symmetric(n: usize, body: &[u8]) -> bool {
    (0..n.saturating_sub(1)).all(|i| {
        let row = body[8 * (n * i + i + 1)..][..8 * (n - 1 - i)].chunks_exact(8);
        let column = body[8 * (n * (i + 1) + i)..].chunks(8 * n);
        row.zip(column).all(|(above, below)| *above == below[..8])
    })
}

// The slots stored, or nothing where the file is refused.
pub fn import(
    file: &[u8],
    deviations: &mut [f64],
    correlations: &mut [f64],
    present: &mut [bool],
) -> Option<usize> {
    let n = size(file).filter(|&n| n <= LIMIT && file.len() == length(n))?;
    let body = &file[BODY..];
    let slots = slots(n);
    let fits = deviations.len() >= n && correlations.len() >= slots && present.len() >= slots;
    if !is_symmetric(n, body) || !fits {
        return None;
    }
    let mut start = 0;
    for (i, row) in body.chunks_exact(8 * n.max(1)).enumerate() {
        deviations[i] = number(&row[8 * i..][..8]);
        let of_row = &mut correlations[start..][..n - 1 - i];
        let entries = row[8 * (i + 1)..].chunks_exact(8);
        for (correlation, entry) in of_row.iter_mut().zip(entries) {
            *correlation = number(entry);
        }
        start += of_row.len();
    }
    present[..slots].fill(true);
    Some(slots)
}
