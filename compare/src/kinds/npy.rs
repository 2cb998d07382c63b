//! NumPy's .npy files, from document 02's text alone: the Rust has none.
use super::matrices::Matrix;
use super::packs::slots;
use super::write::ROWS;

// Where the body starts, and where the header's first number does.
pub const BODY: usize = 128;
pub const NUMBER: usize = 61;

// The magic and version 1.0, the length of what is left of the header, and its text.
pub fn header(n: u64) -> Vec<u8> {
    let text = format!("{{'descr': '<f8', 'fortran_order': False, 'shape': ({n}, {n}), }}");
    with_text(&text)
}

pub fn with_text(text: &str) -> Vec<u8> {
    let mut header = b"\x93NUMPY\x01\x00\x76\x00".to_vec();
    header.extend(format!("{text:117}\n").bytes());
    header
}

// The whole file, or the refusal before which no room is looked at.
pub fn exported(matrix: &Matrix) -> Result<Vec<u8>, String> {
    let Matrix {
        n,
        deviations,
        correlations,
    } = matrix;
    if *n > ROWS as u64 {
        return Err(format!("refused 3 {n} 0 {ROWS}"));
    }
    for (needed, got) in [
        (*n as usize, deviations.len()),
        (slots(*n), correlations.len()),
    ] {
        if needed != got {
            return Err(format!("refused 2 {needed} {got}"));
        }
    }
    let cells = cells(deviations, correlations);
    let body = cells.into_iter().flat_map(u64::to_le_bytes);
    Ok(header(*n).into_iter().chain(body).collect())
}

// Row by row, with each correlation on both sides of the diagonal.
fn cells(deviations: &[u64], correlations: &[u64]) -> Vec<u64> {
    let n = deviations.len();
    let mut cells = vec![0; n * n];
    let mut next = correlations.iter();
    for i in 0..n {
        cells[n * i + i] = deviations[i];
        for j in i + 1..n {
            let correlation = *next.next().unwrap();
            cells[n * i + j] = correlation;
            cells[n * j + i] = correlation;
        }
    }
    cells
}

// The matrix of a file, or the refusal before which no room is looked at.
pub fn imported(file: &[u8]) -> Result<Matrix, String> {
    let n = size(file).map_err(|offset| format!("refused 11 {offset}"))?;
    if n > ROWS as u64 {
        return Err(format!("refused 3 {n} 0 {ROWS}"));
    }
    let (needed, got) = (8 * (n * n) as usize, file.len() - BODY);
    if needed != got {
        return Err(format!("refused 2 {needed} {got}"));
    }
    let cells: Vec<u64> = file[BODY..].chunks(8).map(number).collect();
    let cell = |i: u64, j: u64| cells[(n * i + j) as usize];
    let pairs = || (0..n).flat_map(|i| (i + 1..n).map(move |j| (i, j)));
    if let Some((i, j)) = pairs().find(|&(i, j)| cell(i, j) != cell(j, i)) {
        return Err(format!("refused 12 {i} {j}"));
    }
    Ok(Matrix {
        n,
        deviations: (0..n).map(|i| cell(i, i)).collect(),
        correlations: pairs().map(|(i, j)| cell(i, j)).collect(),
    })
}

fn number(bytes: &[u8]) -> u64 {
    u64::from_le_bytes(bytes.try_into().unwrap())
}

// The header's N, or the offset of the first byte that breaks it or is missing.
fn size(file: &[u8]) -> Result<u64, usize> {
    let n = first_number(file);
    let header = header(n);
    match (0..BODY).find(|&at| file.get(at) != Some(&header[at])) {
        Some(offset) => Err(offset),
        None => Ok(n),
    }
}

// One digit where that is 0, otherwise at most nine. Where there is none it is 0, whose digit is then missing.
fn first_number(file: &[u8]) -> u64 {
    let from = file.get(NUMBER..).unwrap_or(&[]);
    let most = if from.first() == Some(&b'0') { 1 } else { 9 };
    let digits = from
        .iter()
        .take(most)
        .take_while(|byte| byte.is_ascii_digit());
    digits.fold(0, |value, digit| 10 * value + u64::from(digit - b'0'))
}
