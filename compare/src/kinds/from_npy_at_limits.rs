//! .npy files that are the same at every run: every size, bodies beside the length that they must have, pairs that
//! differ, every room; those whose headers are broken stand in `from_npy_headers`.
use super::from_npy::case;
use super::from_npy_headers;
use super::map::{INFINITY, SIGN};
use super::matrices::counts;
use super::npy::{header, BODY};
use super::npy_files::{file, put, SIZES};
use super::packs::{slots, LONGEST};
use super::read::{every_room_of, Rooms, LARGEST};
use super::Case;
use crate::random::Random;

// Just as much as a file of this size asks for.
fn exact(n: u64) -> Rooms {
    [n as usize, slots(n), slots(n)]
}

// The file of this size, always with the same numbers.
pub fn of(n: u64) -> Vec<u8> {
    file(&mut Random::new(n), n)
}

fn every_size() -> Vec<Case> {
    let whole = SIZES.map(|n| case(exact(n), &of(n)));
    let with_more = SIZES.map(|n| case(LARGEST, &of(n)));
    whole.into_iter().chain(with_more).collect()
}

// As long as it must be, and shorter and longer by a byte, by a number and by a row.
fn every_length() -> Vec<Case> {
    let mut cases = Vec::new();
    for n in [0, 1, 2, 3, 9, 10, 11, 16] {
        let (mut whole, row) = (of(n), 8 * n as usize);
        let length = whole.len();
        whole.resize(length + row + 9, 0);
        for off in [1, 7, 8, 9, row] {
            cases.push(case(exact(n), &whole[..length + off]));
            let shorter = length.saturating_sub(off).max(BODY);
            cases.push(case(exact(n), &whole[..shorter]));
        }
    }
    cases
}

// Each pair with each of its bits changed, on either side; numbers that are equal and not the same.
fn every_pair() -> Vec<Case> {
    let mut cases = Vec::new();
    for n in [2, 3, 4, 9] {
        for i in 0..n {
            for j in 0..n {
                cases.extend(of_cell(n, [i, j]));
            }
        }
    }
    cases
}

// On the diagonal nothing differs.
fn of_cell(n: u64, [i, j]: [u64; 2]) -> Vec<Case> {
    let mut random = Random::new(n);
    let whole = file(&mut random, n);
    let nan = INFINITY | 1;
    let mut pairs = vec![
        [0, SIGN],
        [SIGN, 0],
        [nan, nan],
        [nan, SIGN | nan],
        [nan, nan | 1 << 51],
        [INFINITY | 2, nan],
        [INFINITY, SIGN | INFINITY],
        [0x3FF0 << 48, 0xF03F],
    ];
    let bits = random.bits();
    pairs.extend((0..64).map(|bit| [bits, bits ^ 1 << bit]));
    let of_pair = |[one, other]: [u64; 2]| {
        let mut file = whole.clone();
        put(&mut file, n, [i, j], one);
        put(&mut file, n, [j, i], other);
        case(exact(n), &file)
    };
    pairs.into_iter().map(of_pair).collect()
}

// Two pairs that differ, of which the first counts, row by row.
fn two_pairs() -> Vec<Case> {
    let n = 4;
    let cells = (0..n).flat_map(|i| (0..n).map(move |j| [i, j]));
    let mut cases = Vec::new();
    for first in cells.clone() {
        for second in cells.clone() {
            let mut file = of(n);
            put(&mut file, n, first, 1);
            put(&mut file, n, second, 2);
            cases.push(case(exact(n), &file));
        }
    }
    cases
}

fn every_room() -> Vec<Case> {
    let mut cases = Vec::new();
    for n in [0, 1, 2, 3, 9, 10] {
        let whole = of(n);
        let rooms = every_room_of(n).into_iter();
        cases.extend(rooms.map(|rooms| case(rooms, &whole)));
    }
    cases
}

// Every choice of what is refused: the first in document 02's order counts.
fn every_order() -> Vec<Case> {
    let mut cases = Vec::new();
    for choice in 0..128 {
        let wrong = |place: usize| choice >> place & 1 == 1;
        let mut file = of(3);
        if wrong(2) {
            file.push(0);
        }
        if wrong(3) {
            put(&mut file, 3, [1, 2], 1);
        }
        if wrong(1) {
            file.splice(..BODY, header(257));
        }
        if wrong(0) {
            file[127] = b' ';
        }
        let room = |place: usize| if wrong(place) { 2 } else { 3 };
        cases.push(case([room(4), room(5), room(6)], &file));
    }
    cases
}

// As many rows as there can be: the last pair, each room one short, bodies beside their length, and the longest file.
fn largest() -> Vec<Case> {
    let n = 256;
    let [rows, slots] = counts(n);
    let whole = of(n);
    let mut differs = whole.clone();
    put(&mut differs, n, [n - 1, n - 2], 1);
    let mut longer = whole.clone();
    longer.resize(LONGEST, 0);
    let mut cases = vec![
        case(exact(n), &differs),
        case([0, 0, 0], &differs),
        case([rows - 1, slots, slots], &whole),
        case([rows, slots - 1, slots], &whole),
        case([rows, slots, slots - 1], &whole),
    ];
    let length = whole.len();
    for length in [length - 8, length - 1, length + 1, length + 8, LONGEST] {
        cases.push(case(exact(n), &longer[..length]));
    }
    // as many rows as the length is right for, were they not above the limit
    let body = 8 * 257 * 257;
    let above = [header(257), vec![0; body]].concat();
    cases.push(case(exact(n), &above));
    cases
}

pub fn limits() -> Vec<Case> {
    let groups = [
        every_size,
        from_npy_headers::limits,
        every_length,
        every_pair,
        two_pairs,
        every_room,
        every_order,
        largest,
    ];
    groups.iter().flat_map(|group| group()).collect()
}
