//! What the program `set` prints: the first line, and of each pack its place, its tags and what the Rust's
//! `decode_sdcc_flp` reads of it.
use super::packs::{self, Control};
use super::print::TOO_BIG;
use super::read;
use super::set::{walk, Captured, Seen};
use super::sets::{item, made, pack, PACK};
use crate::program::Input;
use crate::random::Random;

// The most that the program reads, which is added.
pub(super) const BYTES: usize = 600_000;

fn of_pack(bytes: &[u8], seen: &Seen, captured: &Captured) -> String {
    let Captured { value, tags } = captured;
    let place = format!("pack {} {}\ntags", value.start, value.end);
    let refined: String = seen.tags[tags.clone()]
        .iter()
        .map(|tag| format!(" {tag}"))
        .collect();
    let refined = if tags.is_empty() { " -" } else { &refined };
    let answer = read::answer(read::LARGEST, &bytes[value.clone()]).replace(';', "\n");
    format!("{place}{refined}\n{answer}\n")
}

// All that it writes, each line with its newline.
pub fn printed(bytes: &[u8]) -> String {
    if bytes.len() > BYTES {
        return TOO_BIG.to_string();
    }
    let seen = match walk(usize::MAX, bytes) {
        Err(refused) => return refused + "\n",
        Ok(seen) => seen,
    };
    let mut text = format!("set {} {}\n", seen.packs.len(), seen.tags.len());
    for captured in &seen.packs {
        text += &of_pack(bytes, &seen, captured);
    }
    text
}

// Packs of the most rows, full and sparse, among tags.
fn of_most_rows(random: &mut Random) -> Vec<u8> {
    let mut set = item(2, &[]).repeat(300);
    for (cs, clen, slen) in [(false, 2, 4), (true, 1, 8), (false, 0, 4)] {
        let largest = packs::pack(random, 256, 0, Control::of(cs, true, clen, slen));
        set.extend(item(PACK, &largest.bytes));
        set.extend(item(u32::MAX, &[]));
    }
    set
}

// As many bytes as are read, and one more.
fn longest(random: &mut Random) -> Vec<Vec<u8>> {
    let wanted = item(PACK, &pack(random, 3));
    let set = [item(13, &[]).repeat(BYTES / 2), wanted].concat();
    [BYTES, BYTES + 1]
        .map(|length| set[set.len() - length..].to_vec())
        .to_vec()
}

// How many sets at random, whole and faulty.
const RUNS: usize = 1000;

pub fn inputs(random: &mut Random) -> Vec<Input> {
    let mut sets: Vec<Vec<u8>> = (0..RUNS).map(|_| made(random).0).collect();
    let by_byte = sets[0].clone();
    sets.extend([Vec::new(), of_most_rows(random)]);
    sets.extend(longest(random));
    let at_once = sets.into_iter().map(Input::at_once);
    at_once.chain([Input::by_byte(by_byte)]).collect()
}
