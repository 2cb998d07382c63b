//! `set TROOM HEX`: the packs of an ST 0601 set, and the tags that each refines. An item's tag and length are read by
//! the Rust's `read_strict_tlv`, a pack's size by its `peek_matrix_size`. Which tags are seen and which of them a pack
//! refines is written as in decode.rs, which stands on far more of the Rust than this compiles.
use super::sets::{made, CHECKSUM, PACK};
use super::sets_at_limits::limits;
use super::{hex, Case, Kind};
use crate::klv::length::read_strict_tlv;
use crate::klv::st1010::peek_matrix_size;
use crate::random::Random;
use std::fmt::Write;
use std::ops::Range;

pub const KIND: Kind = Kind {
    name: "set",
    limits,
    random,
    share: 4,
};

// A pack's place in the set, and that of the tags that it refines in their list.
pub(super) struct Captured {
    pub(super) value: Range<usize>,
    pub(super) tags: Range<usize>,
}

// What was seen of a set.
pub(super) struct Seen {
    pub(super) packs: Vec<Captured>,
    pub(super) tags: Vec<u32>,
}

impl Seen {
    // The last N tags, or all where fewer came before.
    fn capture(&mut self, bytes: &[u8], value: Range<usize>) -> Result<(), String> {
        let n = peek_matrix_size(&bytes[value.clone()]).ok_or("refused 1 0 0")?;
        let count = self.tags.len();
        let tags = count.saturating_sub(n)..count;
        self.packs.push(Captured { value, tags });
        Ok(())
    }

    fn push(&mut self, room: usize, tag: u32) -> Result<(), String> {
        if self.tags.len() == room {
            return Err(format!("refused 5 {} {room}", room + 1));
        }
        self.tags.push(tag);
        Ok(())
    }

    fn lines(&self) -> String {
        let mut lines = format!("set {} {}", self.packs.len(), self.tags.len());
        for Captured { value, tags } in &self.packs {
            write!(lines, ";pack {} {}", value.start, value.end).unwrap();
            write!(lines, " {} {}", tags.start, tags.end).unwrap();
        }
        lines += ";tags";
        if self.tags.is_empty() {
            lines += " -";
        }
        for tag in &self.tags {
            write!(lines, " {tag}").unwrap();
        }
        lines
    }
}

// The tag of the item that starts there, and where its value is.
fn item(bytes: &[u8], at: usize) -> Option<(u32, Range<usize>)> {
    let (tag, length, taken, rest) = read_strict_tlv(&bytes[at..], at).ok()?;
    let start = at + taken;
    (length <= rest.len()).then(|| (tag, start..start + length))
}

// The refusals of an item are in document 02's order.
pub(super) fn walk(room: usize, bytes: &[u8]) -> Result<Seen, String> {
    let mut seen = Seen {
        packs: Vec::new(),
        tags: Vec::new(),
    };
    let mut at = 0;
    while at < bytes.len() {
        let (tag, value) = item(bytes, at).ok_or_else(|| format!("refused 10 {at}"))?;
        at = value.end;
        match tag {
            PACK => seen.capture(bytes, value)?,
            CHECKSUM => {}
            _ => seen.push(room, tag)?,
        }
    }
    Ok(seen)
}

pub(super) fn case(room: usize, bytes: &[u8]) -> Case {
    let walked = walk(room, bytes);
    Case {
        request: format!("set {room} {}", hex(bytes)),
        answer: walked.map_or_else(|refused| refused, |seen| seen.lines()),
    }
}

// Room for all tags mostly, and sometimes for fewer.
fn random(random: &mut Random) -> Case {
    let (bytes, tags) = made(random);
    let room = match random.below(8) {
        0 => random.below(tags as u64 + 1) as usize,
        1 => tags.saturating_sub(1),
        2 => tags + random.below(4) as usize,
        _ => tags,
    };
    case(room, &bytes)
}
