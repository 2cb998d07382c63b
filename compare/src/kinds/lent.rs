//! What the Rust's writers of codes are lent, and what they leave there.
use super::hex;
use crate::error::KlvEncodeError;

const MARK: u8 = 0xA5;

// Lengths of a code: all that have one, those beside them, and those that are such in their low byte or word alone.
pub const LENGTHS: [usize; 13] = [0, 1, 2, 3, 4, 5, 6, 7, 8, 9, 257, (1 << 32) + 1, usize::MAX];

pub fn lend(room: usize) -> Vec<u8> {
    vec![MARK; room]
}

// Rooms one short, exact and larger; where no code has that length, of any size.
pub fn rooms(length: usize) -> Vec<usize> {
    if length > 8 {
        return vec![0, 1, 8, 9, 12];
    }
    let mut rooms = vec![0, length, length + 1, length + 3, 300];
    rooms.extend(length.checked_sub(1));
    rooms
}

pub fn untouched(lent: &[u8]) -> bool {
    lent.iter().all(|&byte| byte == MARK)
}

// The answer where so many bytes were written and the others left.
pub fn done(lent: &[u8], length: usize) -> String {
    let (code, rest) = lent.split_at(length);
    assert!(untouched(rest));
    format!("done {length} {}", hex(code))
}

// The refusals with which every writer of codes begins.
pub fn refused(lent: &[u8], error: KlvEncodeError) -> String {
    assert!(untouched(lent));
    match error {
        KlvEncodeError::UnsupportedImapbLength { length } => format!("refused 4 {length}"),
        KlvEncodeError::BufferTooSmall { needed, got } => format!("refused 5 {needed} {got}"),
        error => panic!("{error:?}"),
    }
}
