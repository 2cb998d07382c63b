//! The errors that the modules make, with the fields that error.rs gives them.

#[derive(Debug)]
pub enum KlvDecodeError {
    Truncated {
        offset: usize,
        needed: usize,
        have: usize,
    },
    MalformedLength {
        offset: usize,
    },
    LengthOverflow {
        value: u64,
    },
    MalformedTag {
        offset: usize,
    },
    NonCanonicalLength {
        offset: usize,
    },
    NonCanonicalTag {
        offset: usize,
    },
}

#[derive(Debug)]
pub enum KlvEncodeError {
    BufferTooSmall {
        needed: usize,
        got: usize,
    },
    RecordTooLarge,
    OutOfRange {
        tag: u32,
        value: f64,
        min: f64,
        max: f64,
        hint: Option<&'static str>,
    },
    UnsupportedImapbLength {
        length: usize,
    },
    InvalidImapbParams {
        min: f64,
        max: f64,
        length: u8,
    },
}

#[derive(Debug)]
pub enum KlvFieldError {
    OutOfRange {
        tag: u32,
        value: f64,
        min: f64,
        max: f64,
    },
    InvalidLength {
        tag: u32,
        expected: usize,
        got: usize,
    },
    TruncatedField {
        tag: u32,
    },
    UnsupportedImapbLength {
        length: usize,
    },
    InvalidImapbParams {
        min: f64,
        max: f64,
        length: u8,
    },
}
