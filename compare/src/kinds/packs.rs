//! Packs of every layout, element by element.
use super::oid::spelled;
use crate::random::Random;

// The bytes of a pack that a request has to be taken with.
pub const LONGEST: usize = 600_000;

// What Parse Control says; `ignored` are the bits of its two bytes in Mode 2 that say nothing.
#[derive(Clone, Copy)]
pub struct Control {
    pub mode2: bool,
    pub cs: bool,
    pub cf: bool,
    pub clen: u8,
    pub sf: bool,
    pub slen: u8,
    pub ignored: [u8; 2],
}

impl Control {
    // Of Mode 2, with IEEE deviations.
    pub fn of(cs: bool, cf: bool, clen: u8, slen: u8) -> Control {
        Control {
            mode2: true,
            cs,
            cf,
            clen,
            sf: false,
            slen,
            ignored: [0, 0],
        }
    }

    fn bytes(&self) -> Vec<u8> {
        let cs = u8::from(self.cs);
        if !self.mode2 {
            return vec![self.slen << 4 | cs << 3 | self.clen];
        }
        vec![
            0x80 | cs << 5 | u8::from(self.cf) << 4 | self.clen | self.ignored[0] & 0x40,
            u8::from(self.sf) << 4 | self.slen | self.ignored[1] & 0xE0,
        ]
    }
}

// Every Parse Control of either mode, but for the bits that say nothing.
pub fn controls() -> Vec<Control> {
    let mut controls = Vec::new();
    for bits in 0..1u16 << 11 {
        let flag = |place: u16| bits >> place & 1 == 1;
        let mut control = Control::of(flag(8), flag(9), bits as u8 & 15, bits as u8 >> 4);
        control.sf = flag(10);
        controls.push(control);
        // what Mode 1 can say
        if control.clen < 8 && control.slen < 8 && control.cf && !control.sf {
            control.mode2 = false;
            controls.push(control);
        }
    }
    controls
}

// How many pairs of rows there are, of a size that a pack can have.
pub fn slots(n: u64) -> usize {
    (n * n.saturating_sub(1) / 2) as usize
}

// A pack, and where its elements end.
pub struct Pack {
    pub bytes: Vec<u8>,
    pub ends: Vec<usize>,
}

impl Pack {
    fn element(&mut self, bytes: Vec<u8>) {
        self.bytes.extend(bytes);
        self.ends.push(self.bytes.len());
    }
}

// The pack of a size, which some 80s go before. A size that no pack can have comes with no numbers.
pub fn pack(random: &mut Random, n: u64, padding: u64, control: Control) -> Pack {
    let mut pack = Pack {
        bytes: Vec::new(),
        ends: Vec::new(),
    };
    pack.element(spelled(n, padding));
    pack.element(control.bytes());
    let rows = if n > 256 { 0 } else { n };
    let mut present = slots(rows);
    if control.cs {
        let vector = vector(random, slots(rows));
        present = ones(&vector, slots(rows));
        pack.element(vector);
    }
    let deviations = (0..rows).flat_map(|_| ieee(random, control.slen));
    pack.element(deviations.collect());
    let codes = (0..present).flat_map(|_| correlation(random, control));
    pack.element(codes.collect());
    pack
}

// A Bit Vector with few bits or many, and whatever padding.
fn vector(random: &mut Random, slots: usize) -> Vec<u8> {
    let density = random.below(5);
    let byte = |_| match density {
        0 => random.pick(&[0x00, 0x00, 0x01, 0x80]),
        1 => 0xFF,
        2 => random.byte() & random.byte() & random.byte(),
        3 => random.byte() | random.byte(),
        _ => random.byte(),
    };
    (0..slots.div_ceil(8)).map(byte).collect()
}

// How many of the first so many bits are set.
pub fn ones(vector: &[u8], slots: usize) -> usize {
    let is_set = |slot: &usize| vector[slot / 8] >> (7 - slot % 8) & 1 == 1;
    (0..slots).filter(is_set).count()
}

// The bytes of a deviation, or of a correlation that is not mapped: any bits, and what is no number.
fn ieee(random: &mut Random, length: u8) -> Vec<u8> {
    let mut bytes: Vec<u8> = (0..length).map(|_| random.byte()).collect();
    let head: &[u8] = match random.below(6) {
        0 => random.pick(&[&[0x7F, 0x80, 0x00, 0x00], &[0xFF, 0xF0, 0, 0, 0, 0, 0, 0]]),
        1 => random.pick(&[&[0x7F, 0x80], &[0x7F, 0xF0]]),
        2 => random.pick(&[&[0xFF, 0xBF, 0xFF, 0xFF], &[0xFF, 0xC0], &[0xFF, 0xF8]]),
        3 => random.pick(&[
            &[0x00, 0x00],
            &[0x80, 0x00, 0x00],
            &[0x00, 0x00, 0x00, 0x00],
        ]),
        4 => &[0x3F],
        _ => &[],
    };
    for (byte, head) in bytes.iter_mut().zip(head) {
        *byte = *head;
    }
    bytes
}

// Turns a code into that of 1, of a family's start or of E1, or the next above it.
fn to_start(code: &mut [u8]) {
    let [first, rest @ ..] = code else {
        return;
    };
    *first = match first {
        0x00..=0x7F => 0x80,
        _ => *first & 0xF9 | 0xC0,
    };
    if let [middle @ .., last] = rest {
        middle.fill(0x00);
        *last &= 1;
    }
}

fn correlation(random: &mut Random, control: Control) -> Vec<u8> {
    if !control.cf && control.mode2 {
        return ieee(random, control.clen);
    }
    let mut bytes: Vec<u8> = (0..control.clen).map(|_| random.byte()).collect();
    let (first, rest) = match random.below(8) {
        // at 1, just above it, and as far above as there are codes
        0 => (
            random.pick(&[0x7F, 0x80, 0x81, 0xBF]),
            random.pick(&[0x00, 0x01, 0xFF]),
        ),
        // of some family, with no payload or with one
        1 => (random.byte() | 0xC0, 0x00),
        2 => (random.byte() | 0xC0, random.byte()),
        // without a draw, so that all else is drawn as it was
        3 => {
            to_start(&mut bytes);
            return bytes;
        }
        _ => return bytes,
    };
    bytes.fill(rest);
    if let Some(byte) = bytes.first_mut() {
        *byte = first;
    }
    bytes
}
