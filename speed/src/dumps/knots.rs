//! Short programs in which nearly every token leaves the heights as they were, and branches go anywhere near. Whether they pass hangs on
//! the screen's other rules: overlaps, spans, token starts, numbers and nodes.

use crate::draw::Draw;
use crate::writer::with_header;

/// Numbers whose second byte is a token of no effect too, so that a branch may lead into a call without a change of heights.
const NUMBERS: [[u8; 2]; 5] = [[0x08, 0x7B], [0x08, 0xB1], [0x08, 0xB2], [0x0F, 0x7B], [0x08, 0x00]];

struct Knot {
    bytes: Vec<u8>,
    wide: bool,
    start_wide: bool,
    /// Where tokens start.
    starts: Vec<usize>,
    /// Where offsets are to be set: the place, the width, and the tokens among which the aim is drawn.
    offsets: Vec<(usize, bool, usize)>,
    defined: Vec<[u8; 2]>,
    open: usize,
}

pub fn knot(draw: &mut Draw) -> Vec<u8> {
    let wide = draw.chance(1, 3);
    let mut knot =
        Knot { bytes: Vec::new(), wide, start_wide: wide, starts: Vec::new(), offsets: Vec::new(), defined: Vec::new(), open: 0 };
    for _ in 0..draw.between(2, 12) {
        match draw.below(10) {
            0 | 1 => knot.define(draw),
            2 => knot.device(draw),
            3 if draw.chance(1, 4) => {
                knot.token(&[0xCC]);
                knot.wide = true;
            }
            _ => knot.neutral(draw, false),
        }
    }
    // sometimes one is left open, or one too many finished
    let closed = if draw.chance(1, 12) { draw.below(3) } else { knot.open };
    for _ in 0..closed {
        knot.token(&[0x01, 0x27]);
    }
    knot.token(&[0x00]);
    knot.set_offsets(draw);
    with_header(&knot.bytes, knot.start_wide)
}

impl Knot {
    fn token(&mut self, bytes: &[u8]) {
        self.starts.push(self.bytes.len());
        self.bytes.extend(bytes);
    }

    fn branch(&mut self, byte: u8) {
        self.token(&[byte]);
        self.offsets.push((self.bytes.len(), self.wide, self.starts.len()));
        self.bytes.extend(if self.wide { &[0, 0][..] } else { &[0][..] });
    }

    fn neutral(&mut self, draw: &mut Draw, within: bool) {
        match draw.below(12) {
            0 | 1 => self.token(&[*draw.one(&[0x7B, 0xB1, 0xB2])]),
            2 => {
                self.token(&[0xA6]);
                self.token(&[0x46]);
            }
            3 | 4 => {
                self.token(&[*draw.one(&[0xA5, 0xA6])]);
                self.branch(0x14);
            }
            5 => self.branch(0x13),
            6 => {
                self.token(&[0x10, 0x7B, 0xA6, 0x46, 0x7B]);
                self.token(&[0x46]);
            }
            7 => {
                self.token(&[0x12, 0x02, 0xA6, 0x7B]);
                self.token(&[0x52]);
            }
            8 if draw.chance(1, 3) => {
                self.token(&[0xA6]);
                self.token(&[0x30]);
                self.token(&[0x31]);
                self.token(&[0x46]);
            }
            9 if within => self.token(&[0x33]),
            9 if draw.chance(1, 4) => self.token(&[*draw.one(&[0x00, 0xFF])]),
            10 if draw.chance(1, 20) => self.token(&[*draw.one(&[0x33, 0xC2, 0xB7, 0xB9, 0x00, 0x4E, 0x11, 0xA6, 0x46])]),
            11 if draw.chance(1, 4) && !self.defined.is_empty() => self.overlap(draw),
            _ => {
                if draw.chance(1, 30) || self.defined.is_empty() {
                    let number = *draw.one(&NUMBERS);
                    self.token(&if self.defined.is_empty() { [0x7B, 0x7B] } else { number });
                } else {
                    let number = *draw.one(&self.defined);
                    self.token(&number);
                }
            }
        }
    }

    /// A call, and a branch into it: the one is met first or the other.
    fn overlap(&mut self, draw: &mut Draw) {
        let number = *draw.one(&self.defined);
        let into = draw.below(2) as u8;
        self.token(&[0xA5]);
        if self.wide {
            self.token(&[0x14, 0x00, 5 + into]);
            self.token(&[0x13, 0x00, 3 - into]);
        } else {
            self.token(&[0x14, 3 + into]);
            self.token(&[0x13, 2 - into]);
        }
        self.token(&number);
    }

    /// A body that leaves the heights as they were, or rarely one cell more on a stack.
    fn define(&mut self, draw: &mut Draw) {
        let number = *draw.one(&NUMBERS);
        if self.defined.contains(&number) && !draw.chance(1, 12) {
            return self.neutral(draw, false);
        }
        if draw.chance(1, 4) {
            // a number that no call uses here, so that its cell is of no account
            self.token(&[0xB5, 0x09, draw.byte() % 16, 0xB9]);
            return;
        }
        self.token(&[0xB5, number[0], number[1], 0xB7]);
        for _ in 0..draw.below(6) {
            self.neutral(draw, true);
        }
        if draw.chance(1, 12) {
            self.token(&[0xA6]);
            if draw.chance(1, 2) {
                self.token(&[0x30]);
            }
        }
        self.token(&[0xC2]);
        self.defined.push(number);
    }

    fn device(&mut self, draw: &mut Draw) {
        if self.open > 0 && draw.chance(1, 2) {
            self.token(&[0x01, 0x27]);
            self.open -= 1;
        } else {
            self.token(&[0x01, 0x1F]);
            self.open += 1;
        }
    }

    /// Each branch goes to a token near it, forward mostly, now and then into one or to anywhere.
    fn set_offsets(&mut self, draw: &mut Draw) {
        for (at, wide, token) in std::mem::take(&mut self.offsets) {
            let far = draw.below(5);
            let near = if draw.chance(3, 4) { (token + far).min(self.starts.len() - 1) } else { token.saturating_sub(far + 1) };
            let mut aim = self.starts[near];
            if draw.chance(1, 6) {
                aim += 1;
            }
            let offset = if draw.chance(1, 30) { i16::from(draw.byte() as i8) } else { (aim as isize - at as isize) as i16 };
            if wide {
                self.bytes[at..at + 2].copy_from_slice(&offset.to_be_bytes());
            } else {
                self.bytes[at] = offset as u8;
            }
        }
    }
}
