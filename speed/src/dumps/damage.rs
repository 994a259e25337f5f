//! What happens to dumps: bytes changed, taken out, put in or cut off, headers that are wrong, bytes that lie apart.

use crate::draw::Draw;

/// One change somewhere behind the header.
pub fn change(draw: &mut Draw, rom: &mut Vec<u8>) {
    if rom.len() < 10 {
        return;
    }
    let at = draw.between(8, rom.len() - 1);
    match draw.below(8) {
        0..=2 => rom[at] = draw.byte(),
        3 => rom[at] = *draw.one(&TOKENS),
        4 => rom[at] = rom[at].wrapping_add(if draw.chance(1, 2) { 1 } else { 0xFF }),
        5 => {
            rom.remove(at);
        }
        6 => rom.insert(at, if draw.chance(1, 2) { draw.byte() } else { *draw.one(&TOKENS) }),
        _ => rom.truncate(at),
    }
}

/// Bytes that stand for a token of the list, so that many changes are read on behind them.
pub const TOKENS: [u8; 40] = [
    0x00, 0x10, 0x12, 0x13, 0x14, 0x1E, 0x1F, 0x23, 0x2B, 0x30, 0x31, 0x32, 0x33, 0x34, 0x3C, 0x45, 0x46, 0x47, 0x48, 0x49, 0x4A, 0x4E,
    0x4F, 0x50, 0x52, 0x53, 0x56, 0x6D, 0x72, 0x7B, 0xA4, 0xA6, 0xB5, 0xB6, 0xB7, 0xC2, 0xC3, 0xCA, 0xCC, 0xFF,
];

/// Length and sum as they must be for the bytes that are there.
pub fn mend(rom: &mut [u8]) {
    if rom.len() < 9 {
        return;
    }
    let length = rom.len() as u32;
    rom[4..8].copy_from_slice(&length.to_be_bytes());
    let sum = rom[8..].iter().fold(0u16, |sum, byte| sum.wrapping_add(u16::from(*byte)));
    rom[2..4].copy_from_slice(&sum.to_be_bytes());
}

/// A header that is wrong somewhere, or a ROM of an odd size.
pub fn spoil_header(draw: &mut Draw, rom: &mut Vec<u8>) {
    match draw.below(8) {
        0 => rom[0] = *draw.one(&[0xF0, 0xF1, 0xF2, 0xF3, 0xFD, 0x00]),
        1 => rom[1] = draw.byte(),
        2 => rom[3] = rom[3].wrapping_add(1),
        3 => rom[7] = draw.byte(),
        4 => rom[4] = draw.byte(),
        5 => rom.truncate(draw.below(12)),
        6 => {
            // bytes behind the program have no effect, up to the largest ROM
            let size = *draw.one(&[65_535, 65_536, 65_537, 16_385, 500]);
            let filler = draw.byte();
            if rom.len() < size {
                rom.resize(size, filler);
            }
        }
        _ => {
            rom.truncate(9);
            let length = draw.between(7, 10) as u32;
            if rom.len() == 9 {
                rom[4..8].copy_from_slice(&length.to_be_bytes());
            }
        }
    }
}

/// A length that is wrong by a little, or that a product with the spread would make small in 32 bits.
fn spoil_length(draw: &mut Draw, fcode: &mut [u8]) {
    if let Some(field) = fcode.get_mut(4..8) {
        let length = u32::from_be_bytes([field[0], field[1], field[2], field[3]]);
        let high = *draw.one(&[0x4000_0000, 0x8000_0000, 0xC000_0000]);
        let other = *draw.one(&[length + 1, length - 1, length | high, high, high + 1, u32::MAX, 8, 9]);
        field.copy_from_slice(&other.to_be_bytes());
    }
}

/// The ROM of these FCode bytes with two or four bytes for each: gaps of any bytes, the last one often missing, and now and then a ROM that
/// is cut off, a byte that is another, or bytes behind.
pub fn spread(draw: &mut Draw, mut fcode: Vec<u8>, by: usize) -> Vec<u8> {
    if matches!(fcode.first(), Some(0xFD | 0xF1)) {
        fcode[0] = if by == 2 { 0xF2 } else { 0xF3 };
    }
    if draw.chance(1, 20) {
        spoil_length(draw, &mut fcode);
    }
    let sort = draw.below(4);
    let mut rom = Vec::with_capacity(by * fcode.len());
    for byte in fcode {
        rom.push(byte);
        for _ in 1..by {
            let gap = match sort {
                0 => 0x00,
                1 => 0xFF,
                2 => byte,
                _ => draw.byte(),
            };
            rom.push(gap);
        }
    }
    if draw.chance(1, 2) {
        // nothing behind the last FCode byte, or a part of its gap
        rom.truncate(rom.len().saturating_sub(draw.between(1, by - 1)));
    }
    match draw.below(60) {
        0 | 1 => rom.truncate(rom.len().saturating_sub(draw.between(1, 2 * by))),
        2 => rom.truncate(*draw.one(&[7, 8, 9, 14, 15, 16, 17, 28, 29, 30, 32, 33])),
        3 => rom.truncate(draw.below(rom.len() + 1)),
        4..=6 if !rom.is_empty() => {
            let at = draw.below(rom.len());
            rom[at] = draw.byte();
        }
        7 => {
            let size = *draw.one(&[rom.len() + 1, rom.len() + 9, 65_535, 65_536, 65_537]);
            if rom.len() < size {
                rom.resize(size, 0x7B);
            }
        }
        _ => {}
    }
    rom
}
