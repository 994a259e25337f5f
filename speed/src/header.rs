//! The header and its tests.

use crate::sums;
use crate::{FIRST_PLACE, ROM_MOST};

/// A ROM with a good header.
#[derive(Clone, Copy)]
pub struct Program<'a> {
    /// The FCode bytes up to the program length, header included: whatever lies behind them or between them has no effect.
    pub bytes: &'a [u8],
    /// Whether offsets have 16 bits from the start on.
    pub wide: bool,
    /// Whether the ROM has gaps between them, so that no string of its can be handed out as a part of it.
    pub spread: bool,
}

/// Tests the header: the program, or the first of 1 to 5 that applies. The bytes of a spread ROM are gathered in `room`, and no other ROM
/// takes any.
pub fn open<'a>(rom: &'a [u8], room: &'a mut Vec<u8>) -> Result<Program<'a>, u32> {
    if rom.len() < FIRST_PLACE || rom.len() > ROM_MOST {
        return Err(1);
    }
    match rom[0] {
        start @ (0xFD | 0xF1) => Ok(Program { bytes: tested::<1>(rom, room)?, wide: start == 0xF1, spread: false }),
        0xF2 => open_spread::<2>(rom, room),
        0xF3 => open_spread::<4>(rom, room),
        _ => Err(2),
    }
}

/// Out of the way of ROMs that are not spread.
#[inline(never)]
fn open_spread<'a, const SPREAD: usize>(rom: &'a [u8], room: &'a mut Vec<u8>) -> Result<Program<'a>, u32> {
    Ok(Program { bytes: tested::<SPREAD>(rom, room)?, wide: true, spread: true })
}

/// The tests behind that of the start byte, for a ROM whose FCode bytes lie so far apart.
#[inline(always)]
fn tested<'a, const SPREAD: usize>(rom: &'a [u8], room: &'a mut Vec<u8>) -> Result<&'a [u8], u32> {
    // the place of the last byte that there is, counted in FCode bytes
    let last = (rom.len() - 1) / SPREAD;
    if last < FIRST_PLACE - 1 {
        return Err(1);
    }
    let byte = |k: usize| rom[k * SPREAD];
    if byte(1) != 8 {
        return Err(3);
    }
    let length = u32::from_be_bytes([byte(4), byte(5), byte(6), byte(7)]) as usize;
    if length < 9 || length - 1 > last {
        return Err(4);
    }
    let bytes = if SPREAD == 1 { &rom[..length] } else { gathered::<SPREAD>(rom, length, room) };
    if sums::halves(&bytes[FIRST_PLACE..]) != u16::from_be_bytes([byte(2), byte(3)]) {
        return Err(5);
    }
    Ok(bytes)
}

/// The program's FCode bytes, one behind the other. Behind the last of them there need be no gap.
fn gathered<'a, const SPREAD: usize>(rom: &[u8], length: usize, room: &'a mut Vec<u8>) -> &'a [u8] {
    let with_gaps = rom[..(length - 1) * SPREAD].chunks_exact(SPREAD);
    room.reserve_exact(length);
    room.extend(with_gaps.map(|chunk| chunk[0]));
    room.push(rom[(length - 1) * SPREAD]);
    room
}

/// The header test alone.
pub fn check(rom: &[u8]) -> u32 {
    open(rom, &mut Vec::new()).err().unwrap_or(0)
}
