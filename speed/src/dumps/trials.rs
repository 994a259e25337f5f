//! ROMs for the comparison: random programs, the same damaged, knots of branches, tokens in any order, any bytes, odd headers, long ROMs,
//! and programs at the limits. One in five is spread.

use crate::damage;
use crate::draw::Draw;
use crate::knots;
use crate::writer::{with_header, Kind, Taste, Writer, MIXED};
use peer::{MARKS_SIZE, ROM_MOST, STORE_SIZE, WORK_SIZE};

/// A ROM, the sizes of the buffers that are lent, and the budget.
pub struct Trial {
    pub rom: Vec<u8>,
    pub marks: usize,
    pub work: usize,
    pub store: usize,
    pub budget: u32,
}

/// So many steps tell whether a program ends.
const TRIED: u32 = 3_000;

pub fn trial(draw: &mut Draw) -> Trial {
    let rom = if draw.chance(1, 5) { spread_rom(draw) } else { rom(draw, ROM_MOST) };
    let mut sizes = [MARKS_SIZE, WORK_SIZE, STORE_SIZE];
    if draw.chance(1, 100) {
        let size = &mut sizes[draw.below(3)];
        *size = *draw.one(&[0, 1, *size - 1, *size + 1, *size / 4]);
    }
    let budget = match draw.below(20) {
        0 => draw.below(3) as u32,
        1..=4 => draw.below(60) as u32,
        5..=9 if ends(&rom) => u32::MAX,
        _ => TRIED,
    };
    Trial { rom, marks: sizes[0], work: sizes[1], store: sizes[2], budget }
}

fn ends(rom: &[u8]) -> bool {
    let (mut work, mut store) = ([0; WORK_SIZE], [0; STORE_SIZE]);
    peer::run(rom, &mut work, &mut store, TRIED).0 != peer::SPENT
}

/// So often another program is taken, until there is one whose offsets are wide from the first, as those of a spread ROM are.
const TRIED_FOR_WIDE: usize = 6;

fn spread_rom(draw: &mut Draw) -> Vec<u8> {
    let by = *draw.one(&[2, 4]);
    let mut fcode = rom(draw, ROM_MOST / by);
    for _ in 0..TRIED_FOR_WIDE {
        if fcode.first() == Some(&0xF1) {
            break;
        }
        fcode = rom(draw, ROM_MOST / by);
    }
    damage::spread(draw, fcode, by)
}

/// A ROM that is not spread; most of them have no more than so many bytes.
fn rom(draw: &mut Draw, most: usize) -> Vec<u8> {
    match draw.below(100) {
        0..=27 => program(draw),
        28..=54 => {
            let mut rom = program(draw);
            let times = draw.between(1, 3);
            for _ in 0..times {
                damage::change(draw, &mut rom);
            }
            if draw.chance(19, 20) {
                damage::mend(&mut rom);
            }
            rom
        }
        55..=71 => knots::knot(draw),
        72..=80 => tokens(draw),
        81..=83 => {
            let count = draw.between(1, 60);
            let bytes: Vec<u8> = (0..count).map(|_| draw.byte()).collect();
            with_header(&bytes, draw.chance(1, 2))
        }
        84..=87 => {
            let mut rom = program(draw);
            damage::spoil_header(draw, &mut rom);
            rom
        }
        88 => long(draw, most),
        _ => limits(draw),
    }
}

/// A program that makes sense, with a taste of its own.
fn program(draw: &mut Draw) -> Vec<u8> {
    let mut writer = Writer::new(draw.chance(1, 3), 1_500);
    writer.in_work = draw.chance(1, 3);
    let taste = Taste {
        branch: draw.below(20),
        turns: draw.below(6),
        call: draw.below(40),
        memory: draw.below(20),
        property: draw.below(15),
        define: draw.below(20),
        device: draw.below(6),
        risk: *draw.one(&[0, 0, 10, 60]),
        ..MIXED
    };
    let statements = draw.between(1, 60);
    let widens = if draw.chance(1, 8) { draw.below(statements) } else { statements };
    for statement in 0..statements {
        if statement == widens {
            writer.widen();
        }
        writer.statement(draw, &taste);
    }
    writer.finish(draw);
    writer.rom()
}

/// Tokens of the list in any order, with operands that fit now and then.
fn tokens(draw: &mut Draw) -> Vec<u8> {
    let wide = draw.chance(1, 3);
    let mut bytes = Vec::new();
    let count = draw.between(1, 40);
    let mut height = 0i32;
    while bytes.len() < count {
        // some pushes first, or nearly every program is refused at once
        if height < 3 && draw.chance(2, 3) {
            bytes.push(0xA4 + draw.below(5) as u8);
            height += 1;
            continue;
        }
        height -= 1;
        match draw.below(8) {
            0 => bytes.extend([0x13 + draw.below(2) as u8, draw.byte() % 12]),
            1 => bytes.extend([*draw.one(&[0xB5, 0xB5, 0xCC, 0xC3]), 0x08, draw.byte() % 3, 0xB7 + draw.byte() % 4]),
            2 => bytes.extend([0x08, draw.byte() % 3]),
            3 => bytes.extend([0x01, *draw.one(&[0x10, 0x11, 0x12, 0x14, 0x19, 0x1A, 0x1F, 0x27, 0x13])]),
            4 => bytes.extend([*draw.one(&[0xC2, 0x33, 0xB5, 0x4E, 0x4F, 0x50])]),
            _ => bytes.push(draw.between(0x1E, 0x75) as u8),
        }
    }
    if draw.chance(4, 5) {
        bytes.push(0);
    }
    with_header(&bytes, wide)
}

/// A program of some size up to the largest ROM's and past it: mostly noops, with branches that lead as far as an offset reaches, and now
/// and then other tokens, at places that branches like to lead to.
fn long(draw: &mut Draw, most: usize) -> Vec<u8> {
    let size = most.min(*draw.one(&[16_384, 16_385, 32_768, 32_776, 40_000, 60_000, ROM_MOST, ROM_MOST, ROM_MOST]));
    let size = if draw.chance(1, 12) { size + 1 } else { size - draw.below(3) };
    let mut bytes = vec![0x7B; size - 8];
    if draw.chance(7, 8) {
        bytes[size - 9] = 0;
    }
    // from a place to one of its favourites: the ends of the program and of what an offset reaches, and just past them
    let mut place = 8;
    for _ in 0..draw.between(1, 8) {
        let near = draw.below(5) as isize - 2;
        let back = if place < 8 + 32_767 { 8 } else { place - 32_767 };
        let aim = *draw.one(&[8, size - 1, size, place + 32_768, place + 20_000, back, size / 2]) as isize + near;
        let offset = (aim - place as isize - 1).clamp(-32_768, 32_767) as i16;
        let token: Vec<u8> = match draw.below(4) {
            0 => [&[0xA5, 0x14][..], &(offset.saturating_sub(1)).to_be_bytes()].concat(),
            1 => [&[0xA6, 0x14][..], &(offset.saturating_sub(1)).to_be_bytes()].concat(),
            _ => [&[0x13][..], &offset.to_be_bytes()].concat(),
        };
        let at = place - 8;
        if at + token.len() > bytes.len() {
            break;
        }
        bytes[at..at + token.len()].copy_from_slice(&token);
        place = match draw.below(3) {
            0 => place + token.len() + draw.below(3),
            _ => (place as isize + 1 + isize::from(offset)).max(8) as usize,
        };
        if draw.chance(1, 6) {
            let other = *draw.one(&[&[0xA6, 0x46][..], &[0xB5, 0x08, 0x00, 0xB9], &[0xB5, 0x08, 0x01, 0xB7, 0xC2], &[0x12, 0xFF], &[0x00]]);
            let at = place - 8;
            if at + other.len() <= bytes.len() {
                bytes[at..at + other.len()].copy_from_slice(other);
                place += other.len();
            }
        }
        if place >= size {
            break;
        }
    }
    with_header(&bytes, draw.chance(15, 16))
}

/// Programs that come near a limit of the house, or just past it.
fn limits(draw: &mut Draw) -> Vec<u8> {
    let mut bytes = Vec::new();
    let near = |draw: &mut Draw, limit: usize| limit + draw.below(4) - 2;
    match draw.below(12) {
        0 => bytes.extend(vec![0xA6; near(draw, 64)]),
        1 => {
            bytes.extend([0xA6, 0x30].repeat(near(draw, 32)));
            if draw.chance(1, 2) {
                bytes.extend([0xB5, 0x08, 0x00, 0xB7, 0xA6, 0x30, 0x31, 0x46, 0xC2, 0x08, 0x00]);
            }
        }
        2 => {
            // bodies that call the one before
            let bodies = near(draw, 16) as u8;
            for number in 0..bodies {
                bytes.extend([0xB5, 0x08, number, 0xB7]);
                if number > 0 {
                    bytes.extend([0x08, number - 1]);
                }
                bytes.push(0xC2);
            }
            if draw.chance(2, 3) {
                bytes.extend([0x08, bodies - 1]);
            }
        }
        3 => {
            for number in 0..near(draw, 256) as u16 {
                bytes.push(0xB5);
                bytes.extend((0x800 + 7 * number).to_be_bytes());
                bytes.push(0xB9);
            }
        }
        4 => {
            let nodes = near(draw, 30);
            for _ in 0..nodes {
                bytes.extend([0x01, 0x1F]);
                if draw.chance(1, 2) {
                    bytes.extend([0x12, 0x01, b'a', 0x02, 0x01]);
                }
            }
            bytes.extend([0x01, 0x27].repeat(nodes + draw.below(3) - 1));
        }
        5 => {
            for number in 0..near(draw, 128) {
                let name = format!("p{number}");
                bytes.extend([0xA5, 0x10, 0x20, 0x00, 0x00, 0x00, 0x49, 0x12, name.len() as u8]);
                bytes.extend(name.bytes());
                bytes.extend([0x01, 0x10]);
            }
            // one that is replaced is never one too many
            bytes.extend([0xA5, 0x10, 0x20, 0x00, 0x00, 0x00, 0x49, 0x12, 0x02, b'p', b'7', 0x01, 0x10]);
        }
        6 => {
            // work memory filled by one string, then ints and variables
            let count = draw.between(16_360, 16_384) as u16;
            bytes.extend([0x10, 0x20, 0, 0, 0, 0x10, 0, 0]);
            bytes.extend(count.to_be_bytes());
            bytes.extend([0x01, 0x14, 0x52]);
            for number in 0..draw.below(8) as u8 {
                match draw.below(3) {
                    0 => bytes.extend([0xA4, 0x01, 0x11, 0x52]),
                    1 => bytes.extend([0xB5, 0x08, number, 0xB9]),
                    _ => bytes.extend([0x12, 0x02, 0x61, 0x62, 0x01, 0x14, 0x52]),
                }
            }
        }
        7 => {
            // the store filled by a large value, which may then be replaced
            for name in [b'a', b'b', b'a'] {
                let count = draw.between(8_150, 8_200) as u16;
                bytes.extend([0x10, 0x20, 0, 0, 0, 0x10, 0, 0]);
                bytes.extend(count.to_be_bytes());
                bytes.extend([0x12, 0x01, name, 0x01, 0x10]);
            }
            bytes.extend([0x12, 0x02, 0x61, 0x62, 0x02, 0x01]);
        }
        8 => {
            // a body at its need and peak
            let (drops, pushes) = (draw.between(0, 66), draw.between(0, 66));
            bytes.extend(vec![0xA6; drops.min(64)]);
            bytes.extend([0xB5, 0x08, 0x00, 0xB7]);
            bytes.extend(vec![0x46; drops]);
            bytes.extend(vec![0xA6; pushes]);
            bytes.push(0xC2);
            if draw.chance(1, 2) {
                bytes.extend([0x08, 0x00]);
            }
        }
        9 => {
            // branches all around the ends of the program
            let wide = draw.chance(1, 2);
            for _ in 0..draw.between(1, 6) {
                bytes.push(*draw.one(&[0xA5, 0xA6]));
                bytes.push(0x14 - draw.below(2) as u8);
                let offset = draw.between(0, 24) as i16 - 12;
                bytes.extend(&offset.to_be_bytes()[usize::from(!wide)..]);
                if bytes[bytes.len() - 1 - usize::from(wide) - 1] == 0x13 {
                    bytes.push(0x46);
                }
            }
            bytes.push(0);
            return with_header(&bytes, wide);
        }
        10 => return spaces(draw),
        _ => {
            // one byte of every token, at a height that is enough for it
            bytes.extend(vec![0xA6; draw.between(0, 8)]);
            bytes.push(draw.byte());
            bytes.extend(vec![0x46; draw.below(4)]);
        }
    }
    if draw.chance(15, 16) {
        bytes.push(0);
    }
    with_header(&bytes, draw.chance(1, 4))
}

/// A program that runs through many values, with a name for each that is good or bad.
fn spaces(draw: &mut Draw) -> Vec<u8> {
    let mut writer = Writer::new(false, 1_000);
    writer.value(draw, Kind::Variable);
    for _ in 0..draw.between(1, 12) {
        let mut name = writer.name(draw);
        if draw.chance(1, 6) {
            name[0] = if draw.chance(1, 2) { draw.byte() } else { *draw.one(b" !@AZ[\\]^_`az{~\x7F/:.0") };
        }
        if draw.chance(1, 12) {
            name.resize(draw.between(30, 33), b'x');
        }
        if draw.chance(1, 30) {
            name.clear();
        }
        writer.double(0x800, 0, 1);
        writer.literal(draw.below(40) as u32);
        writer.text(&name);
        writer.double(0x110, 4, 0);
    }
    writer.finish(draw);
    writer.rom()
}
