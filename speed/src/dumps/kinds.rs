//! Dumps by kind, of a size between 0.5 and 16 KB, large ones up to 64 KB, for the times.

use crate::damage;
use crate::draw::Draw;
use crate::writer::{with_header, Kind, Taste, Writer, MIXED};

/// The kinds, in the order in which they are shown.
pub const KINDS: [&str; 14] = [
    "driver", "large", "compute", "call", "memory", "property", "spoilt", "crafted", "tiny", "apart-1", "apart-2", "apart-4", "tiny-2",
    "tiny-4",
];

/// A run's budget when it is timed.
pub const BUDGET: u64 = 100_000;

pub fn dump(kind: &str, draw: &mut Draw, index: usize) -> Vec<u8> {
    // small dumps are as frequent as large ones
    let size = draw.between(0, 500) * draw.between(0, 31) + 500;
    match kind {
        "driver" => driver(draw, size),
        "large" => {
            let size = draw.between(20_000, 64_000);
            driver(draw, size)
        }
        "compute" => looping(draw, size, &COMPUTE, 1),
        "call" => looping(draw, size, &CALLS, 12),
        "memory" => looping(draw, size, &MEMORY, 2),
        "property" => properties(draw, size),
        "spoilt" => spoilt(draw, size),
        "crafted" => crafted(draw, index),
        // the same programs, since kinds with names of one length are drawn alike
        "apart-1" => apart(draw, size, 1),
        "apart-2" => apart(draw, size, 2),
        "apart-4" => apart(draw, size, 4),
        "tiny-2" => laid_apart(draw, &tiny(), 2),
        "tiny-4" => laid_apart(draw, &tiny(), 4),
        _ => tiny(),
    }
}

fn tiny() -> Vec<u8> {
    with_header(&[0xA6, 0x00], false)
}

/// Drivers whose strings are put into work memory, as those of a spread ROM must be, with 16 bits of offset: not spread, and spread.
fn apart(draw: &mut Draw, size: usize, by: usize) -> Vec<u8> {
    let mut writer = Writer::new(true, 20_000);
    writer.in_work = true;
    // the last statement may be long, and 16,384 bytes are as many as fit four apart
    let rom = driven(draw, size * 7 / 8, writer);
    laid_apart(draw, &rom, by)
}

/// A ROM spread by so many, with gaps of any bytes.
fn laid_apart(draw: &mut Draw, fcode: &[u8], by: usize) -> Vec<u8> {
    if by == 1 {
        return fcode.to_vec();
    }
    let mut rom: Vec<u8> = (0..by * fcode.len()).map(|_| draw.byte()).collect();
    for (place, byte) in rom.iter_mut().step_by(by).zip(fcode) {
        *place = *byte;
    }
    rom[0] = if by == 2 { 0xF2 } else { 0xF3 };
    rom
}

const QUIET: Taste = Taste {
    reckon: 0,
    shuffle: 0,
    branch: 0,
    turns: 0,
    call: 0,
    memory: 0,
    text: 0,
    property: 0,
    define: 0,
    device: 0,
    returns: 0,
    risk: 0,
};
const COMPUTE: Taste = Taste { reckon: 60, shuffle: 30, branch: 6, returns: 3, ..QUIET };
const CALLS: Taste = Taste { reckon: 20, shuffle: 10, branch: 4, call: 60, returns: 2, ..QUIET };
const MEMORY: Taste = Taste { reckon: 15, shuffle: 10, branch: 3, memory: 60, ..QUIET };
const DRIVER: Taste = Taste { property: 0, define: 0, device: 0, risk: 0, turns: 1, ..MIXED };

/// What drivers are: a name, constants and variables, bodies, properties, some children, a few calls.
fn driver(draw: &mut Draw, size: usize) -> Vec<u8> {
    let writer = Writer::new(draw.chance(1, 2), 20_000);
    driven(draw, size, writer)
}

fn driven(draw: &mut Draw, size: usize, mut writer: Writer) -> Vec<u8> {
    writer.value_string(b"sensor");
    writer.double(0x201, 2, 0);
    let bodies = size / 70;
    while writer.bytes.len() < size {
        match draw.below(12) {
            0..=4 if writer.numbers() < 240 => {
                // where there are too few numbers for the size the bodies are longer
                let most = if bodies > 200 { 30 } else { 14 };
                let statements = draw.between(3, most);
                writer.body(draw, &DRIVER, statements);
            }
            5 if writer.numbers() < 240 => {
                let kind = *draw.one(&[Kind::Value, Kind::Variable, Kind::Constant]);
                writer.value(draw, kind);
            }
            6..=8 if writer.properties < 110 => writer.property(draw),
            9 if draw.chance(1, 3) => writer.device(draw),
            10 => writer.call_body(draw),
            _ => writer.statement(draw, &DRIVER),
        }
        writer.settle(0);
    }
    writer.finish(draw);
    writer.rom()
}

/// Loops that would spend the budget, over statements of one taste.
fn looping(draw: &mut Draw, size: usize, taste: &Taste, bodies: usize) -> Vec<u8> {
    let mut writer = Writer::new(true, 4 * BUDGET);
    for _ in 0..4 {
        for kind in [Kind::Value, Kind::Variable, Kind::Constant] {
            writer.value(draw, kind);
        }
    }
    let bodies = bodies + bodies * size / 1_000;
    for _ in 0..bodies.min(200) {
        let statements = draw.between(2, 8);
        writer.body(draw, taste, statements);
    }
    let loops = 1 + size / 1_000;
    while writer.bytes.len() < size {
        writer.settle(3);
        let statements = draw.between(6, 30);
        writer.turns(draw, taste, statements, 4 * BUDGET / loops as u64 / statements as u64);
    }
    writer.settle(0);
    writer.finish(draw);
    writer.rom()
}

/// Many properties on many nodes; their values are written again and again.
fn properties(draw: &mut Draw, size: usize) -> Vec<u8> {
    let mut writer = Writer::new(true, 30_000);
    let taste = Taste { property: 10, reckon: 1, ..QUIET };
    for _ in 0..3 {
        writer.value(draw, Kind::Variable);
    }
    while writer.bytes.len() < size * 3 / 4 && writer.properties < 100 {
        if draw.chance(1, 8) {
            writer.device(draw);
        }
        writer.property(draw);
    }
    while writer.bytes.len() < size {
        let (statements, times) = (draw.between(2, 12), draw.between(1, 40) as u64);
        writer.turns(draw, &taste, statements, times);
        writer.settle(0);
    }
    writer.finish(draw);
    writer.rom()
}

/// Dumps of the other kinds with a few bytes changed or cut off; most have their sum mended, so that they are read.
fn spoilt(draw: &mut Draw, size: usize) -> Vec<u8> {
    let mut rom = match draw.below(4) {
        0 => looping(draw, size, &COMPUTE, 1),
        1 => properties(draw, size),
        _ => driver(draw, size),
    };
    let times = draw.between(1, 3);
    for _ in 0..times {
        damage::change(draw, &mut rom);
    }
    if draw.chance(7, 8) {
        damage::mend(&mut rom);
    }
    rom
}

/// ROMs made to hurt, each of another sort.
fn crafted(draw: &mut Draw, index: usize) -> Vec<u8> {
    let large = draw.between(2_000, 16_000);
    match index % 10 {
        0 => zigzag(large),
        1 => every_choice(large),
        2 => chain_of_bodies(2),
        3 => many_bodies(draw),
        4 => front_of_a_full_store(draw),
        5 => last_of_many_properties(),
        6 => deep_rolls(),
        7 => long_strings(draw, large),
        8 => large_values(draw),
        _ => pushes_and_drops(large),
    }
}

/// bbranch from the front half to the back half and back again, so that no two tokens that follow each other lie close.
fn zigzag(size: usize) -> Vec<u8> {
    let pairs = (size - 10) / 6;
    let half = 3 * pairs;
    let mut bytes = Vec::new();
    let mut branch = |at: usize, to: usize| {
        let offset = (to as isize - at as isize - 1) as i16;
        bytes.push(0x13);
        bytes.extend(offset.to_be_bytes());
    };
    for pair in 0..pairs {
        branch(3 * pair, half + 3 * pair);
    }
    for pair in 0..pairs {
        let back = if pair + 1 == pairs { 0 } else { 3 * (pair + 1) };
        branch(half + 3 * pair, back);
    }
    with_header(&bytes, true)
}

/// Nothing but choices, each to the end of the program or to its front, and there a branch to the front.
fn every_choice(size: usize) -> Vec<u8> {
    let end = (size as isize - 16) / 4 * 4;
    let mut bytes = Vec::new();
    for at in (0..end).step_by(4) {
        let to = if at % 3 == 0 { 0 } else { end };
        bytes.extend([0xA6, 0x14]);
        bytes.extend(((to - at - 2) as i16).to_be_bytes());
    }
    bytes.push(0x13);
    bytes.extend(((-end - 1) as i16).to_be_bytes());
    with_header(&bytes, true)
}

/// Sixteen bodies, each of which calls the one before some times.
fn chain_of_bodies(times: usize) -> Vec<u8> {
    let mut bytes = Vec::new();
    for number in 0u8..16 {
        bytes.extend([0xB5, 0x08, number, 0xB7]);
        if number > 0 {
            for _ in 0..times {
                bytes.extend([0x08, number - 1]);
            }
        }
        bytes.push(0xC2);
    }
    bytes.extend([0x08, 15, 0x13, 0xFD, 0x00]);
    with_header(&bytes, false)
}

/// As many bodies as there can be, short ones with long names, and a loop that calls the last.
fn many_bodies(draw: &mut Draw) -> Vec<u8> {
    let mut bytes = Vec::new();
    let name = vec![b'n'; draw.between(0, 40)];
    for number in 0x800u16..0x900 {
        bytes.extend([0xCA, name.len() as u8]);
        bytes.extend(&name);
        bytes.extend(number.to_be_bytes());
        bytes.extend([0xB7, 0xA6, 0x46, 0xC2]);
    }
    bytes.extend([0x08, 0xFF, 0x08, 0x80, 0x08, 0x00, 0x13, 0xF9, 0x00]);
    with_header(&bytes, false)
}

/// The first property of a full store gets a longer and a shorter value in turn, so that all others are moved.
fn front_of_a_full_store(draw: &mut Draw) -> Vec<u8> {
    let mut writer = Writer::new(true, BUDGET);
    for number in 0..60 {
        writer.text(&vec![b'v'; draw.between(150, 250)]);
        writer.text(format!("property-{number}").as_bytes());
        writer.double(0x110, 4, 0);
    }
    let start = writer.bytes.len();
    for value in [&b"long and longer"[..], b"short"] {
        writer.text(value);
        writer.text(b"property-0");
        writer.double(0x110, 4, 0);
    }
    endless(writer, start)
}

/// The last of 128 properties with names of one length is found again and again.
fn last_of_many_properties() -> Vec<u8> {
    let mut writer = Writer::new(true, BUDGET);
    for number in 0..128 {
        writer.text(b"value");
        writer.text(format!("a-name-of-some-length-{number:03}").as_bytes());
        writer.double(0x110, 4, 0);
    }
    let start = writer.bytes.len();
    writer.text(b"other");
    writer.text(b"a-name-of-some-length-127");
    writer.double(0x110, 4, 0);
    endless(writer, start)
}

/// 60 cells, and rolls through all of them: no heights, but a run.
fn deep_rolls() -> Vec<u8> {
    let mut writer = Writer::new(true, BUDGET);
    for number in 0..60 {
        writer.literal(number);
    }
    let start = writer.bytes.len();
    writer.literal(58);
    writer.token(0x4F, 1, 0);
    writer.literal(57);
    writer.token(0x4E, 1, 0);
    writer.token(0x46, 0, 0);
    endless(writer, start)
}

/// Strings of 255 bytes that are dropped.
fn long_strings(draw: &mut Draw, size: usize) -> Vec<u8> {
    let mut writer = Writer::new(true, BUDGET);
    while writer.bytes.len() + 300 < size {
        let text: Vec<u8> = (0..255).map(|_| draw.byte()).collect();
        writer.text(&text);
        writer.token(0x52, 2, 0);
    }
    writer.emit(&[0]);
    writer.rom()
}

/// Values of thousands of bytes out of work memory, written again and again.
fn large_values(draw: &mut Draw) -> Vec<u8> {
    let mut writer = Writer::new(true, BUDGET);
    let start = writer.bytes.len();
    for name in [&b"one"[..], b"two"] {
        writer.literal(0x2000_0000);
        writer.literal(draw.between(3_000, 8_000) as u32);
        writer.text(name);
        writer.double(0x110, 4, 0);
    }
    for _ in 0..40 {
        writer.text(b"x");
        writer.double(0x201, 2, 0);
    }
    endless(writer, start)
}

/// Straight on through a large ROM.
fn pushes_and_drops(size: usize) -> Vec<u8> {
    let mut bytes = Vec::new();
    while bytes.len() + 100 < size {
        bytes.extend([0xA6; 20]);
        bytes.extend([0x1E; 10]);
        bytes.extend([0x46; 10]);
    }
    bytes.push(0x00);
    with_header(&bytes, false)
}

/// Back to a place for ever.
fn endless(mut writer: Writer, start: usize) -> Vec<u8> {
    writer.emit(&[0x13]);
    let offset = start as isize - writer.bytes.len() as isize;
    writer.emit(&(offset as i16).to_be_bytes());
    writer.rom()
}
