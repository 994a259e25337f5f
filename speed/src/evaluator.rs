//! The evaluator: opens a ROM and carries out its tokens.

use crate::header::{self, Program};
use crate::numbers::Numbers;
use crate::tokens::{aim_at, number_at, token_at, well_formed, Sort, Stands, Token};
use crate::tree::{is_name, Tree};
use crate::{DATA_MOST, FRAMES_MOST, RETURN_MOST, SPENT, STORE_SIZE, WORK_SIZE};

const ROM_BASE: u32 = 0x1000_0000;
const WORK_BASE: u32 = 0x2000_0000;

/// What a program number stands for.
#[derive(Clone, Copy)]
struct Defined {
    kind: Kind,
    /// The offset width in force at the definition of a body.
    wide: bool,
    /// The place of a body, or what the number gives.
    value: u32,
}

#[derive(Clone, Copy, PartialEq, Eq)]
enum Kind {
    Body,
    Value,
    /// A variable or a constant: it gives its value for good.
    Fixed,
}

/// An open call: what its end gives back.
#[derive(Clone, Copy)]
struct Frame {
    place: u32,
    base: u8,
    wide: bool,
}

struct Evaluator<'a> {
    program: &'a [u8],
    /// Where strings may lie that a token names: the program, unless its bytes lie apart in the ROM.
    strings: Option<&'a [u8]>,
    wide: bool,
    data: [u32; DATA_MOST],
    returns: [u32; RETURN_MOST],
    return_height: usize,
    /// Below it no token of the open call takes return cells.
    base: usize,
    frames: [Frame; FRAMES_MOST],
    calls: usize,
    numbers: Numbers<Defined>,
    work: &'a mut [u8; WORK_SIZE],
    work_place: usize,
    tree: Tree<'a>,
}

/// Opens the ROM and runs it. The answer is 0 where the program finishes, else its refusal; with it the count of tokens carried out.
pub fn run(rom: &[u8], work: &mut [u8], store: &mut [u8], budget: u32) -> (u32, u32) {
    let (work, store): (&mut [u8; WORK_SIZE], &mut [u8; STORE_SIZE]) = match (work.try_into(), store.try_into()) {
        (Ok(work), Ok(store)) => (work, store),
        _ => return (6, 0),
    };
    let mut room = Vec::new();
    match header::open(rom, &mut room) {
        Ok(program) => Evaluator::new(program, work, store).run(budget),
        Err(why) => (why, 0),
    }
}

#[inline(always)]
fn flag(holds: bool) -> u32 {
    if holds {
        u32::MAX
    } else {
        0
    }
}

#[inline(always)]
fn signed(cell: u32) -> i32 {
    cell as i32
}

impl<'a> Evaluator<'a> {
    fn new(program: Program<'a>, work: &'a mut [u8; WORK_SIZE], store: &'a mut [u8; STORE_SIZE]) -> Self {
        work.fill(0);
        Evaluator {
            program: program.bytes,
            strings: if program.spread { None } else { Some(program.bytes) },
            wide: program.wide,
            data: [0; DATA_MOST],
            returns: [0; RETURN_MOST],
            return_height: 0,
            base: 0,
            frames: [Frame { place: 0, base: 0, wide: false }; FRAMES_MOST],
            calls: 0,
            numbers: Numbers::new(),
            work,
            work_place: 0,
            tree: Tree::new(store),
        }
    }

    /// Place and data height are locals of the loop, since every token moves them. What a token refuses leaves the loop with its number;
    /// each arm has its tests in document 01's order, and changes nothing before the last of them.
    fn run(&mut self, budget: u32) -> (u32, u32) {
        let program = self.program;
        let mut steps = 0;
        let mut place = crate::FIRST_PLACE;
        let mut height: usize = 0;
        let answer = loop {
            if steps == budget {
                break SPENT;
            }
            let byte = match program.get(place) {
                Some(byte) => *byte,
                None => break 10,
            };

            /// The cells that a token takes are there, or 14.
            macro_rules! need {
                ($count:expr) => {
                    if height < $count {
                        break 14;
                    }
                };
            }
            /// There is room for more cells, or 15.
            macro_rules! room {
                ($count:expr) => {
                    if height + $count > DATA_MOST {
                        break 15;
                    }
                };
            }
            /// A cell by its depth below the top. Heights are 0 to 64 and the cell is there, so that the mask changes nothing; it costs
            /// less than the bound check that it takes the place of.
            macro_rules! cell {
                ($depth:expr) => {
                    self.data[(height - 1 - $depth) % DATA_MOST]
                };
            }
            macro_rules! push {
                ($value:expr) => {{
                    let value = $value;
                    self.data[height % DATA_MOST] = value;
                    height += 1;
                }};
            }
            macro_rules! constant {
                ($value:expr) => {{
                    room!(1);
                    push!($value);
                    place += 1;
                }};
            }
            macro_rules! unary {
                ($a:ident => $result:expr) => {{
                    need!(1);
                    let $a = cell!(0);
                    cell!(0) = $result;
                    place += 1;
                }};
            }
            macro_rules! binary {
                ($a:ident, $b:ident => $result:expr) => {{
                    need!(2);
                    let ($a, $b) = (cell!(1), cell!(0));
                    cell!(1) = $result;
                    height -= 1;
                    place += 1;
                }};
            }
            macro_rules! ternary {
                ($a:ident, $b:ident, $c:ident => $result:expr) => {{
                    need!(3);
                    let ($a, $b, $c) = (cell!(2), cell!(1), cell!(0));
                    cell!(2) = $result;
                    height -= 2;
                    place += 1;
                }};
            }
            /// What a method refuses ends the run.
            macro_rules! done {
                ($result:expr) => {
                    match $result {
                        Ok(done) => done,
                        Err(why) => break why,
                    }
                };
            }

            match byte {
                // end0, end1
                0x00 | 0xFF => {
                    if self.calls > 0 {
                        break 18;
                    }
                    steps += 1;
                    break 0;
                }
                0x01..=0x0F => {
                    let second = match program.get(place + 1) {
                        Some(second) => *second,
                        None => break 10,
                    };
                    let number = u16::from_be_bytes([byte, second]);
                    if byte >= 0x08 {
                        let defined = match self.numbers.get(number) {
                            Some(defined) => *defined,
                            None => break 12,
                        };
                        if defined.kind == Kind::Body {
                            if self.calls == FRAMES_MOST {
                                break 17;
                            }
                            self.frames[self.calls] = Frame { place: place as u32 + 2, base: self.base as u8, wide: self.wide };
                            self.calls += 1;
                            self.base = self.return_height;
                            self.wide = defined.wide;
                            place = defined.value as usize;
                        } else {
                            room!(1);
                            push!(defined.value);
                            place += 2;
                        }
                    } else {
                        height = done!(self.double(number, height));
                        place += 2;
                    }
                }
                // b(lit)
                0x10 => match program.get(place + 1..place + 5) {
                    Some(&[a, b, c, d]) => {
                        room!(1);
                        push!(u32::from_be_bytes([a, b, c, d]));
                        place += 5;
                    }
                    _ => break 10,
                },
                // b(")
                0x12 => {
                    let count = match program.get(place + 1) {
                        Some(count) => usize::from(*count),
                        None => break 10,
                    };
                    let start = place + 2;
                    if start + count > program.len() {
                        break 10;
                    }
                    room!(2);
                    push!(ROM_BASE + start as u32);
                    push!(count as u32);
                    place = start + count;
                }
                // bbranch, b?branch
                0x13 | 0x14 => {
                    let next = if self.wide { place + 3 } else { place + 2 };
                    if next > program.len() {
                        break 10;
                    }
                    let taken = if byte == 0x13 {
                        true
                    } else {
                        need!(1);
                        cell!(0) == 0
                    };
                    let aim = if taken {
                        match aim_at(program, self.wide, place + 1) {
                            Some(aim) => aim,
                            None => break 19,
                        }
                    } else {
                        next
                    };
                    height -= usize::from(byte - 0x13);
                    place = aim;
                }
                0x1E => binary!(a, b => a.wrapping_add(b)),
                0x1F => binary!(a, b => a.wrapping_sub(b)),
                0x20 => binary!(a, b => a.wrapping_mul(b)),
                0x23 => binary!(a, b => a & b),
                0x24 => binary!(a, b => a | b),
                0x25 => binary!(a, b => a ^ b),
                0x26 => unary!(a => !a),
                0x27 => binary!(a, n => a.checked_shl(n).unwrap_or(0)),
                0x28 => binary!(a, n => a.checked_shr(n).unwrap_or(0)),
                0x29 => binary!(a, n => (signed(a) >> n.min(31)) as u32),
                // u/mod
                0x2B => {
                    need!(2);
                    let (a, b) = (cell!(1), cell!(0));
                    if b == 0 {
                        break 21;
                    }
                    cell!(1) = a % b;
                    cell!(0) = a / b;
                    place += 1;
                }
                0x2C => unary!(a => a.wrapping_neg()),
                0x2D => unary!(a => signed(a).wrapping_abs() as u32),
                0x2E => binary!(a, b => signed(a).min(signed(b)) as u32),
                0x2F => binary!(a, b => signed(a).max(signed(b)) as u32),
                // >r
                0x30 => {
                    need!(1);
                    if self.return_height == RETURN_MOST {
                        break 16;
                    }
                    self.returns[self.return_height] = cell!(0);
                    self.return_height += 1;
                    height -= 1;
                    place += 1;
                }
                // r>, r@
                0x31 | 0x32 => {
                    if self.return_height == self.base {
                        break 16;
                    }
                    room!(1);
                    push!(self.returns[self.return_height - 1]);
                    self.return_height -= usize::from(byte == 0x31);
                    place += 1;
                }
                // exit, b(;)
                0x33 | 0xC2 => {
                    if self.calls == 0 {
                        break 18;
                    }
                    if self.return_height != self.base {
                        break 16;
                    }
                    self.calls -= 1;
                    let frame = self.frames[self.calls];
                    self.base = usize::from(frame.base);
                    self.wide = frame.wide;
                    place = frame.place as usize;
                }
                0x34 => unary!(a => flag(a == 0)),
                0x35 => unary!(a => flag(a != 0)),
                0x36 => unary!(a => flag(signed(a) < 0)),
                0x37 => unary!(a => flag(signed(a) <= 0)),
                0x38 => unary!(a => flag(signed(a) > 0)),
                0x39 => unary!(a => flag(signed(a) >= 0)),
                0x3A => binary!(a, b => flag(signed(a) < signed(b))),
                0x3B => binary!(a, b => flag(signed(a) > signed(b))),
                0x3C => binary!(a, b => flag(a == b)),
                0x3D => binary!(a, b => flag(a != b)),
                0x3E => binary!(a, b => flag(a > b)),
                0x3F => binary!(a, b => flag(a <= b)),
                0x40 => binary!(a, b => flag(a < b)),
                0x41 => binary!(a, b => flag(a >= b)),
                0x42 => binary!(a, b => flag(signed(a) >= signed(b))),
                0x43 => binary!(a, b => flag(signed(a) <= signed(b))),
                // between, within
                0x44 => ternary!(n, min, max => flag(signed(min) <= signed(n) && signed(n) <= signed(max))),
                0x45 => ternary!(n, min, max => flag(n.wrapping_sub(min) < max.wrapping_sub(min))),
                // drop, dup, over, swap, rot, -rot, tuck, nip
                0x46 => {
                    need!(1);
                    height -= 1;
                    place += 1;
                }
                0x47 => {
                    need!(1);
                    room!(1);
                    push!(cell!(0));
                    place += 1;
                }
                0x48 => {
                    need!(2);
                    room!(1);
                    push!(cell!(1));
                    place += 1;
                }
                0x49 => {
                    need!(2);
                    let (a, b) = (cell!(1), cell!(0));
                    cell!(1) = b;
                    cell!(0) = a;
                    place += 1;
                }
                0x4A => {
                    need!(3);
                    let (a, b, c) = (cell!(2), cell!(1), cell!(0));
                    cell!(2) = b;
                    cell!(1) = c;
                    cell!(0) = a;
                    place += 1;
                }
                0x4B => {
                    need!(3);
                    let (a, b, c) = (cell!(2), cell!(1), cell!(0));
                    cell!(2) = c;
                    cell!(1) = a;
                    cell!(0) = b;
                    place += 1;
                }
                0x4C => {
                    need!(2);
                    room!(1);
                    let (a, b) = (cell!(1), cell!(0));
                    cell!(1) = b;
                    cell!(0) = a;
                    push!(b);
                    place += 1;
                }
                0x4D => binary!(_a, b => b),
                // pick, roll: the count, and count + 1 cells below it
                0x4E => {
                    need!(1);
                    let count = cell!(0) as usize;
                    need!(count + 2);
                    cell!(0) = cell!(count + 1);
                    place += 1;
                }
                0x4F => {
                    need!(1);
                    let count = cell!(0) as usize;
                    need!(count + 2);
                    height -= 1;
                    self.data[height - 1 - count..height].rotate_left(1);
                    place += 1;
                }
                // ?dup
                0x50 => {
                    need!(1);
                    if cell!(0) != 0 {
                        room!(1);
                        push!(cell!(0));
                    }
                    place += 1;
                }
                // depth
                0x51 => constant!(height as u32),
                // 2drop, 2dup, 2over, 2swap, 2rot
                0x52 => {
                    need!(2);
                    height -= 2;
                    place += 1;
                }
                0x53 => {
                    need!(2);
                    room!(2);
                    push!(cell!(1));
                    push!(cell!(1));
                    place += 1;
                }
                0x54 => {
                    need!(4);
                    room!(2);
                    push!(cell!(3));
                    push!(cell!(3));
                    place += 1;
                }
                0x55 => {
                    need!(4);
                    let (a, b, c, d) = (cell!(3), cell!(2), cell!(1), cell!(0));
                    cell!(3) = c;
                    cell!(2) = d;
                    cell!(1) = a;
                    cell!(0) = b;
                    place += 1;
                }
                0x56 => {
                    need!(6);
                    let (a, b) = (cell!(5), cell!(4));
                    cell!(5) = cell!(3);
                    cell!(4) = cell!(2);
                    cell!(3) = cell!(1);
                    cell!(2) = cell!(0);
                    cell!(1) = a;
                    cell!(0) = b;
                    place += 1;
                }
                0x57 => unary!(a => (signed(a) >> 1) as u32),
                0x58 => unary!(a => a >> 1),
                0x59 => unary!(a => a << 1),
                // @, c@
                0x6D => {
                    need!(1);
                    let address = cell!(0);
                    match self.part(address, 4) {
                        Some(&[a, b, c, d]) => {
                            if address % 4 != 0 {
                                break 23;
                            }
                            cell!(0) = u32::from_be_bytes([a, b, c, d]);
                        }
                        _ => break 22,
                    }
                    place += 1;
                }
                0x71 => {
                    need!(1);
                    match self.part(cell!(0), 1) {
                        Some(&[byte]) => cell!(0) = u32::from(byte),
                        _ => break 22,
                    }
                    place += 1;
                }
                // !, c!
                0x72 => {
                    need!(2);
                    let (value, address) = (cell!(1), cell!(0));
                    let at = address.wrapping_sub(WORK_BASE) as usize;
                    match self.work.get_mut(at..at + 4) {
                        Some(bytes) => {
                            if address % 4 != 0 {
                                break 23;
                            }
                            bytes.copy_from_slice(&value.to_be_bytes());
                        }
                        None => break 22,
                    }
                    height -= 2;
                    place += 1;
                }
                0x75 => {
                    need!(2);
                    let (value, address) = (cell!(1), cell!(0));
                    match self.work.get_mut(address.wrapping_sub(WORK_BASE) as usize) {
                        Some(byte) => *byte = value as u8,
                        None => break 22,
                    }
                    height -= 2;
                    place += 1;
                }
                // noop, b(<mark), b(>resolve)
                0x7B | 0xB1 | 0xB2 => place += 1,
                0xA4 => constant!(u32::MAX),
                0xA5 => constant!(0),
                0xA6 => constant!(1),
                0xA7 => constant!(2),
                0xA8 => constant!(3),
                // new-token, named-token, external-token
                0xB5 | 0xB6 | 0xCA => {
                    let top = if height > 0 { Some(cell!(0)) } else { None };
                    let (next, taken) = done!(self.define(place, top));
                    height -= taken;
                    place = next;
                }
                // a kind without its head
                0xB7..=0xBA => break 18,
                // b(to)
                0xC3 => {
                    let (number, next) = match number_at(program, place + 1) {
                        Some(found) => found,
                        None => break 10,
                    };
                    match self.numbers.get_mut(number) {
                        Some(defined) if defined.kind == Kind::Value => {
                            need!(1);
                            defined.value = cell!(0);
                        }
                        _ => break 12,
                    }
                    height -= 1;
                    place = next;
                }
                // offset16
                0xCC => {
                    if self.calls > 0 {
                        break 18;
                    }
                    self.wide = true;
                    place += 1;
                }
                _ => break 11,
            }
            steps += 1;
        };
        (answer, steps)
    }

    /// The bytes of the ROM or of work memory that @ and c@ fetch: by FCode bytes, spread or not.
    #[inline(always)]
    fn part(&self, address: u32, count: u32) -> Option<&[u8]> {
        part_of(Some(self.program), self.work, address, count)
    }

    /// The tokens with a number of two bytes that is no program's. Gives the data height behind it.
    #[inline(always)]
    fn double(&mut self, number: u16, height: usize) -> Result<usize, u32> {
        match number {
            0x110 => self.property(height),
            0x111 => self.encode_int(height),
            0x112 => self.encode_join(height),
            0x114 => self.encode_string(height),
            0x119 => self.title(height, b"model"),
            0x11A => self.title(height, b"device_type"),
            0x201 => self.title(height, b"name"),
            0x11F | 0x127 => {
                if self.calls > 0 {
                    return Err(18);
                }
                if number == 0x11F {
                    self.tree.new_device()?;
                } else {
                    self.tree.finish_device()?;
                }
                Ok(height)
            }
            _ => Err(11),
        }
    }

    /// property
    fn property(&mut self, height: usize) -> Result<usize, u32> {
        if height < 4 {
            return Err(14);
        }
        let cells = &self.data[height - 4..height];
        let name = part_of(self.strings, self.work, cells[2], cells[3]).ok_or(22u32)?;
        let value = part_of(self.strings, self.work, cells[0], cells[1]).ok_or(22u32)?;
        if !is_name(name) {
            return Err(26);
        }
        self.tree.put(name, value, false)?;
        Ok(height - 4)
    }

    /// device-name, model, device-type
    fn title(&mut self, height: usize, name: &[u8]) -> Result<usize, u32> {
        if height < 2 {
            return Err(14);
        }
        let value = part_of(self.strings, self.work, self.data[height - 2], self.data[height - 1]).ok_or(22u32)?;
        self.tree.put(name, value, true)?;
        Ok(height - 2)
    }

    /// encode-int
    fn encode_int(&mut self, height: usize) -> Result<usize, u32> {
        if height < 1 {
            return Err(14);
        }
        if height == DATA_MOST {
            return Err(15);
        }
        let at = self.work_place;
        let bytes = self.work.get_mut(at..at + 4).ok_or(24u32)?;
        bytes.copy_from_slice(&self.data[height - 1].to_be_bytes());
        self.work_place = at + 4;
        self.data[height - 1] = WORK_BASE + at as u32;
        self.data[height] = 4;
        Ok(height + 1)
    }

    /// encode-string: the bytes as before the token, and a null.
    fn encode_string(&mut self, height: usize) -> Result<usize, u32> {
        if height < 2 {
            return Err(14);
        }
        let (address, count) = (self.data[height - 2], self.data[height - 1]);
        let at = self.work_place;
        let size = count as usize;
        let in_rom = address.wrapping_sub(ROM_BASE) as usize;
        let in_work = address.wrapping_sub(WORK_BASE) as usize;
        let room = if at + size + 1 > WORK_SIZE { Err(24u32) } else { Ok(()) };
        if let Some(bytes) = self.strings.and_then(|rom| rom.get(in_rom..in_rom + size)) {
            room?;
            self.work[at..at + size].copy_from_slice(bytes);
        } else if in_work + size <= WORK_SIZE {
            room?;
            self.work.copy_within(in_work..in_work + size, at);
        } else {
            return Err(22);
        }
        self.work[at + size] = 0;
        self.work_place = at + size + 1;
        self.data[height - 2] = WORK_BASE + at as u32;
        self.data[height - 1] = count + 1;
        Ok(height)
    }

    /// encode+
    fn encode_join(&mut self, height: usize) -> Result<usize, u32> {
        if height < 4 {
            return Err(14);
        }
        let cells = &mut self.data[height - 4..height];
        if cells[0].wrapping_add(cells[1]) != cells[2] {
            return Err(25);
        }
        cells[1] = cells[1].wrapping_add(cells[3]);
        Ok(height - 2)
    }

    /// A defining token with its kind. Gives the place behind it and the cells that it takes.
    fn define(&mut self, place: usize, top: Option<u32>) -> Result<(usize, usize), u32> {
        let token = token_at(self.program, self.wide, place).ok_or(10u32)?;
        if self.calls > 0 {
            return Err(18);
        }
        if !well_formed(&token) {
            return Err(11);
        }
        if !self.numbers.is_free(token.operand) {
            return Err(13);
        }
        let mut next = token.next;
        let mut taken = 0;
        let (kind, value) = match token.kind {
            0xB7 => {
                next = self.body_end(token.next)?;
                (Kind::Body, token.next as u32)
            }
            0xB9 => {
                let at = (self.work_place + 3) / 4 * 4;
                self.work.get_mut(at..at + 4).ok_or(24u32)?.fill(0);
                self.work_place = at + 4;
                (Kind::Fixed, WORK_BASE + at as u32)
            }
            kind => {
                taken = 1;
                (if kind == 0xB8 { Kind::Value } else { Kind::Fixed }, top.ok_or(14u32)?)
            }
        };
        self.numbers.define(token.operand, Defined { kind, wide: self.wide, value });
        Ok((next, taken))
    }

    /// Reads a body up to its C2, and gives the place behind that.
    fn body_end(&self, entry: usize) -> Result<usize, u32> {
        let mut place = entry;
        loop {
            let token = token_at(self.program, self.wide, place).ok_or(10u32)?;
            if matches!(token.row.stands, Stands::Outside | Stands::Nowhere) {
                return Err(18);
            }
            match token.row.sort {
                Sort::Unlisted => return Err(11),
                Sort::Call | Sort::Assign if self.is_unknown(&token) => return Err(12),
                _ => {}
            }
            place = token.next;
            if token.number == 0xC2 {
                return Ok(place);
            }
        }
    }

    /// Whether a call's number is not defined, or b(to)'s no value.
    fn is_unknown(&self, token: &Token) -> bool {
        if token.row.sort == Sort::Call {
            return self.numbers.get(token.number).is_none();
        }
        match self.numbers.get(token.operand) {
            Some(defined) => defined.kind != Kind::Value,
            None => true,
        }
    }
}

/// A range is good where it lies wholly in one window, its end included; the ROM's may be shut. An address below a window is a large number
/// here, and no sum of two 32-bit numbers wraps.
#[inline(always)]
fn part_of<'b>(rom: Option<&'b [u8]>, work: &'b [u8; WORK_SIZE], address: u32, count: u32) -> Option<&'b [u8]> {
    let size = count as usize;
    let in_work = address.wrapping_sub(WORK_BASE) as usize;
    if let Some(part) = work.get(in_work..in_work + size) {
        return Some(part);
    }
    let in_rom = address.wrapping_sub(ROM_BASE) as usize;
    rom?.get(in_rom..in_rom + size)
}
