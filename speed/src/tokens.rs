//! The token list, and the tokens that stand at a place.

/// What stands behind a token's number.
#[derive(Clone, Copy, PartialEq, Eq, Debug)]
pub enum Form {
    Nothing,
    /// Four bytes.
    Literal,
    /// A length byte and that many bytes.
    Text,
    /// One byte, or two where offsets are wide.
    Offset,
    /// b(to)'s number.
    Number,
    /// A new number and a kind.
    Head,
    /// A string, a new number and a kind.
    NamedHead,
}

/// Where a token may stand.
#[derive(Clone, Copy, PartialEq, Eq, Debug)]
pub enum Stands {
    Anywhere,
    /// Neither in a body nor while a call is open.
    Outside,
    /// In a body, or while a call is open.
    Inside,
    /// A kind without its head.
    Nowhere,
}

/// What a token means to the screen.
#[derive(Clone, Copy, PartialEq, Eq, Debug)]
pub enum Sort {
    /// Goes on behind itself.
    Plain,
    Finish,
    Leave,
    Branch,
    Choice,
    Define,
    Assign,
    Call,
    Widen,
    NewDevice,
    FinishDevice,
    /// pick, roll and ?dup: no heights can be told.
    Data,
    Kind,
    /// The first byte of a number of two.
    Prefix,
    /// Not in the list.
    Unlisted,
}

/// A row of the list: data cells before and after, return cells before and after.
#[derive(Clone, Copy, Debug)]
pub struct Row {
    pub sort: Sort,
    pub form: Form,
    pub stands: Stands,
    pub takes: u8,
    pub gives: u8,
    pub return_takes: u8,
    pub return_gives: u8,
}

const fn row(sort: Sort, form: Form, stands: Stands, takes: u8, gives: u8) -> Row {
    Row { sort, form, stands, takes, gives, return_takes: 0, return_gives: 0 }
}

const fn plain(takes: u8, gives: u8) -> Row {
    row(Sort::Plain, Form::Nothing, Stands::Anywhere, takes, gives)
}

const fn returns(takes: u8, gives: u8, return_takes: u8, return_gives: u8) -> Row {
    Row { sort: Sort::Plain, form: Form::Nothing, stands: Stands::Anywhere, takes, gives, return_takes, return_gives }
}

pub const UNLISTED: Row = row(Sort::Unlisted, Form::Nothing, Stands::Anywhere, 0, 0);
const PROGRAM: Row = row(Sort::Call, Form::Nothing, Stands::Anywhere, 0, 0);

const fn single(number: u8) -> Row {
    use Form::*;
    use Sort::*;
    use Stands::*;
    match number {
        0x00 | 0xFF => row(Finish, Nothing, Outside, 0, 0),
        0x01..=0x0F => row(Prefix, Nothing, Anywhere, 0, 0),
        0x10 => row(Plain, Literal, Anywhere, 0, 1),
        0x12 => row(Plain, Text, Anywhere, 0, 2),
        0x13 => row(Branch, Offset, Anywhere, 0, 0),
        0x14 => row(Choice, Offset, Anywhere, 1, 0),
        0x1E..=0x20 | 0x23..=0x25 | 0x27..=0x29 | 0x2E | 0x2F | 0x3A..=0x43 | 0x4D => plain(2, 1),
        0x26 | 0x2C | 0x2D | 0x34..=0x39 | 0x57..=0x59 | 0x6D | 0x71 => plain(1, 1),
        0x2B | 0x49 => plain(2, 2),
        0x30 => returns(1, 0, 0, 1),
        0x31 => returns(0, 1, 1, 0),
        0x32 => returns(0, 1, 1, 1),
        0x33 | 0xC2 => row(Leave, Nothing, Inside, 0, 0),
        0x44 | 0x45 => plain(3, 1),
        0x46 => plain(1, 0),
        0x47 => plain(1, 2),
        0x48 | 0x4C => plain(2, 3),
        0x4A | 0x4B => plain(3, 3),
        0x4E..=0x50 => row(Data, Nothing, Anywhere, 1, 1),
        0x51 | 0xA4..=0xA8 => plain(0, 1),
        0x52 | 0x72 | 0x75 => plain(2, 0),
        0x53 => plain(2, 4),
        0x54 => plain(4, 6),
        0x55 => plain(4, 4),
        0x56 => plain(6, 6),
        0x7B | 0xB1 | 0xB2 => plain(0, 0),
        0xB5 => row(Define, Head, Outside, 0, 0),
        0xB6 | 0xCA => row(Define, NamedHead, Outside, 0, 0),
        0xB7..=0xBA => row(Kind, Nothing, Nowhere, 0, 0),
        0xC3 => row(Assign, Number, Anywhere, 1, 0),
        0xCC => row(Widen, Nothing, Outside, 0, 0),
        _ => UNLISTED,
    }
}

const fn singles() -> [Row; 256] {
    let mut rows = [UNLISTED; 256];
    let mut number = 0;
    while number < 256 {
        rows[number] = single(number as u8);
        number += 1;
    }
    rows
}

/// The rows of the numbers of one byte.
pub static SINGLES: [Row; 256] = singles();

/// The row of a number of two bytes.
#[inline(always)]
pub const fn double(number: u16) -> Row {
    use Form::*;
    use Sort::*;
    use Stands::*;
    match number {
        0x800..=0xFFF => PROGRAM,
        0x110 => plain(4, 0),
        0x111 => plain(1, 2),
        0x112 => plain(4, 2),
        0x114 => plain(2, 2),
        0x119 | 0x11A | 0x201 => plain(2, 0),
        0x11F => row(NewDevice, Nothing, Outside, 0, 0),
        0x127 => row(FinishDevice, Nothing, Outside, 0, 0),
        _ => UNLISTED,
    }
}

/// A token where it stands, all its bytes within the program.
#[derive(Clone, Copy)]
pub struct Token {
    pub row: Row,
    pub number: u16,
    /// The place behind it.
    pub next: usize,
    /// b(to)'s number, or the new one of a definition.
    pub operand: u16,
    /// The kind of a definition.
    pub kind: u8,
}

/// A number of one byte or two, and the place behind it.
#[inline(always)]
pub fn number_at(program: &[u8], place: usize) -> Option<(u16, usize)> {
    let first = *program.get(place)?;
    if (0x01..=0x0F).contains(&first) {
        let second = *program.get(place + 1)?;
        Some((u16::from_be_bytes([first, second]), place + 2))
    } else {
        Some((u16::from(first), place + 1))
    }
}

/// The token at a place; none where its bytes pass the program length.
#[inline(always)]
pub fn token_at(program: &[u8], wide: bool, place: usize) -> Option<Token> {
    let first = *program.get(place)?;
    let mut token = Token { row: SINGLES[usize::from(first)], number: u16::from(first), next: place + 1, operand: 0, kind: 0 };
    match token.row.form {
        Form::Nothing => {
            if token.row.sort == Sort::Prefix {
                token.number = u16::from_be_bytes([first, *program.get(place + 1)?]);
                token.row = double(token.number);
                token.next = place + 2;
            }
            return Some(token);
        }
        Form::Literal => token.next = place + 5,
        Form::Text => token.next = place + 2 + usize::from(*program.get(place + 1)?),
        Form::Offset => token.next = if wide { place + 3 } else { place + 2 },
        Form::Number => {
            let (number, next) = number_at(program, place + 1)?;
            token.operand = number;
            token.next = next;
        }
        Form::Head | Form::NamedHead => {
            let mut at = place + 1;
            if token.row.form == Form::NamedHead {
                at += 1 + usize::from(*program.get(at)?);
            }
            let (number, at) = number_at(program, at)?;
            token.operand = number;
            token.kind = *program.get(at)?;
            token.next = at + 1;
        }
    }
    if token.next > program.len() {
        return None;
    }
    Some(token)
}

/// Where the offset at a place leads: none for outside 8..length-1. The offset counts from its own first byte, all its bytes are there.
#[inline(always)]
pub fn aim_at(program: &[u8], wide: bool, at: usize) -> Option<usize> {
    let offset = if wide { isize::from(i16::from_be_bytes([program[at], program[at + 1]])) } else { isize::from(program[at] as i8) };
    let aim = (at as isize + offset) as usize;
    // what would lie before the ROM is a large number here
    if aim >= crate::FIRST_PLACE && aim < program.len() {
        Some(aim)
    } else {
        None
    }
}

/// Whether a definition is well formed: a number of a program, and a kind.
#[inline(always)]
pub fn well_formed(token: &Token) -> bool {
    crate::numbers::is_program(token.operand) && (0xB7..=0xBA).contains(&token.kind)
}
