//! Writes programs that make sense: it keeps count of the heights, so that nearly all pass the screen.

use crate::draw::Draw;

/// A header in front of a program's bytes.
pub fn with_header(program: &[u8], wide: bool) -> Vec<u8> {
    let sum = program.iter().fold(0u16, |sum, byte| sum.wrapping_add(u16::from(*byte)));
    let mut rom = vec![if wide { 0xF1 } else { 0xFD }, 8];
    rom.extend(sum.to_be_bytes());
    rom.extend((program.len() as u32 + 8).to_be_bytes());
    rom.extend(program);
    rom
}

#[derive(Clone, Copy, PartialEq, Eq)]
pub enum Kind {
    Body,
    Value,
    Variable,
    Constant,
}

/// A number that is defined, and what a call of it asks for.
#[derive(Clone, Copy)]
struct Number {
    number: u16,
    kind: Kind,
    takes: usize,
    gives: usize,
    peak: usize,
    returns: usize,
    frames: usize,
    /// The steps of a call, roughly.
    cost: u64,
}

/// How often each sort of statement is drawn.
#[derive(Clone, Copy)]
pub struct Taste {
    pub reckon: usize,
    pub shuffle: usize,
    pub branch: usize,
    pub turns: usize,
    pub call: usize,
    pub memory: usize,
    pub text: usize,
    pub property: usize,
    pub define: usize,
    pub device: usize,
    pub returns: usize,
    /// Of 1,000 statements as many may be refused for their data.
    pub risk: usize,
}

pub const MIXED: Taste = Taste {
    reckon: 30,
    shuffle: 20,
    branch: 8,
    turns: 3,
    call: 14,
    memory: 8,
    text: 4,
    property: 6,
    define: 8,
    device: 2,
    returns: 4,
    risk: 30,
};

/// The most that a text's height comes to by itself; the rest of the 64 is for what is called.
const HEIGHT_MOST: usize = 24;

#[derive(Clone)]
pub struct Writer {
    pub bytes: Vec<u8>,
    pub start_wide: bool,
    wide: bool,
    height: usize,
    /// Cells that a loop around here counts with: no statement takes them.
    floor: usize,
    peak: usize,
    returns: usize,
    return_peak: usize,
    frames: usize,
    cost: u64,
    /// No loop makes a text cost more.
    pub cost_most: u64,
    numbers: Vec<Number>,
    within: bool,
    /// Branches that are open here: nothing is defined within.
    nested: usize,
    nodes: usize,
    open: usize,
    pub properties: usize,
    work: usize,
    store: usize,
    /// Whether strings for properties are put into work memory, where those of a spread ROM must lie.
    pub in_work: bool,
}

/// Where such strings are put: behind what properties and variables use up. Each is taken before the next one for its place is put there.
const VALUE_PLACE: u32 = 0x2000_3000;
const NAME_PLACE: u32 = 0x2000_3100;

const NAMES: [&str; 12] =
    ["reg", "ranges", "compatible", "status", "lanes", "clock-frequency", "interrupts", "width", "height", "depth", "address", "version"];

impl Writer {
    pub fn new(wide: bool, cost_most: u64) -> Self {
        Writer {
            bytes: Vec::new(),
            start_wide: wide,
            wide,
            height: 0,
            floor: 0,
            peak: 0,
            returns: 0,
            return_peak: 0,
            frames: 0,
            cost: 0,
            cost_most,
            numbers: Vec::new(),
            within: false,
            nested: 0,
            nodes: 2,
            open: 0,
            properties: 0,
            work: 0,
            store: 0,
            in_work: false,
        }
    }

    pub fn rom(&self) -> Vec<u8> {
        with_header(&self.bytes, self.start_wide)
    }

    pub fn numbers(&self) -> usize {
        self.numbers.len()
    }

    /// The cells that a statement may take.
    fn free(&self) -> usize {
        self.height - self.floor
    }

    fn can_define(&self) -> bool {
        !self.within && self.nested == 0 && self.numbers.len() < 250
    }

    pub fn emit(&mut self, bytes: &[u8]) {
        self.bytes.extend(bytes);
        self.cost += 1;
    }

    fn moved(&mut self, takes: usize, gives: usize) {
        self.height = self.height - takes + gives;
        self.peak = self.peak.max(self.height);
    }

    pub fn token(&mut self, byte: u8, takes: usize, gives: usize) {
        self.emit(&[byte]);
        self.moved(takes, gives);
    }

    pub fn double(&mut self, number: u16, takes: usize, gives: usize) {
        self.emit(&number.to_be_bytes());
        self.moved(takes, gives);
    }

    pub fn literal(&mut self, cell: u32) {
        self.emit(&[0x10]);
        self.bytes.extend(cell.to_be_bytes());
        self.moved(0, 1);
    }

    pub fn text(&mut self, text: &[u8]) {
        self.emit(&[0x12, text.len() as u8]);
        self.bytes.extend(text);
        self.moved(0, 2);
    }

    /// A property's value that is a string.
    pub fn value_string(&mut self, text: &[u8]) {
        self.string(text, VALUE_PLACE);
    }

    /// A string that a token is going to take.
    fn string(&mut self, text: &[u8], place: u32) {
        if !self.in_work {
            return self.text(text);
        }
        for (at, byte) in (place..).zip(text) {
            self.literal(u32::from(*byte));
            self.literal(at);
            self.token(0x75, 2, 0);
        }
        self.literal(place);
        self.literal(text.len() as u32);
    }

    /// Drops or pushes until the height is this.
    pub fn settle(&mut self, height: usize) {
        while self.height > height + 1 {
            self.token(0x52, 2, 0);
        }
        if self.height > height {
            self.token(0x46, 1, 0);
        }
        while self.height < height {
            self.token(0xA6, 0, 1);
        }
    }

    /// A branch whose offset is set later; gives the place of the offset in the bytes.
    fn open_branch(&mut self, byte: u8) -> usize {
        self.emit(&[byte]);
        if byte == 0x14 {
            self.moved(1, 0);
        }
        let at = self.bytes.len();
        self.bytes.extend(if self.wide { &[0, 0][..] } else { &[0][..] });
        at
    }

    /// Sets an offset, if it is not too far for its width.
    fn aim(&mut self, at: usize, to: usize) -> bool {
        let offset = to as isize - at as isize;
        if self.wide {
            self.bytes[at..at + 2].copy_from_slice(&(offset as i16).to_be_bytes());
            return true;
        }
        self.bytes[at] = offset as u8;
        (-128..128).contains(&offset)
    }

    /// A row of statements that leaves the height as it was.
    fn block(&mut self, draw: &mut Draw, taste: &Taste, statements: usize) {
        let height = self.height;
        self.nested += 1;
        for _ in 0..statements {
            self.statement(draw, taste);
            if self.height > HEIGHT_MOST {
                self.settle(height);
            }
        }
        self.settle(height);
        self.nested -= 1;
    }

    fn choice(&mut self, draw: &mut Draw, taste: &Taste) {
        let before = self.clone();
        let first = self.open_branch(0x14);
        let many = draw.between(1, 4);
        self.block(draw, taste, many);
        let mut good = true;
        if draw.chance(1, 3) {
            let second = self.open_branch(0x13);
            good &= self.aim(first, self.bytes.len());
            self.block(draw, taste, many);
            good &= self.aim(second, self.bytes.len());
        } else {
            good &= self.aim(first, self.bytes.len());
        }
        if draw.chance(1, 2) {
            self.token(0xB2, 0, 0);
        }
        if !good {
            *self = before;
        }
    }

    /// A loop that counts down, as often as the cost allows; `times` is what it would have.
    pub fn turns(&mut self, draw: &mut Draw, taste: &Taste, statements: usize, times: u64) {
        let before = self.clone();
        self.literal(0);
        let count = self.bytes.len() - 4;
        if draw.chance(1, 2) {
            self.token(0xB1, 0, 0);
        }
        let start = self.bytes.len();
        let cost = self.cost;
        let floor = self.floor;
        let kept = draw.chance(1, 4) && self.returns < 6;
        if kept {
            self.push_return();
        } else if draw.below(1000) >= taste.risk {
            self.floor = self.height;
        }
        self.block(draw, taste, statements);
        self.floor = floor;
        if kept {
            self.pop_return();
        }
        self.token(0xA6, 0, 1);
        self.token(0x1F, 2, 1);
        self.token(0x47, 1, 2);
        self.token(0x34, 1, 1);
        let at = self.open_branch(0x14);
        let good = self.aim(at, start);
        self.token(0x46, 1, 0);
        let once = self.cost - cost;
        let times = times.min(self.cost_most.saturating_sub(cost) / once).max(1);
        self.cost = cost + once * times;
        self.bytes[count..count + 4].copy_from_slice(&(times as u32).to_be_bytes());
        if !good || times > u64::from(u32::MAX) {
            *self = before;
        }
    }

    fn push_return(&mut self) {
        self.token(0x30, 1, 0);
        self.returns += 1;
        self.return_peak = self.return_peak.max(self.returns);
    }

    fn pop_return(&mut self) {
        self.token(0x31, 0, 1);
        self.returns -= 1;
    }

    fn reckon(&mut self, draw: &mut Draw) {
        match draw.below(10) {
            0..=2 => self.token(0xA4 + draw.below(5) as u8, 0, 1),
            3 => {
                let cell = draw.cell();
                self.literal(cell);
            }
            4 | 5 if self.free() >= 1 => {
                let ones = [0x26, 0x2C, 0x2D, 0x34, 0x35, 0x36, 0x37, 0x38, 0x39, 0x57, 0x58, 0x59];
                self.token(*draw.one(&ones), 1, 1);
            }
            6..=8 if self.free() >= 2 => {
                let twos = [
                    0x1E, 0x1F, 0x20, 0x23, 0x24, 0x25, 0x27, 0x28, 0x29, 0x2E, 0x2F, 0x3A, 0x3B, 0x3C, 0x3D, 0x3E, 0x3F, 0x40, 0x41, 0x42,
                    0x43,
                ];
                self.token(*draw.one(&twos), 2, 1);
            }
            9 if self.free() >= 3 => self.token(0x44 + draw.below(2) as u8, 3, 1),
            9 if self.free() >= 1 => {
                self.literal(draw.between(1, 9) as u32);
                self.token(0x2B, 2, 2);
            }
            _ => self.token(0xA6, 0, 1),
        }
    }

    fn shuffle(&mut self, draw: &mut Draw) {
        let all: [(u8, usize, usize); 16] = [
            (0x46, 1, 0),
            (0x47, 1, 2),
            (0x47, 1, 2),
            (0x48, 2, 3),
            (0x49, 2, 2),
            (0x49, 2, 2),
            (0x4A, 3, 3),
            (0x4B, 3, 3),
            (0x4C, 2, 3),
            (0x4D, 2, 1),
            (0x51, 0, 1),
            (0x52, 2, 0),
            (0x53, 2, 4),
            (0x54, 4, 6),
            (0x55, 4, 4),
            (0x56, 6, 6),
        ];
        let (byte, takes, gives) = *draw.one(&all);
        if self.free() >= takes {
            self.token(byte, takes, gives);
        } else {
            self.token(0xA5 + draw.below(4) as u8, 0, 1);
        }
    }

    /// A number that can be called here.
    fn call(&mut self, draw: &mut Draw, bodies: bool) -> bool {
        for _ in 0..4 {
            if self.numbers.is_empty() {
                return false;
            }
            // the newest are called more often, so that calls nest
            let many = self.numbers.len();
            let at = if draw.chance(1, 2) { many - 1 - draw.below(many.min(6)) } else { draw.below(many) };
            let n = self.numbers[at];
            let frames = n.frames + usize::from(self.within);
            if (bodies && n.kind != Kind::Body)
                || self.free() < n.takes
                || self.height - n.takes + n.peak > 40
                || self.returns + n.returns > 24
                || frames > 14
                || self.cost + n.cost > self.cost_most
            {
                continue;
            }
            self.peak = self.peak.max(self.height - n.takes + n.peak);
            self.return_peak = self.return_peak.max(self.returns + n.returns);
            self.frames = self.frames.max(n.frames);
            self.double(n.number, n.takes, n.gives);
            self.cost += n.cost;
            return true;
        }
        false
    }

    fn number_of(&self, draw: &mut Draw, kind: Kind) -> Option<u16> {
        let all: Vec<u16> = self.numbers.iter().filter(|n| n.kind == kind).map(|n| n.number).collect();
        if all.is_empty() {
            None
        } else {
            Some(*draw.one(&all))
        }
    }

    pub fn memory(&mut self, draw: &mut Draw) {
        match draw.below(5) {
            0 | 1 => {
                if let Some(variable) = self.number_of(draw, Kind::Variable) {
                    if self.free() >= 1 && draw.chance(1, 2) {
                        self.double(variable, 0, 1);
                        let byte = draw.chance(1, 3);
                        self.token(if byte { 0x75 } else { 0x72 }, 2, 0);
                    } else {
                        self.double(variable, 0, 1);
                        if draw.chance(1, 4) {
                            self.token(0xA4 + 2 + draw.below(2) as u8, 0, 1);
                            self.token(0x1E, 2, 1);
                            self.token(0x71, 1, 1);
                        } else {
                            self.token(0x6D, 1, 1);
                        }
                    }
                }
            }
            2 => {
                if let Some(value) = self.number_of(draw, Kind::Value) {
                    if self.free() >= 1 {
                        self.emit(&[0xC3]);
                        self.bytes.extend(value.to_be_bytes());
                        self.moved(1, 0);
                    } else {
                        self.double(value, 0, 1);
                    }
                }
            }
            3 => {
                // a byte or a cell of the ROM
                self.literal(0x1000_0000 + 4 * draw.below(3) as u32);
                let byte = draw.chance(1, 2);
                self.token(if byte { 0x71 } else { 0x6D }, 1, 1);
            }
            _ => {
                self.literal(0x2000_2000 + 4 * draw.below(0x7F0) as u32);
                if self.free() >= 2 {
                    self.token(0x72, 2, 0);
                } else {
                    self.token(0x6D, 1, 1);
                }
            }
        }
    }

    pub fn name(&self, draw: &mut Draw) -> Vec<u8> {
        let mut name = draw.one(&NAMES).as_bytes().to_vec();
        if draw.chance(2, 3) {
            name.extend(format!("-{}", draw.below(100)).as_bytes());
        }
        name
    }

    fn printed(&self, draw: &mut Draw, most: usize) -> Vec<u8> {
        let count = draw.between(0, most);
        (0..count).map(|_| draw.between(0x20, 0x7E) as u8).collect()
    }

    /// A property with a value of some sort, where there is room for what it takes.
    pub fn property(&mut self, draw: &mut Draw) {
        if self.properties >= 120 || self.work > 12_000 || self.store > 12_000 || self.height > 40 {
            return;
        }
        // whether it runs once: in a loop or a body nothing is known of how often it does
        let once = usize::from(self.nested == 0 && !self.within);
        self.properties += once;
        let title = draw.chance(1, 8);
        if title {
            let text = self.printed(draw, 20);
            self.store += 32 * once;
            self.value_string(&text);
            self.double(*draw.one(&[0x201, 0x119, 0x11A]), 2, 0);
            return;
        }
        // what may run often uses no work memory
        let sort = if once == 1 { draw.below(4) } else { 3 };
        let mut size = 0;
        match sort {
            0 => {
                for turn in 0..draw.between(1, 4) {
                    if draw.chance(1, 2) {
                        self.literal(draw.bits() as u32);
                    } else {
                        self.token(0xA4 + draw.below(5) as u8, 0, 1);
                    }
                    self.double(0x111, 1, 2);
                    size += 4;
                    if turn > 0 {
                        self.double(0x112, 4, 2);
                    }
                }
                self.work += size;
            }
            1 => {
                let text = self.printed(draw, 30);
                size = text.len() + 1;
                self.work += size;
                self.value_string(&text);
                self.double(0x114, 2, 2);
            }
            2 => {
                let text = self.printed(draw, 12);
                size = text.len() + 5;
                self.work += size;
                self.value_string(&text);
                self.double(0x114, 2, 2);
                self.token(0xA7, 0, 1);
                self.double(0x111, 1, 2);
                self.double(0x112, 4, 2);
            }
            _ => match self.number_of(draw, Kind::Variable) {
                Some(variable) if draw.chance(1, 2) => {
                    self.double(variable, 0, 1);
                    self.token(0xA7, 0, 1);
                    self.token(0x47, 1, 2);
                    self.token(0x1E, 2, 1);
                    size = 4;
                }
                _ => {
                    let text = self.printed(draw, 60);
                    size = text.len();
                    self.value_string(&text);
                }
            },
        }
        // what may run often writes the same few names again
        let name = if once == 1 { self.name(draw) } else { draw.one(&NAMES).as_bytes().to_vec() };
        self.store += (size + name.len()) * once;
        self.string(&name, NAME_PLACE);
        self.double(0x110, 4, 0);
    }

    /// The head of a definition, with a new number.
    fn head(&mut self, draw: &mut Draw, kind: u8) -> u16 {
        let mut number = 0x800 + self.numbers.len() as u16;
        if draw.chance(1, 20) {
            let other = draw.between(0xA00, 0xFFF) as u16;
            if self.numbers.iter().all(|n| n.number != other) {
                number = other;
            }
        }
        match draw.below(4) {
            0 => self.bytes.push(0xB5),
            other => {
                let name = self.name(draw);
                self.bytes.push(if other == 1 { 0xCA } else { 0xB6 });
                self.bytes.push(name.len() as u8);
                self.bytes.extend(name);
            }
        }
        self.bytes.extend(number.to_be_bytes());
        self.bytes.push(kind);
        self.cost += 1;
        number
    }

    fn remember(&mut self, number: u16, kind: Kind) {
        self.numbers.push(Number { number, kind, takes: 0, gives: 1, peak: 1, returns: 0, frames: 0, cost: 0 });
    }

    pub fn value(&mut self, draw: &mut Draw, kind: Kind) {
        if kind != Kind::Variable && self.free() == 0 {
            self.token(0xA7, 0, 1);
        }
        let (byte, takes) = match kind {
            Kind::Value => (0xB8, 1),
            Kind::Constant => (0xBA, 1),
            _ => (0xB9, 0),
        };
        if takes == 0 {
            self.work += 8;
        }
        let number = self.head(draw, byte);
        self.moved(takes, 0);
        self.remember(number, kind);
    }

    /// A body of some statements.
    pub fn body(&mut self, draw: &mut Draw, taste: &Taste, statements: usize) {
        let number = self.head(draw, 0xB7);
        let (takes, gives) = (draw.below(4), draw.below(4));
        let mut text = self.clone();
        text.within = true;
        text.height = takes;
        text.floor = 0;
        text.peak = takes;
        text.returns = 0;
        text.return_peak = 0;
        text.frames = 0;
        text.cost = 0;
        text.cost_most = self.cost_most / 8;
        for _ in 0..statements {
            text.statement(draw, taste);
            if text.height > HEIGHT_MOST {
                text.settle(takes);
            }
        }
        if draw.chance(1, 6) && text.height > 0 {
            // an early end, at the height of the other
            let at = text.open_branch(0x14);
            let height = text.height;
            text.settle(gives);
            text.emit(&[0x33]);
            let to = text.bytes.len();
            text.aim(at, to);
            text.height = height;
        }
        text.settle(gives);
        text.emit(&[0xC2]);
        self.bytes = text.bytes;
        self.properties = text.properties;
        self.numbers.push(Number {
            number,
            kind: Kind::Body,
            takes,
            gives,
            peak: text.peak,
            returns: text.return_peak,
            frames: text.frames + 1,
            cost: text.cost,
        });
    }

    /// Opens a child, or finishes the one that is open.
    pub fn device(&mut self, draw: &mut Draw) {
        if self.within || self.nested > 0 {
            return;
        }
        if self.open > 0 && (draw.chance(1, 2) || self.nodes >= 31) {
            self.double(0x127, 0, 0);
            self.open -= 1;
        } else if self.nodes < 31 {
            self.double(0x11F, 0, 0);
            self.open += 1;
            self.nodes += 1;
        }
    }

    /// Something that may be refused for its data, or that goes well.
    fn risk(&mut self, draw: &mut Draw) {
        match draw.below(9) {
            0 if self.free() >= 2 => self.token(0x2B, 2, 2),
            1 => {
                self.literal(draw.cell());
                self.token(*draw.one(&[0x6D, 0x71]), 1, 1);
            }
            2 if self.free() >= 1 => {
                self.literal(draw.cell());
                self.token(*draw.one(&[0x72, 0x75]), 2, 0);
            }
            3 => {
                let mut name = self.name(draw);
                if draw.chance(1, 2) {
                    let at = draw.below(name.len());
                    name[at] = draw.byte();
                }
                self.token(0xA5, 0, 1);
                self.token(0xA5, 0, 1);
                self.literal(0x2000_0000);
                self.token(0x49, 2, 2);
                self.text(&name);
                self.double(0x110, 5, 0);
            }
            4 if self.free() >= 4 => self.double(0x112, 4, 2),
            5 if self.free() >= 1 => self.double(0x111, 1, 2),
            6 => {
                // a string in work memory, sometimes a long one that overlaps what it is copied to
                self.literal(0x2000_0000 + draw.below(64) as u32);
                let count = if draw.chance(1, 3) { draw.below(9000) } else { draw.below(80) };
                self.literal(count as u32);
                self.double(0x114, 2, 2);
                self.token(0x52, 2, 0);
            }
            7 => {
                self.literal(0x2000_0000 + draw.below(64) as u32);
                let count = if draw.chance(1, 3) { draw.below(17_000) } else { draw.below(80) };
                self.literal(count as u32);
                self.double(*draw.one(&[0x201, 0x119, 0x11A]), 2, 0);
            }
            _ => {
                // pick, roll, ?dup with cells that fit, mostly: no heights
                let most = self.free();
                self.literal(draw.below(most + 1) as u32);
                self.token(*draw.one(&[0x4E, 0x4F]), 1, 1);
                if draw.chance(1, 2) {
                    self.token(0x50, 1, 1);
                }
            }
        }
    }

    pub fn statement(&mut self, draw: &mut Draw, taste: &Taste) {
        if draw.below(1000) < taste.risk {
            return self.risk(draw);
        }
        let deep = self.nested >= 3;
        let weights = [
            taste.reckon,
            taste.shuffle,
            if deep || self.free() == 0 { 0 } else { taste.branch },
            if deep || self.height > 16 { 0 } else { taste.turns },
            taste.call,
            taste.memory,
            taste.text,
            taste.property,
            if self.can_define() { taste.define } else { 0 },
            taste.device,
            if self.free() == 0 || self.returns >= 6 { 0 } else { taste.returns },
        ];
        let mut at = draw.below(weights.iter().sum());
        let mut sort = 0;
        while at >= weights[sort] {
            at -= weights[sort];
            sort += 1;
        }
        match sort {
            0 => self.reckon(draw),
            1 => self.shuffle(draw),
            2 => self.choice(draw, taste),
            3 => {
                let (statements, times) = (draw.between(1, 4), draw.between(1, 12) as u64);
                self.turns(draw, taste, statements, times);
            }
            4 => {
                if !self.call(draw, false) {
                    self.reckon(draw);
                }
            }
            5 => self.memory(draw),
            6 => {
                let text = self.printed(draw, 24);
                self.text(&text);
                if draw.chance(1, 2) {
                    self.token(0x46, 1, 0);
                    self.token(0x46, 1, 0);
                }
            }
            7 => self.property(draw),
            8 => match draw.below(8) {
                0 => self.value(draw, Kind::Constant),
                1 => self.value(draw, Kind::Value),
                2 | 3 if self.work < 12_000 => self.value(draw, Kind::Variable),
                _ => {
                    let statements = draw.between(0, 10);
                    self.body(draw, taste, statements);
                }
            },
            9 => self.device(draw),
            _ => {
                self.push_return();
                self.block(draw, taste, 1);
                if draw.chance(1, 4) {
                    self.token(0x32, 0, 1);
                    self.token(0x46, 1, 0);
                }
                self.pop_return();
            }
        }
        if self.height > HEIGHT_MOST {
            self.settle(self.floor.max(HEIGHT_MOST / 2));
        }
    }

    /// offset16
    pub fn widen(&mut self) {
        self.emit(&[0xCC]);
        self.wide = true;
    }

    /// A call of some body, if there is one that can be called.
    pub fn call_body(&mut self, draw: &mut Draw) {
        if !self.call(draw, true) {
            self.settle(self.floor + 4);
            self.call(draw, true);
        }
    }

    /// Finishes the nodes that are open, and the program.
    pub fn finish(&mut self, draw: &mut Draw) {
        while self.open > 0 {
            self.double(0x127, 0, 0);
            self.open -= 1;
        }
        self.emit(&[if draw.chance(1, 4) { 0xFF } else { 0x00 }]);
    }
}
