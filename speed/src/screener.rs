//! The screener: finds the data and return height of every token that can be reached, or that there are none.
//!
//! Outside bodies a defining token, offset16, new-device and finish-device must be met exactly once (rule 4). So the program is a row of
//! rounds: each starts behind such a token and ends at the next, below which all its other tokens lie. Within a round numbers, width and
//! nodes are the same, and one walk along all ways finds the heights. A body is read and walked when its b(:) ends a round.

use crate::header::{self, Program};
use crate::numbers::Numbers;
use crate::tokens::{aim_at, token_at, well_formed, Sort, Stands, Token};
use crate::{DATA_MOST, FRAMES_MOST, MARKS_SIZE, NODES_MOST, NO_HEIGHTS, RETURN_MOST};

/// The heights at a place: 256 times the return height, plus the data height plus one.
type Heights = u16;

/// A place that no way has led to.
const UNMET: Heights = 0;
/// A byte inside a token that was met: no other token may start there.
const COVERED: Heights = 0x8000;
/// A token start of the body that is walked, not met so far.
const START: Heights = 0x4000;

/// A body is walked as if entered at 64, so that it can reach as far down and rise as high as any can that is entered at its need.
const ENTERED: u32 = DATA_MOST as u32;

/// What a program number does where it is entered at its need.
#[derive(Clone, Copy)]
struct Sum {
    is_value: bool,
    need: u8,
    out: u8,
    peak: u8,
    return_peak: u8,
    /// Its own and those of nested calls; a number that is no body's opens none.
    frames: u8,
}

/// What is in force in a round, and the heights at its start.
#[derive(Clone, Copy)]
struct Stand {
    place: usize,
    height: u32,
    returns: u32,
    wide: bool,
    nodes: usize,
    /// Children that were opened and not finished.
    open: usize,
}

/// Of a walk: the token that ends a round and the heights there, and what a body comes to.
#[derive(Default)]
struct Walked {
    /// The place of the one token that must be met exactly once.
    fixed: Option<usize>,
    height: u32,
    returns: u32,
    /// The highest place.
    far: usize,
    need: u32,
    peak: u32,
    return_peak: u32,
    frames: u32,
    /// The data height at the ends of a body.
    out: Option<u32>,
}

struct Screener<'a> {
    program: &'a [u8],
    heights: Vec<Heights>,
    /// Places that a branch leads to, with the heights there.
    waiting: Vec<(u16, Heights)>,
    numbers: Numbers<Sum>,
}

/// Screens the ROM: 0 where heights can be assigned, with the marks; else 6, 1 to 5, or 31.
pub fn screen(rom: &[u8], marks: &mut [u8]) -> u32 {
    if marks.len() != MARKS_SIZE {
        return 6;
    }
    let mut room = Vec::new();
    let program = match header::open(rom, &mut room) {
        Ok(program) => program,
        Err(why) => return why,
    };
    let mut screener = Screener::new(program);
    if screener.program(program.wide).is_none() {
        marks.fill(0);
        return NO_HEIGHTS;
    }
    let (front, rest) = marks.split_at_mut(program.bytes.len());
    for (mark, heights) in front.iter_mut().zip(&screener.heights) {
        *mark = *heights as u8;
    }
    rest.fill(0);
    0
}

impl<'a> Screener<'a> {
    fn new(program: Program<'a>) -> Self {
        Screener { program: program.bytes, heights: vec![UNMET; program.bytes.len()], waiting: Vec::new(), numbers: Numbers::new() }
    }

    /// All rounds; none where a rule is not met, as in every method here.
    fn program(&mut self, wide: bool) -> Option<()> {
        let mut stand = Stand { place: crate::FIRST_PLACE, height: 0, returns: 0, wide, nodes: 2, open: 0 };
        loop {
            let walked = self.walk::<false>(&stand)?;
            let place = match walked.fixed {
                Some(place) => place,
                None => return Some(()),
            };
            // a way that leads past it would go around it, or overlap it
            if walked.far > place {
                return None;
            }
            let token = token_at(self.program, stand.wide, place)?;
            stand.place = token.next;
            stand.height = walked.height;
            stand.returns = walked.returns;
            self.carry_out(&token, &mut stand)?;
        }
    }

    /// What a token that ends a round leaves to the next one.
    fn carry_out(&mut self, token: &Token, stand: &mut Stand) -> Option<()> {
        match token.row.sort {
            Sort::Define => self.define(token, stand),
            Sort::NewDevice if stand.nodes < NODES_MOST => {
                stand.nodes += 1;
                stand.open += 1;
                Some(())
            }
            Sort::FinishDevice if stand.open > 0 => {
                stand.open -= 1;
                Some(())
            }
            Sort::Widen => {
                stand.wide = true;
                Some(())
            }
            _ => None,
        }
    }

    fn define(&mut self, token: &Token, stand: &mut Stand) -> Option<()> {
        if !well_formed(token) || !self.numbers.is_free(token.operand) {
            return None;
        }
        let sum = if token.kind == 0xB7 {
            let end = self.read_body(token.next, stand.wide)?;
            let sum = self.body(token.next, end, stand.wide)?;
            stand.place = end + 1;
            sum
        } else {
            if token.kind != 0xB9 {
                stand.height = stand.height.checked_sub(1)?;
            }
            Sum { is_value: token.kind == 0xB8, need: 0, out: 1, peak: 1, return_peak: 0, frames: 0 }
        };
        self.numbers.define(token.operand, sum);
        Some(())
    }

    /// Reads a body, whose tokens must all be good in themselves, marks its token starts, and gives the place of its C2.
    fn read_body(&mut self, entry: usize, wide: bool) -> Option<usize> {
        let mut place = entry;
        loop {
            let token = token_at(self.program, wide, place)?;
            if matches!(token.row.stands, Stands::Outside | Stands::Nowhere) {
                return None;
            }
            match token.row.sort {
                Sort::Unlisted => return None,
                Sort::Call => {
                    self.numbers.get(token.number)?;
                }
                Sort::Assign => self.value(token.operand)?,
                Sort::Branch | Sort::Choice => {
                    aim_at(self.program, wide, place + 1)?;
                }
                _ => {}
            }
            self.heights[place] = START;
            if token.number == 0xC2 {
                return Some(place);
            }
            place = token.next;
        }
    }

    /// A number is a value.
    fn value(&self, number: u16) -> Option<()> {
        if self.numbers.get(number)?.is_value {
            Some(())
        } else {
            None
        }
    }

    /// Walks a body that was read, and moves its heights to those where it is entered at its need.
    fn body(&mut self, entry: usize, end: usize, wide: bool) -> Option<Sum> {
        let stand = Stand { place: entry, height: ENTERED, returns: 0, wide, nodes: 0, open: 0 };
        let walked = self.walk::<true>(&stand)?;
        let out = walked.out?;
        if walked.peak + walked.need > ENTERED + DATA_MOST as u32 {
            return None;
        }
        let down = (ENTERED - walked.need) as Heights;
        for heights in &mut self.heights[entry..=end] {
            *heights = if matches!(*heights, UNMET | START) { UNMET } else { *heights - down };
        }
        Some(Sum {
            is_value: false,
            need: walked.need as u8,
            out: (out + walked.need - ENTERED) as u8,
            peak: (walked.peak + walked.need - ENTERED) as u8,
            return_peak: walked.return_peak as u8,
            frames: walked.frames as u8,
        })
    }

    /// Walks from a place along every way. In a body only its token starts are met, and what it comes to is told; outside, tokens must not
    /// overlap, and the walk does not go on behind one that must be met exactly once.
    fn walk<const BODY: bool>(&mut self, stand: &Stand) -> Option<Walked> {
        let program = self.program;
        let most = if BODY { ENTERED + DATA_MOST as u32 } else { DATA_MOST as u32 };
        let own_frame = u32::from(BODY);
        let mut walked = Walked { peak: if BODY { ENTERED } else { 0 }, frames: own_frame, ..Walked::default() };
        let mut place = stand.place;
        let mut height = stand.height;
        let mut returns = stand.returns;
        loop {
            let heights = (returns << 8 | (height + 1)) as Heights;
            let old = self.heights.get_mut(place)?;
            if *old != heights {
                if *old != (if BODY { START } else { UNMET }) {
                    return None;
                }
                *old = heights;
                let token = token_at(program, stand.wide, place)?;
                if !BODY {
                    self.cover(place, token.next)?;
                    walked.far = walked.far.max(place);
                }

                let row = &token.row;
                let kept = height.checked_sub(u32::from(row.takes))?;
                let mut after = kept + u32::from(row.gives);
                if BODY {
                    walked.need = walked.need.max((ENTERED + u32::from(row.takes)).saturating_sub(height));
                    walked.peak = walked.peak.max(height);
                    walked.return_peak = walked.return_peak.max(returns);
                }
                match row.sort {
                    Sort::Plain => {
                        returns = returns.checked_sub(u32::from(row.return_takes))? + u32::from(row.return_gives);
                        if returns > RETURN_MOST as u32 {
                            return None;
                        }
                    }
                    Sort::Call => {
                        let sum = self.numbers.get(token.number)?;
                        let kept = height.checked_sub(u32::from(sum.need))?;
                        after = kept + u32::from(sum.out);
                        let peak = kept + u32::from(sum.peak);
                        let return_peak = returns + u32::from(sum.return_peak);
                        let frames = own_frame + u32::from(sum.frames);
                        if peak > most || return_peak > RETURN_MOST as u32 || frames > FRAMES_MOST as u32 {
                            return None;
                        }
                        if BODY {
                            walked.need = walked.need.max((ENTERED + u32::from(sum.need)).saturating_sub(height));
                            walked.peak = walked.peak.max(peak);
                            walked.return_peak = walked.return_peak.max(return_peak);
                            walked.frames = walked.frames.max(frames);
                        }
                    }
                    Sort::Choice => {
                        let aim = self.aim(stand, place)?;
                        self.waiting.push((aim as u16, (returns << 8 | (after + 1)) as Heights));
                    }
                    Sort::Branch => {
                        place = self.aim(stand, place)?;
                        continue;
                    }
                    Sort::Assign => self.value(token.operand)?,
                    Sort::Leave if BODY => {
                        if returns != 0 || *walked.out.get_or_insert(height) != height {
                            return None;
                        }
                    }
                    Sort::Finish if !BODY => {
                        if stand.open != 0 {
                            return None;
                        }
                    }
                    Sort::Define | Sort::Widen | Sort::NewDevice | Sort::FinishDevice if !BODY => {
                        // of two, a way leads around one
                        if walked.fixed.is_some() {
                            return None;
                        }
                        walked.fixed = Some(place);
                        walked.height = height;
                        walked.returns = returns;
                    }
                    _ => return None,
                }
                if after > most {
                    return None;
                }
                if matches!(row.sort, Sort::Plain | Sort::Call | Sort::Choice | Sort::Assign) {
                    place = token.next;
                    height = after;
                    continue;
                }
            }
            // this way ends, or joins one that was walked
            match self.waiting.pop() {
                Some((aim, heights)) => {
                    place = usize::from(aim);
                    height = u32::from(heights & 0xFF) - 1;
                    returns = u32::from(heights >> 8);
                }
                None => return Some(walked),
            }
        }
    }

    /// Where a branch leads: no lower than the text that is walked starts.
    #[inline(always)]
    fn aim(&self, stand: &Stand, place: usize) -> Option<usize> {
        let aim = aim_at(self.program, stand.wide, place + 1)?;
        if aim < stand.place {
            return None;
        }
        Some(aim)
    }

    /// The bytes of a token behind its first belong to no other token.
    #[inline(always)]
    fn cover(&mut self, place: usize, next: usize) -> Option<()> {
        if next == place + 1 {
            return Some(());
        }
        let inside = &mut self.heights[place + 1..next];
        if inside.iter().any(|heights| *heights != UNMET) {
            return None;
        }
        inside.fill(COVERED);
        Some(())
    }
}
