//! The program numbers that are defined.

use crate::NUMBERS_MOST;

/// One entry for each number that is defined, found in one step: a number's slot leads to an entry, which is the number's own if its name
/// says so. So only the slots have to be cleared.
pub struct Numbers<T> {
    slots: [u8; 2048],
    entries: Vec<(u16, T)>,
}

pub fn is_program(number: u16) -> bool {
    (0x800..=0xFFF).contains(&number)
}

impl<T> Numbers<T> {
    pub fn new() -> Self {
        Numbers { slots: [0; 2048], entries: Vec::new() }
    }

    #[inline(always)]
    pub fn get(&self, number: u16) -> Option<&T> {
        match self.entries.get(usize::from(self.slots[usize::from(number) % 2048])) {
            Some((name, what)) if *name == number => Some(what),
            _ => None,
        }
    }

    #[inline(always)]
    pub fn get_mut(&mut self, number: u16) -> Option<&mut T> {
        match self.entries.get_mut(usize::from(self.slots[usize::from(number) % 2048])) {
            Some((name, what)) if *name == number => Some(what),
            _ => None,
        }
    }

    /// Whether a number can be defined: it is not there yet, and there is room.
    pub fn is_free(&self, number: u16) -> bool {
        self.entries.len() < NUMBERS_MOST && self.get(number).is_none()
    }

    /// Defines a number that is free.
    pub fn define(&mut self, number: u16, what: T) {
        self.slots[usize::from(number) % 2048] = self.entries.len() as u8;
        self.entries.push((number, what));
    }
}
