//! Nodes, and properties in the store.

use crate::{NODES_MOST, PROPERTIES_MOST, STORE_SIZE};

#[derive(Clone, Copy)]
struct Record {
    node: u8,
    name: u8,
    value: u16,
}

/// The store holds name and value of each property in order of creation, so that a record needs no more than its lengths.
pub struct Tree<'a> {
    store: &'a mut [u8; STORE_SIZE],
    /// The bytes of the store that are in use; those behind are zero.
    live: usize,
    records: [Record; PROPERTIES_MOST],
    held: usize,
    parents: [u8; NODES_MOST],
    nodes: usize,
    active: usize,
}

impl<'a> Tree<'a> {
    /// The root and its child, which is active. The store is zeroed.
    pub fn new(store: &'a mut [u8; STORE_SIZE]) -> Self {
        store.fill(0);
        Tree {
            store,
            live: 0,
            records: [Record { node: 0, name: 0, value: 0 }; PROPERTIES_MOST],
            held: 0,
            parents: [0; NODES_MOST],
            nodes: 2,
            active: 1,
        }
    }

    /// new-device
    pub fn new_device(&mut self) -> Result<(), u32> {
        if self.nodes == NODES_MOST {
            return Err(20);
        }
        self.parents[self.nodes] = self.active as u8;
        self.active = self.nodes;
        self.nodes += 1;
        Ok(())
    }

    /// finish-device
    pub fn finish_device(&mut self) -> Result<(), u32> {
        if self.active == 1 {
            return Err(20);
        }
        self.active = usize::from(self.parents[self.active]);
        Ok(())
    }

    /// The active node's property of this name: its record and the place of its value.
    fn find(&self, name: &[u8]) -> Option<(usize, usize)> {
        let mut at = 0;
        for (index, record) in self.records[..self.held].iter().enumerate() {
            let value = at + usize::from(record.name);
            if usize::from(record.node) == self.active && usize::from(record.name) == name.len() && self.store[at..value] == *name {
                return Some((index, value));
            }
            at = value + usize::from(record.value);
        }
        None
    }

    /// Writes a property of the active node, with a null behind its value where that is asked for.
    pub fn put(&mut self, name: &[u8], value: &[u8], null: bool) -> Result<(), u32> {
        let size = value.len() + usize::from(null);
        let (at, live) = match self.find(name) {
            Some((index, at)) => {
                let record = &mut self.records[index];
                let old = usize::from(record.value);
                let live = self.live - old + size;
                if live > STORE_SIZE {
                    return Err(27);
                }
                record.value = size as u16;
                if size != old {
                    self.store.copy_within(at + old..self.live, at + size);
                }
                (at, live)
            }
            None => {
                let at = self.live + name.len();
                let live = at + size;
                if self.held == PROPERTIES_MOST || live > STORE_SIZE {
                    return Err(27);
                }
                self.records[self.held] = Record { node: self.active as u8, name: name.len() as u8, value: size as u16 };
                self.held += 1;
                self.store[self.live..at].copy_from_slice(name);
                (at, live)
            }
        };
        self.store[at..at + value.len()].copy_from_slice(value);
        if null {
            self.store[at + value.len()] = 0;
        }
        if live < self.live {
            self.store[live..self.live].fill(0);
        }
        self.live = live;
        Ok(())
    }
}

/// Whether a property may have this name: 1 to 31 bytes, all printed, no upper-case letter and none of / \ : [ ] @.
pub fn is_name(name: &[u8]) -> bool {
    let good = |byte: &u8| matches!(byte, 0x21..=0x7E) && !matches!(byte, b'A'..=b'Z' | b'/' | b'\\' | b':' | b'[' | b']' | b'@');
    (1..=31).contains(&name.len()) && name.iter().all(good)
}
