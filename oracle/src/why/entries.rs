//! The entries that a FIFO holds, with the records that put them: positions 6 and 7, on either side.

use std::collections::VecDeque;

use crate::access::{kind, Access, Answer};

use super::{Book, Holding, Why};

pub struct Entries {
    fifo: u8,
    held: VecDeque<Holding>,
    /// "the take or reset that emptied it"
    emptied: Option<usize>,
}

impl Entries {
    pub fn of(fifo: u8) -> Entries {
        Entries {
            fifo,
            held: VecDeque::new(),
            emptied: None,
        }
    }

    /// Takes out some of the oldest entries. Where none was held, nothing is emptied.
    fn take_out(&mut self, record: usize, count: usize) {
        let held = !self.held.is_empty();
        self.held.drain(..count);
        if held && self.held.is_empty() {
            self.emptied = Some(record);
        }
    }
}

impl Book for Entries {
    fn note(&mut self, record: usize, access: &Access, answer: &Answer) {
        let is_here = access.s == self.fifo;
        match access.kind {
            kind::RESET => self.take_out(record, self.held.len()),
            // "X 1 held; X 0 lost to overflow"
            kind::PUT if is_here && answer.x != 0 => self.held.push_back(Holding {
                entry: access.b,
                record,
            }),
            // "X 0 still means empty"
            kind::TAKE if is_here && answer.x != 0 => self.take_out(record, 1),
            _ => (),
        }
    }

    fn why(&self) -> Why {
        match self.emptied {
            _ if !self.held.is_empty() => Why::Held(self.held.iter().copied().collect()),
            Some(record) => Why::Cleared(record),
            None => Why::Never,
        }
    }
}
