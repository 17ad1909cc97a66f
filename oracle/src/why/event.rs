//! An event that is raised by what happens and cleared by a write or a reset: every position but 6
//! and 7.

use crate::access::{kind, Access, Answer};

use super::{Book, Why};

/// Bit 24 of a mailbox write.
const MAILBOX_RAISE: u32 = 1 << 24;

pub struct Event {
    side: u8,
    position: u32,
    /// "the earliest record that raised it since the last clear or reset"
    raised: Option<usize>,
    /// "the record that last cleared it"
    cleared: Option<usize>,
}

impl Event {
    pub fn of(side: u8, position: u32) -> Event {
        Event {
            side,
            position,
            raised: None,
            cleared: None,
        }
    }

    fn is_raised_by(&self, access: &Access, answer: &Answer) -> bool {
        raised(access, answer) == Some(self.position) && self.is_for_this_side(access)
    }

    /// The mailbox event is "for the other side", the external signal for the host; the others "are
    /// raised in both registers".
    fn is_for_this_side(&self, access: &Access) -> bool {
        match self.position {
            3 => access.side != self.side,
            4 => self.side == 0,
            _ => true,
        }
    }

    /// Whether it would clear the bit. A write is to the "caller's own register", and "A 0 clears
    /// nothing".
    fn is_cleared_by(&self, access: &Access) -> bool {
        match access.kind {
            kind::RESET => true,
            kind::INTERRUPT_WRITE => access.side == self.side && access.b >> self.position & 1 == 1,
            _ => false,
        }
    }
}

/// The position that a done access raises, on whichever side.
fn raised(access: &Access, answer: &Answer) -> Option<u32> {
    match (access.kind, answer.v) {
        // "X 0 lost to overflow": "event 0 if the local side put it, event 1 if the host did"
        (kind::PUT, _) if answer.x == 0 => Some(1 - u32::from(access.side)),
        (kind::MAILBOX_WRITE, _) if access.b & MAILBOX_RAISE != 0 => Some(3),
        (kind::EXTERNAL_PIN, _) => Some(4),
        (kind::STEP, 2) => Some(5),
        (kind::STEP, 3) => Some(8),
        (kind::STEP, 4) => Some(9),
        _ => None,
    }
}

impl Book for Event {
    fn note(&mut self, record: usize, access: &Access, answer: &Answer) {
        if self.is_raised_by(access, answer) {
            self.raised.get_or_insert(record);
        }
        // "A write or reset counts as a clear only if the bit was set."
        if self.is_cleared_by(access) && self.raised.take().is_some() {
            self.cleared = Some(record);
        }
    }

    fn why(&self) -> Why {
        match (self.raised, self.cleared) {
            (Some(record), _) => Why::Set(record),
            (None, Some(record)) => Why::Cleared(record),
            (None, None) => Why::Never,
        }
    }
}
