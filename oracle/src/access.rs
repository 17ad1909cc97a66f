//! The seventeen kinds of access.

use crate::bays;
use crate::card::{Card, Side, FIFO_DEPTH};
use crate::dword::{self, ALL_LANES};
use crate::interrupts::event;
use crate::transfer::{Running, Transfer};

pub mod kind {
    pub const RESET: u8 = 0;
    pub const SHARED_READ: u8 = 1;
    pub const SHARED_WRITE: u8 = 2;
    pub const WINDOW_READ: u8 = 3;
    pub const WINDOW_WRITE: u8 = 4;
    pub const TAKE: u8 = 5;
    pub const PUT: u8 = 6;
    pub const CLAIM: u8 = 7;
    pub const RELEASE: u8 = 8;
    pub const MAILBOX_WRITE: u8 = 9;
    pub const MAILBOX_READ: u8 = 10;
    pub const INTERRUPT_READ: u8 = 11;
    pub const INTERRUPT_WRITE: u8 = 12;
    pub const LINE: u8 = 13;
    pub const START: u8 = 14;
    pub const STEP: u8 = 15;
    pub const EXTERNAL_PIN: u8 = 16;
}

/// "V 4,294,967,295, X 0" if a FIFO is empty.
const EMPTY_TAKE: u32 = 4_294_967_295;
/// Bit 24 of a mailbox write.
const MAILBOX_RAISE: u32 = 1 << 24;

/// V of a step.
const MOVED_ONE: u32 = 1;
const MOVED_LAST: u32 = 2;
const ABORTED_BY_TARGET: u32 = 3;
const ABORTED_BY_MASTER: u32 = 4;

/// "Kind, side and selector S are bytes; A, B, C, V and X are 32-bit numbers."
#[derive(Clone, Copy, Debug, Default, PartialEq, Eq)]
pub struct Access {
    pub kind: u8,
    pub side: u8,
    pub s: u8,
    pub a: u32,
    pub b: u32,
    pub c: u32,
}

impl Access {
    pub const fn new(kind: u8, side: u8, s: u8, a: u32, b: u32, c: u32) -> Access {
        Access {
            kind,
            side,
            s,
            a,
            b,
            c,
        }
    }

    /// Kind, side, S, A, B and C.
    pub fn numbers(&self) -> [u32; 6] {
        let [kind, side, s] = [self.kind, self.side, self.s].map(u32::from);
        [kind, side, s, self.a, self.b, self.c]
    }

    /// The transfer that a start names.
    pub fn transfer(&self) -> Transfer {
        Transfer::new(self.s, self.a, self.b, self.c)
    }

    /// The side, once it is known to be 0 or 1.
    pub fn caller(&self) -> Side {
        if self.side == 0 {
            Side::Host
        } else {
            Side::Local
        }
    }
}

/// "Every access answers a number and two values, V and X."
#[derive(Clone, Copy, Debug, PartialEq, Eq)]
pub struct Answer {
    pub number: u8,
    pub v: u32,
    pub x: u32,
}

impl Answer {
    pub const fn done(v: u32, x: u32) -> Answer {
        Answer { number: 0, v, x }
    }

    /// "V and X are 0"
    pub const fn refused(number: u8) -> Answer {
        Answer { number, v: 0, x: 0 }
    }

    /// Number, V and X.
    pub fn numbers(&self) -> [u32; 3] {
        [self.number.into(), self.v, self.x]
    }
}

impl Card {
    /// One access. A refusal leaves record and memories unchanged.
    pub fn access(&mut self, shared: &mut [u8], window: &mut [u8], access: Access) -> Answer {
        let number = self.refusal(shared, window, &access);
        if number != 0 {
            return Answer::refused(number);
        }
        let Access { s, a, b, .. } = access;
        let caller = access.caller();
        let selected = usize::from(s);
        let (v, x) = match access.kind {
            kind::RESET => {
                self.reset();
                (0, 0)
            }
            kind::SHARED_READ => (dword::read(shared, a as usize, s), 0),
            kind::SHARED_WRITE => {
                dword::write(shared, a as usize, s, b);
                (0, 0)
            }
            kind::WINDOW_READ => (dword::read(window, self.window_offset(a), s), 0),
            kind::WINDOW_WRITE => {
                dword::write(window, self.window_offset(a), s, b);
                (0, 0)
            }
            kind::TAKE => self.take(selected),
            kind::PUT => self.put(selected, caller, b),
            kind::CLAIM => self.claim(selected, caller),
            kind::RELEASE => self.release(selected, caller),
            kind::MAILBOX_WRITE => self.mailbox_write(caller, b),
            kind::MAILBOX_READ => self.mailbox_read(caller),
            kind::INTERRUPT_READ => (self.register(caller).read(self.following()), 0),
            kind::INTERRUPT_WRITE => self.interrupt_write(caller, b),
            kind::LINE => (u32::from(self.register(caller).line(self.following())), 0),
            kind::START => self.start(access.transfer()),
            kind::STEP => self.step(shared, window),
            // kind 16, the last that is not refused
            _ => {
                self.hint.status |= event::EXTERNAL_SIGNAL;
                (0, 0)
            }
        };
        Answer::done(v, x)
    }

    /// The window offset of a PCI address that is not below the base.
    fn window_offset(&self, address: u32) -> usize {
        (address - self.settings.base) as usize
    }

    /// "V entry [..]; if empty V 4,294,967,295, X 0". Document 02, L2: "A take answers in X the
    /// entries held before it, so X 0 still means empty and X 1 means that was the last."
    fn take(&mut self, fifo: usize) -> (u32, u32) {
        let before = self.held(fifo);
        let v = self.fifos[fifo].pop_front().unwrap_or(EMPTY_TAKE);
        (v, before)
    }

    /// "A put on a full one keeps it as it is, loses the entry and raises event 0 if the local
    /// side put it, event 1 if the host did, in both registers." Document 02, L2: "V of a put is
    /// the number of entries held after it, 1 to 32; a lost put answers V 32, X 0."
    fn put(&mut self, fifo: usize, caller: Side, entry: u32) -> (u32, u32) {
        if self.fifos[fifo].len() < FIFO_DEPTH {
            self.fifos[fifo].push_back(entry);
            return (self.held(fifo), 1);
        }
        self.raise_in_both(match caller {
            Side::Local => event::LOCAL_FIFO_OVERFLOW,
            Side::Host => event::PCI_FIFO_OVERFLOW,
        });
        (self.held(fifo), 0)
    }

    /// The entries that a FIFO holds.
    fn held(&self, fifo: usize) -> u32 {
        self.fifos[fifo].len() as u32
    }

    /// "A claim sets the caller's flag exactly when the other side's flag of that pair is clear;
    /// otherwise nothing changes."
    fn claim(&mut self, pair: usize, caller: Side) -> (u32, u32) {
        let pair = &mut self.pairs[pair];
        let (own, other) = match caller {
            Side::Host => (&mut pair.host, pair.local),
            Side::Local => (&mut pair.local, pair.host),
        };
        if !other {
            *own = true;
        }
        (u32::from(*own), 0)
    }

    /// "caller's flag clear"
    fn release(&mut self, pair: usize, caller: Side) -> (u32, u32) {
        match caller {
            Side::Host => self.pairs[pair].host = false,
            Side::Local => self.pairs[pair].local = false,
        }
        (0, 0)
    }

    /// "A write stores bits 15 to 0; bit 24 set raises event 3 for the other side; other bits are
    /// ignored."
    fn mailbox_write(&mut self, caller: Side, value: u32) -> (u32, u32) {
        let data = value & 0xFFFF;
        let raised = if value & MAILBOX_RAISE != 0 {
            event::MAILBOX
        } else {
            0
        };
        match caller {
            Side::Host => {
                self.mailboxes.hldata = data;
                self.lint.status |= raised;
            }
            Side::Local => {
                self.mailboxes.lhdata = data;
                self.mailboxes.written = true;
                self.hint.status |= raised;
            }
        }
        (0, 0)
    }

    /// "A read gives the mailbox addressed to the caller." "On local to host, byte 0 is a bay
    /// index, 0 to 23." "X is that label on a host read if the mailbox was written since reset and
    /// byte 0 is at most 23; otherwise 0."
    fn mailbox_read(&self, caller: Side) -> (u32, u32) {
        match caller {
            Side::Local => (self.mailboxes.hldata, 0),
            Side::Host => {
                let data = self.mailboxes.lhdata;
                let [byte_0, ..] = data.to_le_bytes();
                let label = bays::label(byte_0).filter(|_| self.mailboxes.written);
                (data, label.map_or(0, u32::from))
            }
        }
    }

    /// "caller's own register"
    fn interrupt_write(&mut self, caller: Side, value: u32) -> (u32, u32) {
        match caller {
            Side::Host => self.hint.write(value, event::OF_HOST),
            Side::Local => self.lint.write(value, event::OF_LOCAL),
        }
        (0, 0)
    }

    /// "V = size / 4"
    fn start(&mut self, transfer: Transfer) -> (u32, u32) {
        self.running = Some(Running { transfer, moved: 0 });
        (transfer.dwords(), 0)
    }

    /// "A step treats dword i, counting from 0, at PCI address B + 4i."
    fn step(&mut self, shared: &mut [u8], window: &mut [u8]) -> (u32, u32) {
        let Some(Running { transfer, moved }) = self.running else {
            return (0, 0);
        };
        let address = u64::from(transfer.pci) + 4 * u64::from(moved);
        if self.settings.in_abort_range(address) {
            return self.end_transfer(event::TARGET_ABORT, ABORTED_BY_TARGET, moved);
        }
        let Some(range) = self.settings.window_range(address, 4) else {
            return self.end_transfer(event::MASTER_ABORT, ABORTED_BY_MASTER, moved);
        };
        let in_shared = transfer.shared as usize + 4 * moved as usize;
        if transfer.direction == 0 {
            let dword = dword::read(window, range.start, ALL_LANES);
            dword::write(shared, in_shared, ALL_LANES, dword);
        } else {
            let dword = dword::read(shared, in_shared, ALL_LANES);
            dword::write(window, range.start, ALL_LANES, dword);
        }
        let moved = moved + 1;
        if moved == transfer.dwords() {
            return self.end_transfer(event::DMA_COMPLETE, MOVED_LAST, moved);
        }
        self.running = Some(Running { transfer, moved });
        (MOVED_ONE, moved)
    }

    /// The last step of a transfer: its event, its V, and X the dwords moved.
    fn end_transfer(&mut self, event: u32, v: u32, moved: u32) -> (u32, u32) {
        self.running = None;
        self.raise_in_both(event);
        (v, moved)
    }
}
