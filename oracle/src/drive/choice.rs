//! Random accesses, steered by the state that they meet.

use crate::access::{kind, Access};
use crate::transfer::{Running, SHARED_LENGTH};

use super::builder::Builder;
use super::sides::{putter, taker, HOST, LOCAL};

/// How often a list turns to each part of the card, in the order of `choice`.
const WEIGHTS: [u32; 8] = [4, 4, 5, 3, 4, 6, 9, 1];

impl Builder<'_> {
    pub fn random(&mut self) {
        let access = self.choice();
        self.access(access);
    }

    /// A random access, not yet performed.
    pub fn choice(&mut self) -> Access {
        match self.rng.weighted(&WEIGHTS) {
            0 => self.shared_access(),
            1 => self.window_access(),
            2 => self.fifo_access(),
            3 => self.flag_access(),
            4 => self.mailbox_access(),
            5 => self.interrupt_access(),
            6 => self.transfer_access(),
            _ => Access::new(kind::RESET, self.side(), 0, 0, 0, 0),
        }
    }

    pub fn side(&mut self) -> u8 {
        self.rng.pick(&[HOST, LOCAL])
    }

    /// A dword: often one whose bits stand out.
    pub fn dword(&mut self) -> u32 {
        match self.rng.below(8) {
            0 => 0,
            1 => u32::MAX,
            2 => 1 << self.rng.below(32),
            _ => self.rng.word(),
        }
    }

    pub fn lanes(&mut self) -> u8 {
        self.rng.below(16) as u8
    }

    /// An address of shared memory, near what a running transfer moves if one runs.
    pub fn shared_address(&mut self) -> u32 {
        let near = 4 * self.rng.below(10);
        match self.world.card.running {
            Some(Running { transfer, .. }) if self.rng.one_in(2) => {
                (transfer.shared + near % transfer.size) & !3
            }
            _ => self.rng.pick(&[near, near, SHARED_LENGTH - 4 - near]),
        }
    }

    /// A PCI address: in the window, at one of its marks or just outside.
    pub fn pci_address(&mut self) -> u32 {
        let settings = self.settings();
        let inside = match settings.length {
            0 => 0,
            length => 4 * self.rng.below(length.min(128) / 4),
        };
        let offset = self.rng.pick(&[
            inside,
            inside,
            inside,
            0,
            settings.lo.wrapping_sub(4),
            settings.lo,
            settings.hi.wrapping_sub(4),
            settings.hi,
            settings.length.wrapping_sub(8),
            settings.length.wrapping_sub(4),
            settings.length,
            0u32.wrapping_sub(4),
        ]);
        settings.base.wrapping_add(offset)
    }

    fn shared_access(&mut self) -> Access {
        let (side, lanes, a) = (self.side(), self.lanes(), self.shared_address());
        if self.rng.one_in(2) {
            Access::new(kind::SHARED_READ, side, lanes, a, 0, 0)
        } else {
            Access::new(kind::SHARED_WRITE, side, lanes, a, self.dword(), 0)
        }
    }

    fn window_access(&mut self) -> Access {
        let (lanes, a) = (self.lanes(), self.pci_address());
        if self.rng.one_in(2) {
            Access::new(kind::WINDOW_READ, HOST, lanes, a, 0, 0)
        } else {
            Access::new(kind::WINDOW_WRITE, HOST, lanes, a, self.dword(), 0)
        }
    }

    fn fifo_access(&mut self) -> Access {
        let fifo = self.rng.below(4) as u8;
        if self.rng.one_in(3) {
            Access::new(kind::TAKE, taker(fifo), fifo, 0, 0, 0)
        } else {
            Access::new(kind::PUT, putter(fifo), fifo, 0, self.dword(), 0)
        }
    }

    fn flag_access(&mut self) -> Access {
        let kind = self.rng.pick(&[kind::CLAIM, kind::CLAIM, kind::RELEASE]);
        let (side, pair) = (self.side(), self.rng.below(4) as u8);
        Access::new(kind, side, pair, 0, 0, 0)
    }

    fn mailbox_access(&mut self) -> Access {
        let side = self.side();
        if self.rng.one_in(2) {
            return Access::new(kind::MAILBOX_READ, side, 0, 0, 0, 0);
        }
        let random = self.rng.below(32);
        let bay = self.rng.pick(&[0, 22, 23, 24, 255, random]);
        let upper = self.rng.pick(&[0, 0x100, 0xFF00]);
        let raise = self.rng.pick(&[0, 1 << 24]);
        let ignored = match self.rng.below(3) {
            0 => self.rng.word() & 0xFEFF_0000,
            _ => 0,
        };
        let b = bay | upper | raise | ignored;
        Access::new(kind::MAILBOX_WRITE, side, 0, 0, b, 0)
    }

    fn interrupt_access(&mut self) -> Access {
        let side = self.side();
        let card = &self.world.card;
        let own = if side == HOST { card.hint } else { card.lint };
        let kept = own.enables << 16;
        let event = 1 << self.rng.below(10);
        match self.rng.below(12) {
            0 => Access::new(kind::EXTERNAL_PIN, LOCAL, 0, 0, 0, 0),
            1..=3 => Access::new(kind::LINE, side, 0, 0, 0, 0),
            4..=7 => Access::new(kind::INTERRUPT_READ, side, 0, 0, 0, 0),
            _ => {
                let random = self.rng.word();
                let b = self.rng.pick(&[
                    0,
                    u32::MAX,
                    random,
                    random & 0xFFFF_0000,
                    kept | event,
                    kept | 0xC0,
                    kept | own.status,
                    event << 16,
                    own.status << 16,
                    random & 0xFC00_FC00,
                ]);
                Access::new(kind::INTERRUPT_WRITE, side, 0, 0, b, 0)
            }
        }
    }

    fn transfer_access(&mut self) -> Access {
        let side = self.side();
        let runs = self.world.card.running.is_some();
        if runs != self.rng.one_in(8) {
            return Access::new(kind::STEP, side, 0, 0, 0, 0);
        }
        let direction = self.rng.below(2) as u8;
        let size = match self.rng.below(12) {
            0 => SHARED_LENGTH,
            _ => 4 + 4 * self.rng.below(6),
        };
        let room = SHARED_LENGTH - size;
        let near = 4 * self.rng.below(8);
        let shared = self.rng.pick(&[near.min(room), near.min(room), room]);
        Access::new(
            kind::START,
            side,
            direction,
            shared,
            self.pci_address(),
            size,
        )
    }
}
