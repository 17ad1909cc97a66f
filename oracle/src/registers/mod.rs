//! Register accesses: "Host drivers read and write dwords at offsets in the 32 KB map" (document 02,
//! L4). Where an offset names an access of document 01, it is that access by the same side, and its
//! answer is handed on.

pub mod map;
pub mod refusal;

use crate::access::{kind, Access, Answer};
use crate::card::{Card, Side, PAIRS};
use crate::dma::Dma;
use crate::dword::ALL_LANES;
use crate::world::World;

use map::{resource, Resource};

/// The directions of a register access.
pub const READ: u8 = 0;
pub const WRITE: u8 = 1;

/// "side, offset, direction of access and dword": two bytes and two numbers of 32 bits.
#[derive(Clone, Copy, Debug, Default, PartialEq, Eq)]
pub struct RegisterAccess {
    pub side: u8,
    pub offset: u32,
    pub direction: u8,
    pub dword: u32,
}

impl RegisterAccess {
    pub const fn new(side: u8, offset: u32, direction: u8, dword: u32) -> RegisterAccess {
        RegisterAccess {
            side,
            offset,
            direction,
            dword,
        }
    }

    pub const fn read(side: u8, offset: u32) -> RegisterAccess {
        RegisterAccess::new(side, offset, READ, 0)
    }

    pub const fn write(side: u8, offset: u32, dword: u32) -> RegisterAccess {
        RegisterAccess::new(side, offset, WRITE, dword)
    }
}

/// ARBUTIL has a byte for each pair, the host's flag in its bit 0, the local side's in bit 1.
fn flag_bit(pair: usize, side: Side) -> u32 {
    1 << (8 * pair as u32 + side as u32)
}

impl World {
    /// One register access. A refusal leaves record and memories unchanged.
    pub fn register_access(&mut self, access: RegisterAccess) -> Answer {
        let RegisterAccess {
            offset,
            direction,
            dword,
            ..
        } = access;
        if self.unfit() {
            return Answer::refused(1);
        }
        let caller = match access.side {
            0 => Side::Host,
            1 => Side::Local,
            _ => return Answer::refused(2),
        };
        let Some(resource) = resource(offset) else {
            return Answer::refused(11);
        };
        match direction {
            READ => self.register_read(resource, caller, dword),
            WRITE => self.register_write(resource, caller, dword),
            _ => Answer::refused(4),
        }
    }

    /// The dword of a read is handed on, so that one that is not 0 is refused as a field that is
    /// not used.
    fn register_read(&mut self, resource: Resource, caller: Side, dword: u32) -> Answer {
        let mut direct = |kind, s, a| self.access(Access::new(kind, caller as u8, s, a, dword, 0));
        match resource {
            Resource::Port { taken, .. } => direct(kind::TAKE, taken, 0),
            Resource::Shared(address) => direct(kind::SHARED_READ, ALL_LANES, address),
            Resource::Interrupts(side) if side == caller => direct(kind::INTERRUPT_READ, 0, 0),
            Resource::Mailbox(writer) if writer != caller => direct(kind::MAILBOX_READ, 0, 0),
            _ if dword != 0 => Answer::refused(3),
            _ => Answer::done(plain_value(&self.card, resource), 0),
        }
    }

    fn register_write(&mut self, resource: Resource, caller: Side, dword: u32) -> Answer {
        let mut direct = |kind, s, a| self.access(Access::new(kind, caller as u8, s, a, dword, 0));
        match resource {
            Resource::Port { put, .. } => direct(kind::PUT, put, 0),
            Resource::Shared(address) => direct(kind::SHARED_WRITE, ALL_LANES, address),
            // no access reaches the other side's register, or the mailbox that it writes
            Resource::Interrupts(side) | Resource::Mailbox(side) if side != caller => {
                Answer::refused(5)
            }
            Resource::Interrupts(_) => direct(kind::INTERRUPT_WRITE, 0, 0),
            Resource::Mailbox(_) => direct(kind::MAILBOX_WRITE, 0, 0),
            Resource::ArbitrationFlags => self.flags_write(caller, dword),
            Resource::Dmalbase => self.dma_write(Dma::write_dmalbase, dword),
            Resource::Dmahbase => self.dma_write(Dma::write_dmahbase, dword),
            Resource::Dmasize => self.dma_write(Dma::write_dmasize, dword),
            Resource::Dmactl => self.dmactl_write(caller, dword),
        }
    }

    fn dma_write(&mut self, write: fn(&mut Dma, u32), dword: u32) -> Answer {
        write(&mut self.card.dma, dword);
        Answer::done(0, 0)
    }

    /// "A write to this bit by the PCI bus updates this bit if and only if the L0 bit is not set":
    /// a 1 claims and a 0 releases, all four pairs at once. The other side's bits are not looked
    /// at. V has the four answers' V at the caller's bits.
    fn flags_write(&mut self, caller: Side, dword: u32) -> Answer {
        let mut v = 0;
        for pair in 0..PAIRS {
            let bit = flag_bit(pair, caller);
            let kind = if dword & bit != 0 {
                kind::CLAIM
            } else {
                kind::RELEASE
            };
            let answer = self.access(Access::new(kind, caller as u8, pair as u8, 0, 0, 0));
            v += bit * answer.v;
        }
        Answer::done(v, 0)
    }

    /// "A write to the low byte of this register triggers the DMA to occur", and a dword has that
    /// byte. A refused start stores nothing.
    fn dmactl_write(&mut self, caller: Side, dword: u32) -> Answer {
        let answer = self.access(self.card.dma.start(caller, dword));
        if answer.number == 0 {
            self.card.dma.write_dmactl(caller, dword);
        }
        answer
    }
}

/// "A read there that is no such access answers as the sheet says, changing nothing."
fn plain_value(card: &Card, resource: Resource) -> u32 {
    match resource {
        Resource::Interrupts(side) => card.register(side).read(card.following()),
        // bit 24 "is write only", and "Unused bits are read as '0'"
        Resource::Mailbox(Side::Host) => card.mailboxes.hldata,
        Resource::Mailbox(Side::Local) => card.mailboxes.lhdata,
        Resource::ArbitrationFlags => arbutil(card),
        Resource::Dmalbase => card.dma.dmalbase(),
        Resource::Dmahbase => card.dma.dmahbase(),
        Resource::Dmasize => card.dma.dmasize(),
        Resource::Dmactl => card.dma.dmactl(),
        Resource::Port { .. } | Resource::Shared(_) => unreachable!("it is a kind of access"),
    }
}

/// All eight flags.
fn arbutil(card: &Card) -> u32 {
    let mut bits = 0;
    for (at, pair) in card.pairs.iter().enumerate() {
        for (set, side) in [(pair.host, Side::Host), (pair.local, Side::Local)] {
            if set {
                bits |= flag_bit(at, side);
            }
        }
    }
    bits
}
