//! The interrupt registers HINT and LINT: "Enables are bits 25 to 16, event status bits 9 to 0."

/// "Event positions have one set of names for both."
pub mod event {
    pub const LOCAL_FIFO_OVERFLOW: u32 = 1 << 0;
    pub const PCI_FIFO_OVERFLOW: u32 = 1 << 1;
    pub const MAILBOX: u32 = 1 << 3;
    pub const EXTERNAL_SIGNAL: u32 = 1 << 4;
    pub const DMA_COMPLETE: u32 = 1 << 5;
    pub const INBOUND_POST_NOT_EMPTY: u32 = 1 << 6;
    pub const OUTBOUND_POST_NOT_EMPTY: u32 = 1 << 7;
    pub const TARGET_ABORT: u32 = 1 << 8;
    pub const MASTER_ABORT: u32 = 1 << 9;

    /// The positions that exist in LINT: 2 is reserved, and 4 is the host's only.
    pub const OF_LOCAL: u32 = LOCAL_FIFO_OVERFLOW
        | PCI_FIFO_OVERFLOW
        | MAILBOX
        | DMA_COMPLETE
        | FOLLOWING
        | TARGET_ABORT
        | MASTER_ABORT;
    /// The positions that exist in HINT.
    pub const OF_HOST: u32 = OF_LOCAL | EXTERNAL_SIGNAL;
    /// "Bits 6 and 7 follow FIFOs 1 and 3": they are never stored.
    pub const FOLLOWING: u32 = INBOUND_POST_NOT_EMPTY | OUTBOUND_POST_NOT_EMPTY;
}

/// The stored part of HINT or LINT. Both numbers have position 0 in bit 0.
#[derive(Clone, Copy, Debug, Default, PartialEq, Eq)]
pub struct Register {
    pub enables: u32,
    pub status: u32,
}

impl Register {
    /// "stored event bits exist for that side and exclude 6 and 7, enable bits exist for that side"
    pub fn sound(&self, existing: u32) -> bool {
        self.status & !(existing & !event::FOLLOWING) == 0 && self.enables & !existing == 0
    }

    /// The register as read, `following` being what bits 6 and 7 show.
    pub fn read(&self, following: u32) -> u32 {
        self.enables << 16 | self.status | following
    }

    /// "A write replaces the enables (reserved positions stay 0) and clears each status bit where
    /// it has a 1. A 0 clears nothing."
    pub fn write(&mut self, value: u32, existing: u32) {
        self.enables = value >> 16 & existing;
        self.status &= !value;
    }

    /// "A line is active exactly when some position has status and enable both set."
    pub fn line(&self, following: u32) -> bool {
        (self.status | following) & self.enables != 0
    }
}
