//! Accesses by what they do to an event.

use crate::access::{kind, Access};
use crate::drive::sides::{putter, taker, HOST, LOCAL};
use crate::settings::Settings;

pub const RESET: Access = Access::new(kind::RESET, HOST, 0, 0, 0, 0);
pub const LINE: Access = Access::new(kind::LINE, HOST, 0, 0, 0, 0);
pub const STEP: Access = Access::new(kind::STEP, HOST, 0, 0, 0, 0);
pub const PIN: Access = Access::new(kind::EXTERNAL_PIN, LOCAL, 0, 0, 0, 0);

/// Bit 24 of a mailbox write.
pub const RING: u32 = 1 << 24;

/// Where a transfer begins in the window, or beside it: its dword is copied, aborted by the target,
/// and by the master below the window and above.
pub const COPIED: u32 = 0;
pub const IN_ABORT_RANGE: u32 = 28_672;
pub const BELOW: u32 = 0_u32.wrapping_sub(4);
pub const ABOVE: u32 = 32_768;

/// By the side that puts into that FIFO.
pub fn put(fifo: u8, entry: u32) -> Access {
    Access::new(kind::PUT, putter(fifo), fifo, 0, entry, 0)
}

/// By the side that takes from that FIFO.
pub fn take(fifo: u8) -> Access {
    Access::new(kind::TAKE, taker(fifo), fifo, 0, 0, 0)
}

/// To the side's own interrupt register.
pub fn write(side: u8, value: u32) -> Access {
    Access::new(kind::INTERRUPT_WRITE, side, 0, 0, value, 0)
}

/// To the other side's mailbox.
pub fn mail(side: u8, value: u32) -> Access {
    Access::new(kind::MAILBOX_WRITE, side, 0, 0, value, 0)
}

/// A transfer of so many dwords to shared memory, from an offset of the window.
pub fn start(offset: u32, dwords: u32) -> Access {
    let pci = Settings::REPLAY.base.wrapping_add(offset);
    Access::new(kind::START, HOST, 0, 0, pci, 4 * dwords)
}
