//! The numbers of a DMA transfer, and what a start checks of them.

use crate::settings::PCI_SPACE;

/// Bytes of shared memory.
pub const SHARED_LENGTH: u32 = 16_384;

/// "Direction 0 is window to shared, 1 shared to window."
#[derive(Clone, Copy, Debug, PartialEq, Eq)]
pub struct Transfer {
    pub direction: u8,
    pub shared: u32,
    pub pci: u32,
    pub size: u32,
}

impl Transfer {
    pub const fn new(direction: u8, shared: u32, pci: u32, size: u32) -> Transfer {
        Transfer {
            direction,
            shared,
            pci,
            size,
        }
    }

    /// Direction, shared address, PCI address and size: S, A, B and C of a start.
    pub fn numbers(&self) -> [u32; 4] {
        [self.direction.into(), self.shared, self.pci, self.size]
    }

    /// Cause 4 of a start: "direction above 1".
    pub fn direction_out_of_range(&self) -> bool {
        self.direction > 1
    }

    /// Cause 7: "start with size zero".
    pub fn size_zero(&self) -> bool {
        self.size == 0
    }

    /// Cause 8: "size not a multiple of 4, or above 16,384".
    pub fn size_unfit(&self) -> bool {
        !self.size.is_multiple_of(4) || self.size > SHARED_LENGTH
    }

    /// Cause 9: "either address not a multiple of 4, A + C above 16,384, or B + C above
    /// 4,294,967,296".
    pub fn range_unfit(&self) -> bool {
        let size = u64::from(self.size);
        !(self.shared | self.pci).is_multiple_of(4)
            || u64::from(self.shared) + size > u64::from(SHARED_LENGTH)
            || u64::from(self.pci) + size > PCI_SPACE
    }

    /// "the start checks"
    pub fn meets_start_checks(&self) -> bool {
        !(self.direction_out_of_range()
            || self.size_zero()
            || self.size_unfit()
            || self.range_unfit())
    }

    /// The number of dwords, and of the steps that end the transfer.
    pub fn dwords(&self) -> u32 {
        self.size / 4
    }
}

#[derive(Clone, Copy, Debug, PartialEq, Eq)]
pub struct Running {
    pub transfer: Transfer,
    /// Dwords moved so far.
    pub moved: u32,
}

impl Running {
    /// "a running transfer meets the start checks with fewer dwords moved than size / 4"
    pub fn sound(&self) -> bool {
        self.transfer.meets_start_checks() && self.moved < self.transfer.dwords()
    }
}
