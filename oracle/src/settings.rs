//! "Settings: window base, window length, and a target-abort range given as two offsets lo and hi."

use std::ops::Range;

/// Highest window length that passes.
pub const LENGTH_LIMIT: u32 = 65_536;
/// One past the last PCI address.
pub const PCI_SPACE: u64 = 4_294_967_296;

#[derive(Clone, Copy, Debug, PartialEq, Eq)]
pub struct Settings {
    pub base: u32,
    pub length: u32,
    pub lo: u32,
    pub hi: u32,
}

impl Settings {
    pub const ZERO: Settings = Settings::new(0, 0, 0, 0);
    /// The settings of the replay program.
    pub const REPLAY: Settings = Settings::new(268_435_456, 32_768, 28_672, 32_768);

    pub const fn new(base: u32, length: u32, lo: u32, hi: u32) -> Settings {
        Settings {
            base,
            length,
            lo,
            hi,
        }
    }

    /// Base, length, lo and hi.
    pub fn numbers(&self) -> [u32; 4] {
        [self.base, self.length, self.lo, self.hi]
    }

    /// "They pass if all are multiples of 4, length is at most 65,536, base + length is at most
    /// 4,294,967,296, and lo <= hi <= length."
    pub fn pass(&self) -> bool {
        (self.base | self.length | self.lo | self.hi).is_multiple_of(4)
            && self.length <= LENGTH_LIMIT
            && u64::from(self.base) + u64::from(self.length) <= PCI_SPACE
            && self.lo <= self.hi
            && self.hi <= self.length
    }

    /// "lo included, hi not": `address` is that of the dword which a step treats.
    pub fn in_abort_range(&self, address: u64) -> bool {
        let base = u64::from(self.base);
        (base + u64::from(self.lo)..base + u64::from(self.hi)).contains(&address)
    }

    /// The part of the window that holds `count` bytes from a PCI address; none if one of them
    /// lies outside.
    pub fn window_range(&self, address: u64, count: u32) -> Option<Range<usize>> {
        let offset = address.checked_sub(u64::from(self.base))?;
        let end = offset + u64::from(count);
        (end <= u64::from(self.length)).then_some(offset as usize..end as usize)
    }
}
