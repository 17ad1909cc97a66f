//! "A caller may ask for a transfer's source bytes as a part of whichever memory holds them."

use crate::settings::Settings;
use crate::transfer::{Transfer, SHARED_LENGTH};

#[derive(Clone, Copy, Debug, PartialEq, Eq)]
pub enum Memory {
    Shared,
    Window,
}

/// `count` bytes from `offset` of one of the two memories.
#[derive(Clone, Copy, Debug, PartialEq, Eq)]
pub struct Part {
    pub memory: Memory,
    pub offset: usize,
    pub count: usize,
}

impl Part {
    /// "A refusal gives the empty part at the start of shared memory."
    pub const REFUSED: Part = Part {
        memory: Memory::Shared,
        offset: 0,
        count: 0,
    };

    /// The bytes of the part.
    pub fn of<'a>(&self, shared: &'a [u8], window: &'a [u8]) -> &'a [u8] {
        let memory = match self.memory {
            Memory::Shared => shared,
            Memory::Window => window,
        };
        &memory[self.offset..self.offset + self.count]
    }
}

/// "Any of causes 1, 4, 7, 8, 9 refuses, with the settings lent; here 9 also covers a window
/// source not wholly in the window. The abort range plays no role."
pub fn source(settings: Settings, shared: &[u8], window: &[u8], transfer: Transfer) -> Part {
    if !settings.pass()
        || shared.len() != SHARED_LENGTH as usize
        || window.len() != settings.length as usize
        || !transfer.meets_start_checks()
    {
        return Part::REFUSED;
    }
    let count = transfer.size as usize;
    if transfer.direction == 1 {
        return Part {
            memory: Memory::Shared,
            offset: transfer.shared as usize,
            count,
        };
    }
    match settings.window_range(u64::from(transfer.pci), transfer.size) {
        Some(range) => Part {
            memory: Memory::Window,
            offset: range.start,
            count,
        },
        None => Part::REFUSED,
    }
}
