//! Kinds 1 to 4.

use crate::access::{kind, Access};

use super::super::builder::Builder;
use super::super::sides::{HOST, LOCAL};

/// Every lane mask on both memories, the abort range too.
pub fn lanes(b: &mut Builder) {
    let settings = b.settings();
    for lanes in 0..16 {
        let (shared, window) = (b.rng.word(), b.rng.word());
        let a = 4 * b.rng.below(4);
        let pci = settings.base + 4 * b.rng.below(settings.length / 4);
        b.access(Access::new(
            kind::SHARED_WRITE,
            lanes & 1,
            lanes,
            a,
            shared,
            0,
        ));
        b.access(Access::new(kind::SHARED_READ, HOST, lanes ^ 6, a, 0, 0));
        b.access(Access::new(kind::WINDOW_WRITE, HOST, lanes, pci, window, 0));
        b.access(Access::new(kind::WINDOW_READ, HOST, lanes ^ 9, pci, 0, 0));
    }
}

/// The first and last dwords of both memories, what follows, the abort range, and addresses that
/// are no multiple of 4.
pub fn borders(b: &mut Builder) {
    let settings = b.settings();
    let base = settings.base;
    let last = settings.length.wrapping_sub(4);
    for offset in [0, last, settings.length, settings.lo, 0u32.wrapping_sub(4)] {
        let a = base.wrapping_add(offset);
        let value = b.rng.word();
        b.access(Access::new(kind::WINDOW_READ, HOST, 0, a, 0, 0));
        b.access(Access::new(kind::WINDOW_WRITE, HOST, 6, a, value, 0));
        b.access(Access::new(kind::WINDOW_READ, HOST, 0, a, 0, 0));
    }
    for low in 1..=3 {
        let a = base.wrapping_add(8 + low);
        b.access(Access::new(kind::WINDOW_READ, HOST, 0, a, 0, 0));
        b.access(Access::new(kind::WINDOW_WRITE, HOST, 0, a, 9, 0));
    }
    for a in [0, 16_380, 16_384] {
        let value = b.rng.word();
        b.access(Access::new(kind::SHARED_READ, LOCAL, 0, a, 0, 0));
        b.access(Access::new(kind::SHARED_WRITE, HOST, 9, a, value, 0));
        b.access(Access::new(kind::SHARED_READ, LOCAL, 0, a, 0, 0));
    }
}
