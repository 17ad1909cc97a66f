//! Starts and steps.

use crate::access::{kind, Access};

use super::super::builder::Builder;
use super::super::sides::{HOST, LOCAL};

/// Up to, at and past the abort range, from both directions.
pub fn abort_range(b: &mut Builder) {
    let settings = b.settings();
    let lo = settings.base.wrapping_add(settings.lo);
    let hi = settings.base.wrapping_add(settings.hi);
    for direction in [0, 1] {
        b.run_transfer(HOST, direction, 16, lo.wrapping_sub(8), 12);
        b.read_registers();
        b.write_registers(0x0100_0320, 0x0120_0320);
        b.run_transfer(LOCAL, direction, 64, hi.wrapping_sub(4), 8);
        b.run_transfer(HOST, direction, 128, hi, 8);
        b.run_transfer(LOCAL, direction, 136, hi, 4);
        b.start(HOST, direction, 140, lo.wrapping_sub(4), 4);
        b.plain(kind::STEP, LOCAL);
    }
    b.run_transfer(HOST, 0, 16, lo, 8);
    b.read_registers();
    b.read_lines();
}

/// Across the end of the window and from below its base.
pub fn window_borders(b: &mut Builder) {
    let settings = b.settings();
    let end = settings.base.wrapping_add(settings.length);
    for direction in [0, 1] {
        b.run_transfer(LOCAL, direction, 24, end.wrapping_sub(8), 12);
        b.read_registers();
        b.write_registers(0x0220_0220, 0x0200_0220);
        b.start(HOST, direction, 48, settings.base.wrapping_sub(4), 8);
        b.plain(kind::STEP, HOST);
        b.run_transfer(LOCAL, direction, 16_376, end.wrapping_sub(8), 8);
        b.read_registers();
        b.run_transfer(HOST, direction, 16_380, end.wrapping_sub(4), 4);
        b.start(HOST, direction, 0, settings.base, 16);
        b.plain(kind::STEP, LOCAL);
        b.plain(kind::RESET, LOCAL);
        b.plain(kind::STEP, LOCAL);
    }
    b.read_registers();
}

/// Starts that meet their bounds exactly, and starts and writes while a transfer runs.
pub fn starts(b: &mut Builder) {
    let base = b.settings().base;
    for direction in [0, 1] {
        b.start(HOST, direction, 0, base, 16);
        b.plain(kind::STEP, LOCAL);
        for (s, shared, size) in [
            (direction, 0, 4),
            (2, 0, 4),
            (2, 0, 3),
            (direction, 0, 0),
            (direction, 0, 6),
            (direction, 2, 4),
        ] {
            b.start(LOCAL, s, shared, base, size);
        }
        b.start(2, direction, 0, base, 4);
        b.access(Access::new(
            kind::WINDOW_WRITE,
            HOST,
            0,
            base + 4,
            0xC0DE_0001,
            0,
        ));
        b.access(Access::new(kind::SHARED_WRITE, LOCAL, 0, 4, 0xC0DE_0002, 0));
        b.plain(kind::STEP, HOST);
        b.access(Access::new(kind::SHARED_READ, LOCAL, 0, 4, 0, 0));
        b.access(Access::new(kind::WINDOW_READ, HOST, 0, base + 4, 0, 0));
        b.plain(kind::RESET, HOST);
        b.run_transfer(LOCAL, direction, 0, 4_294_950_912, 16_384);
        b.run_transfer(LOCAL, direction, 16_376, 4_294_967_288, 8);
    }
}

/// Sizes and ranges that a start refuses, and such that it just takes.
pub fn start_checks(b: &mut Builder) {
    let base = b.settings().base;
    for size in [0, 1, 2, 3, 5, 16_385, 16_388, u32::MAX - 3, u32::MAX] {
        b.start(HOST, (size & 1) as u8, 0, base, size);
    }
    for (direction, shared, pci, size) in [
        (0, 16_380, base, 8),
        (1, 4, base, 16_384),
        (0, 0, u32::MAX - 3, 8),
        (1, 1, base, 8),
        (0, 0, base + 2, 8),
        (0, 16_376, base + 120, 8),
    ] {
        b.start(LOCAL, direction, shared, pci, size);
    }
    b.step_to_end();
}
