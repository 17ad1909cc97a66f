//! Transfers that are programmed by several writes and started by another.

use crate::access::kind;
use crate::registers::map::offset;

use super::super::super::sides::{HOST, LOCAL};
use super::super::builder::CallBuilder;

/// To every end of a transfer; what is refused; what runs meanwhile.
pub fn programmed(b: &mut CallBuilder) {
    let settings = b.settings();
    let pci = |window_offset| settings.base + window_offset;
    // to its last dword
    b.program(HOST, 8, pci(0), 8);
    b.write(HOST, offset::DMACTL, 1);
    b.step_to_end();
    b.read_dma(LOCAL);
    // into the abort range
    b.write(LOCAL, offset::DMAHBASE, pci(settings.lo) - 4);
    b.write(HOST, offset::DMASIZE, 12);
    b.write(LOCAL, offset::DMACTL, 0);
    b.step_to_end();
    // out of the window
    b.write(HOST, offset::DMAHBASE, pci(settings.length) - 4);
    b.write(HOST, offset::DMACTL, 3);
    b.step_to_end();
    b.read_dma(HOST);
    refused(b);
    meanwhile(b);
    b.plain(kind::RESET, LOCAL);
    b.read_dma(HOST);
    b.write(LOCAL, offset::DMACTL, 1);
}

/// Starts that are refused with 7 and 9, and store nothing.
fn refused(b: &mut CallBuilder) {
    b.write(LOCAL, offset::DMASIZE, 3);
    b.write(LOCAL, offset::DMACTL, 0x200);
    b.write(LOCAL, offset::DMASIZE, 8);
    b.write(LOCAL, offset::DMALBASE, 0x3FFC);
    b.write(HOST, offset::DMACTL, 0x100);
    b.read(HOST, offset::DMACTL);
}

/// The registers while a transfer runs, and a direct start of the other direction.
fn meanwhile(b: &mut CallBuilder) {
    let base = b.settings().base;
    b.program(HOST, 16, base, 8);
    b.write(LOCAL, offset::DMACTL, 0x201);
    b.program(LOCAL, 0xFFFF_FFFF, base + 4, 4);
    b.write(HOST, offset::DMACTL, 0);
    b.direct(kind::START, HOST, 0, 0, base, 4);
    b.read_dma(HOST);
    b.step_to_end();
    // a kind 14 "neither uses nor changes them"
    b.direct(kind::START, HOST, 0, 24, base + 8, 8);
    b.write(HOST, offset::DMACTL, 0x102);
    b.plain(kind::STEP, HOST);
    b.read(HOST, offset::DMACTL);
    b.plain(kind::STEP, LOCAL);
    // the registers' own transfer again
    b.write(LOCAL, offset::DMACTL, 2);
    b.step_to_end();
    b.read_dma(LOCAL);
}

/// P, L, PI and W, in starts by both sides: each writes its own ownership bit, where the other's is
/// clear.
pub fn ownership(b: &mut CallBuilder) {
    let base = b.settings().base;
    b.program(HOST, 4, base + 4, 4);
    for (side, control) in [
        (LOCAL, 0x100),
        (HOST, 0x200),
        (HOST, 0x300),
        (LOCAL, 0x301),
        (LOCAL, 0x002),
        (HOST, 0x101),
        (HOST, 0xFFFF_FEFC),
        (LOCAL, 0x203),
        (HOST, 0x102),
        (HOST, 0x001),
        (LOCAL, 0xFFFF_FFFF),
        (LOCAL, 0x100),
        (HOST, 0x103),
        (LOCAL, 0x200),
        (LOCAL, 0),
    ] {
        b.write(side, offset::DMACTL, control);
        b.read(1 - side, offset::DMACTL);
        b.plain(kind::STEP, side);
    }
    b.plain(kind::RESET, HOST);
    b.read(LOCAL, offset::DMACTL);
    b.program(LOCAL, 4, base + 4, 4);
    b.write(LOCAL, offset::DMACTL, 0x202);
    b.read(LOCAL, offset::DMACTL);
}

/// Registers that no writes have left: they are read through their masks, and started from as they
/// read. What is stored stays until it is written.
pub fn found(b: &mut CallBuilder) {
    b.read_dma(HOST);
    b.read_dma(LOCAL);
    // a transfer runs already
    b.write(HOST, offset::DMACTL, 1);
    b.write(LOCAL, offset::HINT, 0);
    b.read(LOCAL, offset::HINT);
    b.read(HOST, offset::LHDATA);
    b.read(LOCAL, offset::LHDATA);
    b.read_by_both(offset::ARBUTIL);
    b.step_to_end();
    b.read(HOST, offset::LINT);
    for side in [HOST, LOCAL] {
        b.write(side, offset::DMACTL, 1);
        b.read(side, offset::DMACTL);
        b.step_to_end();
    }
    b.write(LOCAL, offset::OBFPFIFO, 5);
    b.read(HOST, offset::OBPFFIFO);
    b.direct(kind::START, LOCAL, 0, 64, b.settings().base, 8);
    b.step_to_end();
    b.direct(kind::SHARED_READ, LOCAL, 0, 64, 0, 0);
    b.read(HOST, offset::SHARED + 8);
    b.write(HOST, offset::DMALBASE, 0xFFFF_FFFF);
    b.write(LOCAL, offset::DMACTL, 0x200);
    b.read_dma(LOCAL);
}
