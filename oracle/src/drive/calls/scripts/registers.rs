//! Every register, the plain reads and the arbitration flags.

use crate::access::kind;
use crate::registers::map::offset;

use super::super::super::sides::{HOST, LOCAL};
use super::super::builder::CallBuilder;

const PORTS: [u32; 4] = [
    offset::IBFPFIFO,
    offset::OBPFFIFO,
    offset::IBPFFIFO,
    offset::OBFPFIFO,
];

/// Every register by both sides and in both directions, and both ends of shared memory.
pub fn every(b: &mut CallBuilder) {
    let base = b.settings().base;
    for (port, entry) in PORTS.into_iter().zip(100..) {
        b.write(HOST, port, entry);
        b.write(LOCAL, port, entry);
    }
    PORTS.into_iter().for_each(|port| b.read_by_both(port));
    for (offset, host, local) in [
        (offset::HLDATA, 0x0100_1234, 0x0100_0005),
        (offset::LHDATA, 0x0100_0006, 0x0100_0017),
        (offset::HINT, 0x0018_0000, 0x0008_0008),
        (offset::LINT, 0x0008_0008, 0x0129_0000),
        (offset::ARBUTIL, 0x0001_0001, 0x0202_0202),
        (offset::DMALBASE, 0xFFFF_4013, 8),
        (offset::DMAHBASE, base + 3, base + 8),
        (offset::DMASIZE, 0xFFFF_C00B, 4),
    ] {
        b.write(HOST, offset, host);
        b.read(LOCAL, offset);
        b.write(LOCAL, offset, local);
        b.read(HOST, offset);
    }
    for (side, control) in [(HOST, 0), (LOCAL, 0x203)] {
        b.write(side, offset::DMACTL, control);
        b.read(side, offset::DMACTL);
        b.plain(kind::STEP, side);
    }
    for offset in [offset::SHARED, offset::LAST_SHARED] {
        b.write(HOST, offset, 0x8765_4321);
        b.read(LOCAL, offset);
        b.write(LOCAL, offset, offset);
        b.read(HOST, offset);
    }
}

/// The reads that are no kind of access, where all that they show is not 0, and after a reset.
pub fn plain_reads(b: &mut CallBuilder) {
    let base = b.settings().base;
    b.write(HOST, offset::HLDATA, 0x0100_ABCD);
    b.write(LOCAL, offset::LHDATA, 0xFFFF_0207);
    b.write(HOST, offset::HINT, 0xFFFF_0000);
    b.write(LOCAL, offset::LINT, 0xFFFF_0000);
    b.plain(kind::EXTERNAL_PIN, LOCAL);
    b.write(HOST, offset::IBFPFIFO, 1);
    b.write(LOCAL, offset::OBFPFIFO, 2);
    b.write(HOST, offset::ARBUTIL, 0x0001_0001);
    b.write(LOCAL, offset::ARBUTIL, 0x0200_0200);
    b.program(LOCAL, 0x3FFC, base + 0x3C, 4);
    b.write(HOST, offset::DMACTL, 0x103);
    b.plain(kind::STEP, LOCAL);
    read_plainly(b);
    b.plain(kind::RESET, LOCAL);
    read_plainly(b);
}

/// Fourteen: both sides' and each side's own.
fn read_plainly(b: &mut CallBuilder) {
    b.read_dma(HOST);
    b.read_dma(LOCAL);
    b.read_by_both(offset::ARBUTIL);
    b.read(LOCAL, offset::HINT);
    b.read(HOST, offset::LINT);
    b.read(HOST, offset::HLDATA);
    b.read(LOCAL, offset::LHDATA);
}

/// ARBUTIL among claims and releases.
pub fn flags(b: &mut CallBuilder) {
    b.write(HOST, offset::ARBUTIL, 0x0101_0101);
    b.read_by_both(offset::ARBUTIL);
    b.write(LOCAL, offset::ARBUTIL, 0x02);
    b.select(kind::CLAIM, LOCAL, 0);
    b.select(kind::RELEASE, HOST, 0);
    b.write(LOCAL, offset::ARBUTIL, 0x02);
    b.read(HOST, offset::ARBUTIL);
    b.select(kind::CLAIM, HOST, 0);
    // 0, 1 and 2 are released, 0 was not held
    b.write(HOST, offset::ARBUTIL, 0x0100_0000);
    b.write(LOCAL, offset::ARBUTIL, u32::MAX);
    b.read(LOCAL, offset::ARBUTIL);
    b.select(kind::CLAIM, HOST, 1);
    b.select(kind::RELEASE, LOCAL, 1);
    b.select(kind::CLAIM, HOST, 1);
    b.read(HOST, offset::ARBUTIL);
    // the other side's bits alone: every flag of one's own is given back
    b.write(HOST, offset::ARBUTIL, 0x0202_0202);
    b.read(LOCAL, offset::ARBUTIL);
    b.write(LOCAL, offset::ARBUTIL, 0x0101_0101);
    b.read(HOST, offset::ARBUTIL);
    for pair in 0..4 {
        b.select(kind::CLAIM, pair & 1, pair);
    }
    b.read_by_both(offset::ARBUTIL);
    b.write(HOST, offset::ARBUTIL, 0x0101_0101);
    b.write(LOCAL, offset::ARBUTIL, 0x0202_0202);
    b.read(HOST, offset::ARBUTIL);
    // bits that are no flags
    b.write(LOCAL, offset::ARBUTIL, 0xFCFC_FCFC);
    b.read(LOCAL, offset::ARBUTIL);
    b.select(kind::CLAIM, LOCAL, 2);
    b.write(HOST, offset::ARBUTIL, 0x0101_0000);
    b.select(kind::RELEASE, HOST, 1);
    b.select(kind::CLAIM, LOCAL, 3);
    b.read_by_both(offset::ARBUTIL);
    b.plain(kind::RESET, HOST);
    b.read(LOCAL, offset::ARBUTIL);
    b.write(LOCAL, offset::ARBUTIL, 0x0200_0002);
    b.select(kind::CLAIM, HOST, 3);
    b.select(kind::CLAIM, HOST, 1);
    b.select(kind::CLAIM, LOCAL, 0);
    b.read(HOST, offset::ARBUTIL);
}
