//! Every refusal of a register access, also with the causes behind it.

use crate::access::kind;
use crate::registers::map::{offset, REGISTERS};
use crate::registers::READ;

use super::super::super::faults::faultless;
use super::super::super::sides::{HOST, LOCAL};
use super::super::builder::CallBuilder;

/// "an offset no multiple of 4 or one we do not model": those that the sheet names, the borders of
/// the map, and some that are right once they are cut.
pub const NOT_MODELLED: [u32; 22] = [
    0x0000,
    0x0030,
    0x0034,
    0x0038,
    0x003C,
    0x0460,
    0x04A0,
    0x04A4,
    0x04A8,
    0x04E0,
    0x04FC,
    0x0041,
    0x04B1,
    0x0800,
    0x2000,
    0x3FFC,
    0x4001,
    0x8000,
    0x0001_0040,
    0x8000_04BC,
    0x0001_4000,
    0x8000_4000,
];

pub fn every(b: &mut CallBuilder) {
    for (offset, at) in NOT_MODELLED.into_iter().zip(0..) {
        let (side, direction) = (at & 1, at >> 1 & 1);
        b.register(side, offset, direction, 0);
    }
    for (side, offset, direction, dword) in [
        // behind 11: 3, then 4
        (HOST, 0x0041, 0, 1),
        (LOCAL, 0x0030, 2, 0),
        (HOST, 0x2000, 255, 1),
        // behind 2: 11 and 3, 3 and 5, 4, 5, 7
        (2, 0x0041, 0, 1),
        (2, offset::IBFPFIFO, 0, 1),
        (255, offset::HINT, 2, 0),
        (2, offset::LHDATA, 1, 0),
        (2, offset::DMACTL, 1, 1),
        // 3, also before 5
        (HOST, offset::DMACTL, 0, 1),
        (LOCAL, offset::IBFPFIFO, 0, 1),
        // 4
        (LOCAL, offset::IBFPFIFO, 2, 0),
        (HOST, offset::DMACTL, 2, 1),
        (LOCAL, offset::SHARED, 255, 7),
        // 5
        (HOST, offset::IBPFFIFO, 0, 0),
        (LOCAL, offset::OBPFFIFO, 1, 9),
        (HOST, offset::LHDATA, 1, 0x0100_0005),
        (LOCAL, offset::HINT, 1, 0x03FF_03FF),
    ] {
        b.register(side, offset, direction, dword);
    }
    starts(b);
}

/// 6, 7 and 9, and the two pairs of them that can hold at once.
fn starts(b: &mut CallBuilder) {
    let base = b.settings().base;
    for side in [HOST, LOCAL] {
        b.write(side, offset::DMACTL, 0x303);
    }
    b.program(HOST, 0x3FFC, base, 8);
    b.write(HOST, offset::DMACTL, 0x303);
    b.write(HOST, offset::DMALBASE, 0);
    b.write(LOCAL, offset::DMAHBASE, 0xFFFF_FFFC);
    b.write(LOCAL, offset::DMACTL, 0x303);
    b.write(LOCAL, offset::DMAHBASE, base);
    b.read(LOCAL, offset::DMACTL);
    b.write(HOST, offset::DMACTL, 0);
    for side in [HOST, LOCAL] {
        b.write(side, offset::DMACTL, 0x303);
    }
    b.write(HOST, offset::DMASIZE, 0x4000);
    b.write(LOCAL, offset::DMACTL, 0x303);
    b.write(HOST, offset::DMASIZE, 0x3FFC);
    b.write(LOCAL, offset::DMALBASE, 8);
    b.write(HOST, offset::DMACTL, 0x303);
    b.write(2, offset::DMACTL, 0x303);
    b.read(HOST, offset::DMACTL);
}

/// Every read with a dword that is not 0.
pub fn reads(b: &mut CallBuilder) {
    let ends = [offset::SHARED, offset::LAST_SHARED];
    for (offset, bit) in REGISTERS.into_iter().chain(ends).zip(0..) {
        for side in [HOST, LOCAL] {
            b.register(side, offset, READ, 1 << (2 * bit + u32::from(side)));
        }
    }
}

/// Calls of every sort, where all is refused with 1.
pub fn with_1(b: &mut CallBuilder) {
    let settings = b.settings();
    for (offset, at) in REGISTERS.into_iter().zip(0..) {
        b.register(at & 1, offset, at >> 1 & 1, 0);
    }
    for (side, offset, direction, dword) in [
        (HOST, offset::SHARED, 0, 0),
        (LOCAL, offset::LAST_SHARED, 1, 5),
        (HOST, offset::DMACTL, 1, 1),
        (2, offset::DMACTL, 1, 1),
        (HOST, 0x0041, 0, 0),
        (LOCAL, 0x0041, 0, 1),
        (LOCAL, offset::ARBUTIL, 2, 0),
        (LOCAL, offset::IBFPFIFO, 0, 1),
        (LOCAL, offset::HINT, 1, 0),
    ] {
        b.register(side, offset, direction, dword);
    }
    for kind in [
        kind::RESET,
        kind::SHARED_WRITE,
        kind::TAKE,
        kind::CLAIM,
        kind::INTERRUPT_READ,
        kind::START,
        kind::STEP,
    ] {
        b.call(faultless(kind, &settings));
    }
}
