//! The planned part of each list of calls.

pub mod bursts;
pub mod mixed;
pub mod refusals;
pub mod registers;
pub mod transfers;

use crate::access::kind;
use crate::registers::map::offset;

use super::super::sides::{HOST, LOCAL};
use super::builder::CallBuilder;

/// Performs planned calls.
pub type Script = fn(&mut CallBuilder);

/// The lesson about zero: 16,384 in DMASIZE is 0, and a 0 in ARBUTIL gives a flag back.
pub fn zero(b: &mut CallBuilder) {
    let base = b.settings().base;
    b.program(HOST, 0, base, 16_384);
    b.read(HOST, offset::DMASIZE);
    b.write(HOST, offset::DMACTL, 1);
    b.write(HOST, offset::DMASIZE, 16_380);
    b.read(HOST, offset::DMASIZE);
    b.write(HOST, offset::DMACTL, 1);
    b.plain(kind::RESET, HOST);
    b.write(HOST, offset::ARBUTIL, 1);
    b.read(HOST, offset::ARBUTIL);
    b.write(HOST, offset::ARBUTIL, 0x100);
    b.read(HOST, offset::ARBUTIL);
    b.write(LOCAL, offset::ARBUTIL, 2);
    b.read(LOCAL, offset::ARBUTIL);
    b.write(HOST, offset::ARBUTIL, 0x101);
}
