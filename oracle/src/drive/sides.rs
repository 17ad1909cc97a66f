//! The sides, by the numbers that they have in an access.

use crate::access::Access;
use crate::card::Side;
use crate::refusal::PUT_BY;

pub const HOST: u8 = Side::Host as u8;
pub const LOCAL: u8 = Side::Local as u8;

/// The side that puts into a FIFO.
pub fn putter(fifo: u8) -> u8 {
    PUT_BY[usize::from(fifo)] as u8
}

/// The side that takes from a FIFO.
pub fn taker(fifo: u8) -> u8 {
    1 - putter(fifo)
}

/// The host's and the local side's access, of a kind that uses the selector at most.
pub fn by_both(kind: u8, s: u8) -> [Access; 2] {
    [HOST, LOCAL].map(|side| Access::new(kind, side, s, 0, 0, 0))
}
