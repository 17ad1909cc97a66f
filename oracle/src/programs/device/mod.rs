//! Records, settings and memories that a replay cannot reach, with calls: direct and register
//! accesses; and source requests.
//!
//! stdin: cases one behind the other, each of numbers of 4 bytes, least byte first.
//!
//! - The head, 9 numbers: 0 (a record), 1 (a fresh card) or 2 (source requests); the settings base,
//!   length, lo and hi; the lengths of shared memory and window; the seed of their bytes; how many
//!   calls or requests follow.
//! - After a head with 0 the record, 155 numbers: of each FIFO its count and 32 entries, oldest
//!   first; of each pair 1 for the host's flag plus 2 for the local one; HLDATA, LHDATA, and 1 if
//!   LHDATA was written since reset; enables and status of HINT, then of LINT; 1 if a transfer runs,
//!   its direction, shared address, PCI address and size, and the dwords moved; of the DMA registers
//!   the shared address, the PCI address and the size that are stored, 1 if the host owns them plus 2
//!   if the local side does, 1 if prefetching is inhibited, and 1 if W is set.
//! - The calls, 4 numbers each. A direct access: kind + 256 side + 65,536 S; A; B; C. A register
//!   access, which has 1 in the first number's top byte: direction + 256 side + 16,777,216; offset;
//!   dword; 0. A request is a direct access of which S, A, B and C count.
//!
//! stdout: lines of numbers in decimal with single spaces.
//!
//! - After a head with 1 the number that the settings give.
//! - Of each call its number, V and X.
//! - The record: the settings; a line for each FIFO, its count and the entries held; host and local
//!   flag of each pair; the mailboxes as above; the registers as above; the transfer as above, or 0;
//!   the DMA registers as above, with a number for each of the four flags.
//! - The digests of shared memory and window.
//! - Of each request the length of its part and the digest of the part.
//!
//! Bytes: from x = the seed (the window's: the seed + 1), each byte takes x to (1,103,515,245 x +
//! 12,345) mod 2^31, and is x / 65,536 mod 256. Digest: from 0, each byte takes it to (16,777,619
//! digest + byte) mod 2^32.

mod calls;
mod case;
mod cases;

use super::{case as shared, Program};

pub use cases::LARGEST;

/// What the input has room for.
const INPUT_LIMIT: usize = 1_000_000;

pub fn program() -> Program {
    let program = shared::program("device_test", cases::cases());
    let size = program.stdin.len();
    assert!(size < INPUT_LIMIT, "{size}");
    program
}
