//! Bursts, with direct accesses among them, to cards between memories of any lengths.
//!
//! stdin: cases one behind the other, each of numbers of 4 bytes, least byte first.
//!
//! - The head, 9 numbers, as that of `device_test`: 0 (a record) or 1 (a fresh card); the settings
//!   base, length, lo and hi; the lengths of shared memory and window; the seed of their bytes; how
//!   many calls follow.
//! - After a head with 0 the record, 155 numbers, as that of `device_test`.
//! - The calls. A direct access is 4 numbers: kind + 256 side + 65,536 S; A; B; C. A burst write has
//!   2 in the first number's top byte, a burst read 3. A burst is 5 numbers: mode + 256 side +
//!   16,777,216 times that 2 or 3; start; n, how many phases it has; how many places its list has, 0
//!   for a write; k, how many phases are stored. Then come the k stored phases, 2 numbers each: pins
//!   and data. Phase i is stored phase i mod k, counted from 0; k is 0 exactly if n is, and at most
//!   n. Neither n nor the places are above 65,600. Before a read, place i of its list holds
//!   3,235,774,464 + i.
//!
//! stdout: lines of numbers in decimal with single spaces.
//!
//! - After a head with 1 the number that the settings give.
//! - Of each direct access its number, V and X.
//! - Of each burst its number, V and X, and the digest of shared memory after it. Of a burst read
//!   then a line with the places of its list as they are left, the first 64 if there are more, and
//!   behind them the digest of all places.
//! - Behind the calls of a case the record and the digests of shared memory and window, as
//!   `device_test` writes them.
//!
//! Bytes and digests are those of `device_test`; the digest of a list takes up its places as that of
//! a memory takes up its bytes: from 0, each place takes it to (16,777,619 digest + place) mod 2^32.

mod asked;
mod cards;
mod case;
mod cases;
mod lists;
mod phases;
mod refused;

use super::{case as shared, Program};

/// What input and output have room for, each.
const LIMIT: usize = 600_000;

pub fn program() -> Program {
    let program = shared::program("bursts_test", cases::cases());
    let sizes = [program.stdin.len(), program.stdout.len()];
    assert!(sizes.iter().all(|size| *size < LIMIT), "{sizes:?}");
    program
}
