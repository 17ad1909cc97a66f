//! What each of the two programs reads itself: more accesses than there are record numbers.

use std::collections::BTreeSet;

use crate::access::Access;
use crate::arbitrary;
use crate::convert::{list_of, trace_of};
use crate::list::{list, LONGEST_LINE, REFUSED};
use crate::rng::Rng;
use crate::trace::trace;

use super::super::Program;
use super::SHORTEST;

const LINES_SEED: u64 = 900;
const LINES: usize = 70_000;
const RECORDS_SEED: u64 = 901;
const RECORDS: usize = 66_000;

/// "numbers that fit": the kind does not.
const WRONG: &[u8] = b"256 0 0 0 0 0\n";

/// So many accesses, with every number at its limit among them. Their lines have every length, and
/// about 20 bytes on average.
fn accesses(seed: u64, count: usize) -> Vec<Access> {
    let mut rng = Rng::new(seed);
    let mut accesses: Vec<Access> = (0..count)
        .map(|_| match rng.below(16) {
            0 => arbitrary::access(&mut rng),
            _ => arbitrary::varied_access(&mut rng),
        })
        .collect();
    accesses[1000] = Access::new(255, 255, 255, u32::MAX, u32::MAX, u32::MAX);
    accesses
}

fn assert_lengths(list: &[u8]) {
    let lines: Vec<&[u8]> = list.split_inclusive(|byte| *byte == b'\n').collect();
    let lengths: BTreeSet<usize> = lines.iter().map(|line| line.len()).collect();
    assert!(lengths.into_iter().eq(SHORTEST.len()..=LONGEST_LINE));
    assert!((18..=22).contains(&(list.len() / lines.len())));
}

/// A list to a line that is refused, and one that is not looked at.
pub fn to_trace() -> Program {
    let good = list(&accesses(LINES_SEED, LINES));
    assert_lengths(&good);
    let stdin = [&good, WRONG, SHORTEST].concat();
    let (stdout, turned) = trace_of(&stdin);
    assert_eq!(turned.refusal, Some(REFUSED));
    assert_eq!(turned.accesses, LINES as u64);
    Program {
        name: "to_trace",
        stdin,
        stdout,
    }
}

/// A whole trace.
pub fn to_text() -> Program {
    let stdin = trace(&accesses(RECORDS_SEED, RECORDS));
    let (stdout, turned) = list_of(&stdin);
    assert_eq!(turned.refusal, None);
    assert_lengths(&stdout);
    Program {
        name: "to_text",
        stdin,
        stdout,
    }
}
