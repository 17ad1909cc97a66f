//! Portions that end in every place of a record and of a skipped range.

use crate::access::Access;
use crate::trace::{record, MARK, RECORD_LENGTH};

use super::{few, Cases, How, LARGEST_PORTION, LONGEST_TRACE};

/// Every portion to three records.
const PORTIONS: usize = 3 * RECORD_LENGTH;

pub fn add(cases: &mut Cases) {
    let few = few();
    let (first, rest) = few.split_at(RECORD_LENGTH);
    let mut spoilt = few.clone();
    spoilt[RECORD_LENGTH + 7] = 1;
    spoilt[3 * RECORD_LENGTH] = 0;
    for parts in [
        // lost bytes, a mark that ends the range, and a tail
        &[first, &rest[13..], &rest[..9]][..],
        // a mark in front of a mark, and one byte of a mark in front of a record
        &[&MARK, first, &[MARK[0]], rest],
        // a range longer than a record, between records
        &[&[9; 25], first, &[0; 33], &first[..11]],
        &[&spoilt],
        &[&few],
    ] {
        let trace = parts.concat();
        for portion in 1..=PORTIONS {
            cases.add(How::Lines, portion, &trace);
            cases.add(How::Trace, portion, &trace);
        }
    }
    long(cases);
}

/// As long as a case may be: marks in which no record stands, and one in the last 20 bytes.
fn long(cases: &mut Cases) {
    let mut trace = MARK.repeat(LONGEST_TRACE / 2);
    trace[LONGEST_TRACE - RECORD_LENGTH..].copy_from_slice(&record(0, &Access::default()));
    cases.add(How::Lines, LARGEST_PORTION - 1, &trace);
}
