//! Portions that end in every place of a line and of a record, and inputs that do.

use crate::access::Access;
use crate::convert::trace_of;
use crate::trace::{trace, RECORD_LENGTH};

use super::super::change_bits;
use super::{Cases, Direction, LONGEST, MIDDLE, SHORTEST};

pub fn add(cases: &mut Cases) {
    lists(cases);
    traces(cases);
}

/// Every portion, to one byte more than there are.
fn every_portion(cases: &mut Cases, direction: Direction, bytes: &[u8]) {
    for portion in 1..=bytes.len() + 1 {
        cases.by_portion(portion, direction, bytes.to_vec());
    }
}

fn lists(cases: &mut Cases) {
    let (longest, _) = LONGEST.split_at(LONGEST.len() - 1);
    for parts in [
        &[LONGEST, SHORTEST, MIDDLE][..],
        &[SHORTEST, LONGEST, LONGEST],
        // refused for what stands where the longest line has its line feed
        &[MIDDLE, LONGEST, longest, b"5\n"],
        &[SHORTEST, longest, b"\r\n", SHORTEST],
        &[longest, b" \n", SHORTEST],
        &[SHORTEST, MIDDLE, longest],
        // refused at the first byte, or soon behind it
        &[SHORTEST, LONGEST, b"\n", SHORTEST],
        &[LONGEST, b"x", SHORTEST],
        &[
            b"999999999999999999999999999999999999999999999999\n",
            SHORTEST,
        ],
    ] {
        every_portion(cases, Direction::ToTrace, &parts.concat());
    }
    let list = [LONGEST, SHORTEST, MIDDLE, LONGEST].concat();
    for length in 0..=list.len() {
        cases.list(&[&list[..length]]);
    }
}

fn traces(cases: &mut Cases) {
    let (whole, _) = trace_of(&[LONGEST, SHORTEST, MIDDLE].concat());
    every_portion(cases, Direction::ToText, &whole);
    every_portion(cases, Direction::ToText, &whole[..2 * RECORD_LENGTH + 13]);
    for (record, at) in [(0, 0), (1, 1), (1, 2), (1, 3), (1, 7), (2, 7)] {
        let mut wrong = whole.clone();
        change_bits(&mut wrong[RECORD_LENGTH * record..], &[(at, 1)]);
        every_portion(cases, Direction::ToText, &wrong);
    }
    let four = trace(&[Access::new(16, 1, 0, 0, 0, 0); 4]);
    for length in 0..=four.len() {
        cases.trace(&[&four[..length]]);
    }
}
