//! Lent lists of any length: of no places, too few, just enough, and more.

use crate::access::Access;
use crate::rescue::entries;
use crate::rescue::list::PLACE;
use crate::trace::{record, RECORD_LENGTH};

use super::{few, Cases, How, LONGEST_LIST};

pub fn add(cases: &mut Cases) {
    let few = few();
    let (first, second) = few.split_at(RECORD_LENGTH);
    let other = record(700, &Access::default());
    for parts in [
        &[&[0x42][..]][..],
        &[first],
        &[&other],
        &[first, &[0x50]],
        &[&[0x42], first, &second[1..]],
        &[&[1, 2, 3], first, &other],
        &[&few[..], &[0; 19]],
        &[first, &few[1..], &other, &few],
    ] {
        let trace = parts.concat();
        let exact = PLACE * entries(&trace).len();
        for numbers in 0..=exact + 2 * PLACE + 2 {
            cases.add(How::List, numbers, &trace);
        }
    }
    longest(cases);
}

/// As many entries as the longest list has places, one fewer and one more: a byte and a record in
/// turns.
fn longest(cases: &mut Cases) {
    let places = LONGEST_LIST / PLACE;
    let pairs: Vec<u8> = (0..places as u16)
        .flat_map(|number| [&[0x42][..], &record(number, &Access::default())].concat())
        .collect();
    for count in places - 1..=places + 1 {
        let bytes = count / 2 * (1 + RECORD_LENGTH) + count % 2;
        let trace = &pairs[..bytes];
        assert_eq!(entries(trace).len(), count);
        cases.add(How::List, LONGEST_LIST, trace);
    }
}
