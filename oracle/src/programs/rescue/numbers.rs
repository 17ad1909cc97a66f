//! Record numbers: those that follow, and those that do not.

use crate::access::Access;
use crate::rescue::lines_of;
use crate::trace::{record, RECORD_LENGTH};

use super::Cases;

/// Numbers of kept records, and how many of them are doubtful.
const NUMBERS: &[(&[u16], u64)] = &[
    (&[0], 0),
    (&[1], 1),
    (&[256], 1),
    (&[65_535], 1),
    (&[0, 0], 1),
    (&[0, 1], 0),
    (&[0, 2], 1),
    (&[1, 0], 2),
    (&[1, 2], 1),
    (&[1, 1], 2),
    (&[0, 256], 1),
    (&[0, 257], 1),
    (&[0, 65_535], 1),
    (&[255, 256], 1),
    (&[255, 0], 2),
    (&[255, 511], 2),
    (&[65_535, 0], 1),
    (&[65_535, 65_535], 2),
    (&[65_535, 1], 2),
    (&[65_534, 65_535, 0, 1], 1),
    (&[0, 1, 2, 3, 4], 0),
    (&[0, 5, 6, 7], 1),
    (&[0, 5, 1, 2], 2),
    (&[0, 5, 2, 3], 2),
    (&[0, 1, 1, 2], 1),
    (&[0, 1, 3, 2, 4], 3),
    (&[3, 2, 1, 0], 4),
    (&[0, 1, 65_535, 0, 1], 1),
    (&[0x4250, 0x4251], 1),
    (&[0x5042, 0x5043], 1),
];

pub fn add(cases: &mut Cases) {
    for (numbers, doubtful) in NUMBERS {
        let records = numbers.iter().map(|number| of(*number));
        let records: Vec<_> = records.collect();
        let trace = records.concat();
        assert_eq!(lines_of(&trace).1.doubtful, *doubtful);
        cases.every_way(&[&trace]);
        // the same with bytes between them, which change nothing of the doubt
        let parted = records.join(&b"  "[..]);
        assert_eq!(lines_of(&parted).1.doubtful, *doubtful);
        cases.every_way(&[&parted]);
    }
    // a record that is not kept is no previous one
    for spoilt in [0, 1, 7] {
        let mut trace = [65_534, 65_535, 0, 1].map(of).concat();
        trace[RECORD_LENGTH + spoilt] = 9;
        assert_eq!(lines_of(&trace).1.doubtful, 2);
        cases.every_way(&[&trace]);
    }
}

fn of(number: u16) -> [u8; RECORD_LENGTH] {
    record(number, &Access::new(10, 0, 0, 0, 0, 0))
}
