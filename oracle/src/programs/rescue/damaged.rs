//! Undamaged traces, and few records of which bytes are overwritten, lost or doubled in every place.

use crate::access::Access;
use crate::rescue::entries;
use crate::trace::{record, stands, trace, MARK, RECORD_LENGTH};

use super::{few, Cases};

/// The places that are damaged: those of the first three records.
const PLACES: usize = 3 * RECORD_LENGTH;

pub fn add(cases: &mut Cases) {
    undamaged(cases);
    overwritten(cases);
    lost_and_doubled(cases);
    stray_records(cases);
    marks(cases);
    zero_bytes(cases);
    tails(cases);
}

fn undamaged(cases: &mut Cases) {
    let highest = Access::new(255, 255, 255, u32::MAX, u32::MAX, u32::MAX);
    let marks = Access::new(0x42, 0x50, 0x42, 0x5042_5042, 0x5042_5042, 0x5042_5042);
    for access in [Access::default(), highest, marks] {
        for records in [1, 2, 3, 7] {
            cases.every_way(&[&trace(&vec![access; records])]);
        }
    }
    cases.every_way(&[&few()]);
}

fn overwritten(cases: &mut Cases) {
    for at in 0..PLACES {
        for byte in [0x00, 0x42, 0x50, 0xFF] {
            let mut trace = few();
            if trace[at] != byte {
                trace[at] = byte;
                cases.every_way(&[&trace]);
            }
        }
    }
}

fn lost_and_doubled(cases: &mut Cases) {
    let few = few();
    for at in 0..PLACES {
        let (before, after) = few.split_at(at);
        for length in [1, 2, 19, 20] {
            cases.every_way(&[before, &after[length..]]);
        }
        for length in [1, 20] {
            cases.every_way(&[before, &after[..length], after]);
        }
    }
}

/// A mark and its zero byte in every place, where the scan passes over it and where it does not.
fn stray_records(cases: &mut Cases) {
    for at in 1..=PLACES {
        let mut trace = few();
        trace[at..at + 2].copy_from_slice(&MARK);
        trace[at + 7] = 0;
        assert!(stands(&trace[at..]));
        cases.every_way(&[&trace]);
        // the record in which it stands is not kept
        let start = at / RECORD_LENGTH * RECORD_LENGTH;
        trace[start] ^= if at == start { 0 } else { 1 };
        cases.every_way(&[&trace]);
    }
}

/// Runs of mark bytes, in which a record stands only where zeros follow.
fn marks(cases: &mut Cases) {
    let sound = record(0, &Access::default());
    for length in 1..=44 {
        let marks = MARK.repeat(length);
        let run = &marks[length % 2..][..length];
        assert_eq!(entries(run).len(), 1);
        cases.every_way(&[run]);
        cases.every_way(&[run, &[0; 13]]);
        cases.every_way(&[run, &sound]);
    }
}

/// Byte 7 of any of the records is not zero.
fn zero_bytes(cases: &mut Cases) {
    for missing in 0..16 {
        for byte in [1, 0x42, 0x80] {
            let mut trace = few();
            for (record, at) in (7..trace.len()).step_by(RECORD_LENGTH).enumerate() {
                if missing >> record & 1 == 1 {
                    trace[at] = byte;
                }
            }
            cases.every_way(&[&trace]);
        }
    }
}

/// 1 to 19 bytes behind the last record: the front of another, marks, or zeros; and no record before
/// them.
fn tails(cases: &mut Cases) {
    let few = few();
    let (before, after) = few.split_at(2 * RECORD_LENGTH);
    for length in 1..RECORD_LENGTH {
        cases.every_way(&[before, &after[..length]]);
        cases.every_way(&[before, &MARK.repeat(RECORD_LENGTH)[..length]]);
        cases.every_way(&[before, &[0; RECORD_LENGTH][..length]]);
        cases.every_way(&[&after[..length]]);
    }
}
