//! The corners that the request names, each with its answer.

use crate::access::Access;
use crate::rescue::lines_of;
use crate::rescue::list::{rescue, NO_ROOM, PLACE};
use crate::trace::{record, RECORD_LENGTH};

use super::super::replay::lessons;
use super::{few, Cases, How};

pub fn add(cases: &mut Cases) {
    nothing(cases);
    numbers(cases);
    room(cases);
    never_back(cases);
    false_record(cases);
    for trace in lessons::of_rescue() {
        cases.every_way(&[&trace]);
    }
}

/// A trace each way, which has these lines.
fn with_lines(cases: &mut Cases, trace: &[u8], lines: &[&str]) {
    let text = String::from_utf8(lines_of(trace).0).expect("the text is ASCII");
    assert_eq!(text.lines().collect::<Vec<_>>(), lines);
    cases.every_way(&[trace]);
    cases.add(How::List, PLACE * (lines.len() - 1), trace);
}

/// No bytes: 0 entries, also in a list of no places.
fn nothing(cases: &mut Cases) {
    with_lines(cases, &[], &["end 0 0 0"]);
    for numbers in 0..=7 {
        cases.add(How::List, numbers, &[]);
    }
    for portion in [1, 20, 65_000] {
        cases.add(How::Lines, portion, &[]);
        cases.add(How::Trace, portion, &[]);
    }
}

fn numbers(cases: &mut Cases) {
    // the previous one is the last kept one, itself doubtful
    let of = |number| record(number, &Access::default());
    let lines = ["kept 0 0", "doubtful 20 5", "kept 40 6", "end 3 1 0"];
    with_lines(cases, &[of(0), of(5), of(6)].concat(), &lines);
    // bytes between two records, and the number is right
    let lines = ["kept 0 0", "skipped 20 3", "kept 23 1", "end 2 0 3"];
    with_lines(cases, &[&of(0)[..], b"xyz", &of(1)].concat(), &lines);
}

/// "given only if the next entry does not fit; entries already listed stand": a range is one entry,
/// and listed whole.
fn room(cases: &mut Cases) {
    let trace = [&[7, 7], &record(0, &Access::default())[..]].concat();
    let mut list = [0; PLACE];
    assert_eq!(rescue(&trace, &mut list), Err(NO_ROOM));
    assert_eq!(list, [3, 0, 2]);
    for numbers in 0..=10 {
        cases.add(How::List, numbers, &trace);
    }
}

/// The scan stands at 8, 28, 48 and so on to the end, and at no boundary: every record that it keeps
/// is false, and none is doubtful.
fn never_back(cases: &mut Cases) {
    let access = |i: u16| Access::new(1, 0, 0, 0x5042 + 65_536 * u32::from(i), 0, 0);
    for records in [2, 4, 30] {
        let mut trace: Vec<u8> = (0..records).flat_map(|i| record(i, &access(i))).collect();
        for byte in [0x00, 0x43, 0x50, 0xFF] {
            trace[0] = byte;
            let (text, counts) = lines_of(&trace);
            assert!(text.starts_with(b"skipped 0 8\nkept 8 0\n"));
            assert_eq!((counts.kept, counts.doubtful), (u64::from(records) - 1, 0));
            cases.every_way(&[&trace]);
        }
    }
}

/// 20 bytes are lost from the middle of record 1 to the middle of record 2: the front of the one and
/// the end of the other are kept as record 1 without doubt.
fn false_record(cases: &mut Cases) {
    let few = few();
    for from in RECORD_LENGTH + 8..2 * RECORD_LENGTH {
        let trace = [&few[..from], &few[from + RECORD_LENGTH..]].concat();
        let lines = ["kept 0 0", "kept 20 1", "doubtful 40 3", "end 3 1 0"];
        with_lines(cases, &trace, &lines);
    }
}
