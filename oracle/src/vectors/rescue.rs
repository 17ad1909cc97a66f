//! Small damaged traces with their entries, and with lent lists.

use crate::access::Access;
use crate::rescue::list::rescue;
use crate::rescue::{entries, Entry};
use crate::trace::{record, trace, MARK, RECORD_LENGTH};

use super::text;

/// How many cases stand in one equation: a long one takes much memory to check.
const PORTION: usize = 12;
/// No trace of a case is longer.
const LONGEST: usize = 70;
/// The first number of a lent list before the scan; each other one is the next.
const BEFORE: u64 = 1000;

const MAILBOX: Access = Access::new(9, 1, 0, 0, 16_777_216, 0);
const EVERY_BYTE: Access = Access::new(9, 7, 5, 0x1413_1211, 0x2423_2221, 0x3433_3231);
const HIGHEST: Access = Access::new(255, 255, 255, u32::MAX, u32::MAX, u32::MAX);

fn of(number: u16) -> [u8; RECORD_LENGTH] {
    record(number, &MAILBOX)
}

fn numbered(numbers: &[u16]) -> Vec<u8> {
    numbers.iter().flat_map(|number| of(*number)).collect()
}

fn overwritten(trace: &[u8], at: usize, byte: u8) -> Vec<u8> {
    let mut trace = trace.to_vec();
    trace[at] = byte;
    trace
}

fn lost(trace: &[u8], at: usize, length: usize) -> Vec<u8> {
    [&trace[..at], &trace[at + length..]].concat()
}

fn doubled(trace: &[u8], at: usize, length: usize) -> Vec<u8> {
    [&trace[..at + length], &trace[at..]].concat()
}

/// Two bytes and a record: the range is one entry, and the record another.
fn range_and_record() -> Vec<u8> {
    [&[7, 7], &of(0)[..]].concat()
}

/// Bytes between two records, and the number of the second is right.
fn parted() -> Vec<u8> {
    [&of(0)[..], b"xyz", &of(1)].concat()
}

fn traces() -> Vec<Vec<u8>> {
    let two = numbered(&[0, 1]);
    let three = trace(&[MAILBOX, EVERY_BYTE, MAILBOX]);
    let four = trace(&[MAILBOX, EVERY_BYTE, EVERY_BYTE, MAILBOX]);
    let marks = |i: u32| Access::new(1, 0, 0, 0x5042 + 65_536 * i, 0, 0);
    let never_back = trace(&[marks(0), marks(1), marks(2)]);
    vec![
        // short ones
        vec![],
        vec![0x42],
        of(0)[..19].to_vec(),
        // undamaged ones
        record(0, &HIGHEST).to_vec(),
        three.clone(),
        // numbers
        numbered(&[1]),
        numbered(&[65_535, 0, 1]),
        numbered(&[0, 5, 6]),
        numbered(&[0, 256]),
        numbered(&[255, 256]),
        // bytes before, between and behind
        range_and_record(),
        parted(),
        [&[0x42], &two[..]].concat(),
        [&MARK, &two[..]].concat(),
        [&two[..], &[0x42, 0x50, 2]].concat(),
        [&MARK.repeat(12)[..], &[0; 20]].concat(),
        // bytes overwritten
        overwritten(&two, 0, 0x43),
        overwritten(&two, 7, 1),
        overwritten(&three, 22, 9),
        overwritten(&never_back, 0, 0),
        // bytes lost and doubled
        lost(&three, 0, 10),
        lost(&three, 13, 14),
        lost(&four, 30, RECORD_LENGTH),
        doubled(&two, 15, 9),
    ]
}

/// Traces, and the numbers of the lists that are lent for each.
fn lent() -> Vec<(Vec<u8>, &'static [usize])> {
    vec![
        (vec![], &[0, 1, 5]),
        (vec![0x42], &[0, 2, 3, 4]),
        (of(0).to_vec(), &[5]),
        (range_and_record(), &[3, 5, 6, 8]),
        (numbered(&[0, 5, 6]), &[8, 9, 13]),
        (parted(), &[7]),
    ]
}

fn entry(entry: Entry) -> String {
    match entry {
        Entry::Kept {
            at,
            number,
            doubtful,
        } => format!("kept {at} {number} {doubtful}"),
        Entry::Skipped { at, length } => format!("skipped {at} {length}"),
    }
}

fn bytes(trace: &[u8]) -> String {
    assert!(trace.len() <= LONGEST);
    text::bracketed(trace, u8::to_string)
}

fn entries_case(trace: &[u8]) -> String {
    let entries = text::bracketed(entries(trace), entry);
    format!("entries_case {} {entries}", bytes(trace))
}

fn list_case(trace: &[u8], numbers: usize) -> String {
    let before: Vec<u64> = (BEFORE..).take(numbers).collect();
    let mut after = before.clone();
    let answer = match rescue(trace, &mut after) {
        Ok(count) => format!("count {count}"),
        Err(refusal) => format!("refused {refusal}"),
    };
    let [before, after] = [before, after].map(|list| text::bracketed(&list, u64::to_string));
    format!("list_case {} {before} ({answer}) {after}", bytes(trace))
}

pub fn text() -> String {
    let entries: Vec<String> = traces().iter().map(|trace| entries_case(trace)).collect();
    let mut lists = Vec::new();
    for (trace, lent) in lent() {
        lists.extend(lent.iter().map(|numbers| list_case(&trace, *numbers)));
    }
    let scan = "scan listed after entries";
    let mut entries = text::portions(
        PORTION,
        "entries",
        "EntriesCase",
        "EntriesAgree",
        scan,
        &entries,
    );
    let rescue = format!("{scan} numbers_of rescue");
    let mut lists = text::portions(PORTION, "lists", "ListCase", "ListsAgree", &rescue, &lists);
    entries[0].insert_str(0, "-- a trace; its entries\n");
    let lent = "-- a trace and a lent list; the answer, and the list afterwards\n";
    lists[0].insert_str(0, lent);
    let definitions = [entries, lists].concat().join("\n");
    text::file(
        "damaged traces, their entries, and lent lists",
        &definitions,
    )
}
