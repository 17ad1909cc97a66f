//! The rescue of a damaged trace: the corners of L14, and what holds of every trace, tried on many.

use std::io::{self, Read};

use oracle::access::Access;
use oracle::arbitrary;
use oracle::replay::text;
use oracle::rescue::damage::{self, damaged, sound};
use oracle::rescue::list::{numbers, rescue, NO_ROOM};
use oracle::rescue::{entries, lines, lines_of, trace_of, traced, Counts, Entry};
use oracle::rng::Rng;
use oracle::trace::{numbered, read, record, trace, RECORD_LENGTH};

const TRACES: u64 = 4000;

// What is held to

/// "At place k a record stands if k + 20 <= n, bytes k, k + 1 are 0x42 0x50 and byte k + 7 is 0."
fn stands(trace: &[u8], k: usize) -> bool {
    k + 20 <= trace.len() && trace[k] == 0x42 && trace[k + 1] == 0x50 && trace[k + 7] == 0
}

/// The scan byte by byte, over the whole trace.
fn direct(trace: &[u8]) -> Vec<Entry> {
    let mut entries = Vec::new();
    let mut previous: Option<u32> = None;
    let mut k = 0;
    while k < trace.len() {
        if stands(trace, k) {
            let number = u32::from(trace[k + 2]) + 256 * u32::from(trace[k + 3]);
            let doubtful = match previous {
                None => number != 0,
                Some(previous) => number != (previous + 1) % 65_536,
            };
            entries.push(kept(k, number as u16, doubtful));
            previous = Some(number);
            k += 20;
        } else {
            match entries.last_mut() {
                Some(Entry::Skipped { length, .. }) => *length += 1,
                _ => entries.push(skipped(k, 1)),
            }
            k += 1;
        }
    }
    entries
}

fn kept(at: usize, number: u16, doubtful: bool) -> Entry {
    Entry::Kept {
        at: at as u64,
        number,
        doubtful,
    }
}

fn skipped(at: usize, length: u64) -> Entry {
    Entry::Skipped {
        at: at as u64,
        length,
    }
}

fn at(entry: &Entry) -> usize {
    match entry {
        Entry::Kept { at, .. } | Entry::Skipped { at, .. } => *at as usize,
    }
}

fn length(entry: &Entry) -> usize {
    match entry {
        Entry::Kept { .. } => RECORD_LENGTH,
        Entry::Skipped { length, .. } => *length as usize,
    }
}

fn is_kept(entry: &Entry) -> bool {
    matches!(entry, Entry::Kept { .. })
}

/// Kept, and without doubt.
fn is_sure(entry: &Entry) -> bool {
    matches!(
        entry,
        Entry::Kept {
            doubtful: false,
            ..
        }
    )
}

/// Whether the scan comes to stand at a place: an entry begins there, or lies around it and is
/// skipped byte by byte.
fn stood_at(entries: &[Entry], place: usize, end: usize) -> bool {
    let around =
        |entry: &Entry| !is_kept(entry) && (at(entry)..at(entry) + length(entry)).contains(&place);
    place == end
        || entries
            .iter()
            .any(|entry| at(entry) == place || around(entry))
}

/// From a place on, what was kept (place, number, mark), and the bytes skipped.
fn from(entries: &[Entry], place: usize) -> (Vec<(usize, u16, bool)>, Vec<usize>) {
    let (mut records, mut bytes) = (Vec::new(), Vec::new());
    for entry in entries {
        match *entry {
            Entry::Kept {
                number, doubtful, ..
            } if at(entry) >= place => records.push((at(entry), number, doubtful)),
            Entry::Kept { .. } => (),
            Entry::Skipped { .. } => bytes.extend(at(entry)..at(entry) + length(entry)),
        }
    }
    bytes.retain(|byte| *byte >= place);
    (records, bytes)
}

// Traces

/// Sound traces and damaged ones, and bytes of which many are those of a mark.
fn some_trace(place: u64) -> Vec<u8> {
    let mut rng = Rng::after(1430, place << 32);
    let records = rng.below(9) as usize;
    let first = rng.pick(&[0, 0, 0, 3, 65_532]);
    let whole = sound(&mut rng, first, records);
    match rng.below(5) {
        0 => whole,
        1 => damaged(&mut rng, &whole, 12),
        2 => damaged(&mut rng, &whole, 50),
        3 => {
            let mut changed = whole;
            for _ in 0..=rng.below(3) {
                arbitrary::change(&mut rng, &mut changed);
            }
            changed
        }
        _ => dense(&mut rng),
    }
}

/// Bytes among which a record stands in many places, with numbers that often follow each other.
fn dense(rng: &mut Rng) -> Vec<u8> {
    let mut bytes = Vec::new();
    let mut number: u8 = 0;
    for _ in 0..rng.below(60) {
        match rng.below(3) {
            0 => bytes.push(rng.pick(&[0x42, 0x50, 0, 0, 1])),
            1 => bytes.extend([0x42, 0x50]),
            _ => {
                bytes.extend([0x42, 0x50, number, 0, 0, 0, 0, 0]);
                number += 1;
            }
        }
    }
    bytes
}

fn traces() -> impl Iterator<Item = Vec<u8>> {
    (0..TRACES).map(some_trace)
}

fn of(number: u16) -> [u8; RECORD_LENGTH] {
    record(number, &Access::new(10, 0, 0, 0, 0, 0))
}

fn lines_are(trace: &[u8], expected: &[&str]) {
    let (text, _) = lines_of(trace);
    assert!(text.ends_with(b"\n"));
    let text = String::from_utf8(text).expect("the text is ASCII");
    assert_eq!(text.lines().collect::<Vec<_>>(), expected);
}

// The corners of L14, by their numbers

#[test]
fn ranges_are_as_long_as_they_can_be_and_a_record_is_one_entry() {
    let trace = [&[1; 30][..], &of(0), &of(1)].concat();
    let listed = [skipped(0, 30), kept(30, 0, false), kept(50, 1, false)];
    assert_eq!(entries(&trace), listed);
}

#[test]
fn number_kind_and_side_are_not_looked_at_for_keeping() {
    let odd = Access::new(255, 255, 255, u32::MAX, u32::MAX, u32::MAX);
    let trace = [record(0, &odd), record(999, &odd)].concat();
    let listed = [kept(0, 0, false), kept(20, 999, true)];
    assert_eq!(entries(&trace), listed);
}

#[test]
fn the_previous_one_is_the_last_kept_one() {
    let lines = ["kept 0 0", "doubtful 20 5", "kept 40 6", "end 3 1 0"];
    lines_are(&[of(0), of(5), of(6)].concat(), &lines);
    // a number that would follow the last sure one does not follow the last kept one
    let lines = ["kept 0 0", "doubtful 20 5", "doubtful 40 1", "end 3 2 0"];
    lines_are(&[of(0), of(5), of(1)].concat(), &lines);
}

#[test]
fn the_first_is_doubtful_unless_its_number_is_0() {
    lines_are(&of(0), &["kept 0 0", "end 1 0 0"]);
    for number in [1, 2, 255, 256, 65_535] {
        let line = format!("doubtful 0 {number}");
        lines_are(&of(number), &[&line, "end 1 1 0"]);
    }
    // 65,535 is followed by 0, the first one is not
    let lines = ["doubtful 0 65535", "kept 20 0", "end 2 1 0"];
    lines_are(&[of(65_535), of(0)].concat(), &lines);
}

#[test]
fn skipped_bytes_between_make_no_doubt() {
    let trace = [&of(0)[..], b"xyz", &of(1)].concat();
    let lines = ["kept 0 0", "skipped 20 3", "kept 23 1", "end 2 0 3"];
    lines_are(&trace, &lines);
}

#[test]
fn the_last_bytes_are_skipped() {
    for tail in 1..20 {
        let whole = [of(0), of(1)].concat();
        let (skipped, end) = (format!("skipped 20 {tail}"), format!("end 1 0 {tail}"));
        lines_are(&whole[..20 + tail], &["kept 0 0", &skipped, &end]);
    }
    lines_are(&[], &["end 0 0 0"]);
}

#[test]
fn sixty_comes_with_one_entry_more_and_not_before() {
    assert_eq!(rescue(&[], &mut []), Ok(0));
    assert_eq!(rescue(&[0], &mut []), Err(60));
    let trace = [&[7, 7], &of(0)[..]].concat();
    let mut list = [0; 6];
    assert_eq!(rescue(&trace, &mut list), Ok(2));
    assert_eq!(list, [3, 0, 2, 1, 2, 0]);
}

#[test]
fn entries_listed_before_sixty_stand_and_a_range_is_whole() {
    let trace = [&[7, 7], &of(0)[..]].concat();
    for behind in 0..3 {
        let mut list = vec![9; 3 + behind];
        assert_eq!(rescue(&trace, &mut list), Err(60));
        assert_eq!(list[..3], [3, 0, 2]);
        assert!(list[3..].iter().all(|number| *number == 9));
    }
}

#[test]
fn elsewhere_than_at_a_boundary_other_records_are_kept() {
    let access = |i: u16| Access::new(1, 0, 0, 0x5042 + 65_536 * u32::from(i), 0, 0);
    let accesses: Vec<Access> = (0..40).map(access).collect();
    let mut trace = trace(&accesses);
    trace[0] = 0;
    let found = entries(&trace);
    // it stands behind the damage, at 8, 28, 48 and so on, and never at a multiple of 20
    let records = found.iter().filter(|entry| is_kept(entry));
    let records: Vec<(usize, bool)> = records.map(|entry| (at(entry), is_sure(entry))).collect();
    let expected: Vec<(usize, bool)> = (0..39).map(|i| (8 + 20 * i, true)).collect();
    assert_eq!(records, expected);
    let boundaries = (20..trace.len() - 20).step_by(20);
    assert_eq!(
        boundaries
            .filter(|b| stood_at(&found, *b, trace.len()))
            .count(),
        0
    );
}

#[test]
fn the_mark_of_the_first_behind_the_damage_may_differ() {
    let mut trace = [of(0), of(1), of(2)].concat();
    trace[0] = 0;
    let lines = ["skipped 0 20", "doubtful 20 1", "kept 40 2", "end 2 1 20"];
    lines_are(&trace, &lines);
}

#[test]
fn a_kept_record_without_doubt_may_be_false() {
    let accesses = [0x1111_1111, 0x2222_2222, 0x3333_3333, 0x4444_4444];
    let whole = trace(&accesses.map(|a| Access::new(1, 0, 0, a, a, a)));
    let lost = [&whole[..30], &whole[50..]].concat();
    let lines = ["kept 0 0", "kept 20 1", "doubtful 40 3", "end 3 1 0"];
    lines_are(&lost, &lines);
    let access = read(&lost[20..], 1).expect("it is kept");
    assert_eq!(
        access,
        Access::new(1, 0, 0, 0x3333_2222, 0x3333_3333, 0x3333_3333)
    );
}

// What holds of every trace

#[test]
fn the_scan_is_the_direct_one() {
    for trace in traces() {
        assert_eq!(entries(&trace), direct(&trace), "{trace:?}");
    }
    let long = damage::long(30_000);
    assert_eq!(entries(&long), direct(&long));
}

#[test]
fn the_entries_cover_the_trace() {
    for trace in traces() {
        let mut end = 0;
        let mut was_skipped = false;
        for entry in entries(&trace) {
            assert_eq!(at(&entry), end);
            assert!(length(&entry) > 0);
            end += length(&entry);
            assert!(is_kept(&entry) || !was_skipped);
            was_skipped = !is_kept(&entry);
            if is_kept(&entry) {
                assert!(stands(&trace, at(&entry)));
            } else {
                assert!(!(at(&entry)..end).any(|place| stands(&trace, place)));
            }
        }
        assert_eq!(end, trace.len());
    }
}

#[test]
fn a_kept_record_is_read_with_its_own_number() {
    for trace in traces() {
        for entry in entries(&trace) {
            if let Entry::Kept { number, .. } = entry {
                assert!(read(&trace[at(&entry)..], number).is_ok());
            }
        }
    }
}

#[test]
fn all_is_kept_without_doubt_if_and_only_if_the_replay_has_no_log() {
    let mut both = [0, 0];
    for trace in traces() {
        let sure = entries(&trace).iter().all(is_sure);
        let text = text(&trace);
        let last = text.trim_ascii_end().rsplit(|byte| *byte == b'\n').next();
        let whole = last.is_some_and(|line| line.starts_with(b"end "));
        assert_eq!(sure, whole, "{trace:?}");
        both[usize::from(sure)] += 1;
    }
    assert!(both[0] > 500 && both[1] > 500);
}

#[test]
fn the_list_has_the_first_entries_and_nothing_else_changes() {
    for trace in traces().step_by(7) {
        let entries = entries(&trace);
        let all: Vec<u64> = entries.iter().flat_map(numbers).collect();
        for length in 0..=all.len() + 7 {
            let before: Vec<u64> = (1_000_000..).take(length).collect();
            let mut list = before.clone();
            let answer = rescue(&trace, &mut list);
            let filled = (length - length % 3).min(all.len());
            assert_eq!(list[..filled], all[..filled]);
            assert_eq!(list[filled..], before[filled..]);
            let room = filled == all.len();
            let expected = if room {
                Ok(entries.len())
            } else {
                Err(NO_ROOM)
            };
            assert_eq!(answer, expected);
        }
    }
}

/// T14.6: bytes are overwritten, not lost, and the scan stands at a boundary behind them.
#[test]
fn from_a_boundary_behind_the_damage_on_the_records_are_those_of_the_whole() {
    let mut tried = 0;
    for place in 0..TRACES {
        let mut rng = Rng::after(1431, place << 32);
        let count = 1 + rng.below(12) as usize;
        let whole = sound(&mut rng, 0, count);
        let mut spoilt = whole.clone();
        let first = rng.below(whole.len() as u32) as usize;
        let damaged = 1 + rng.below(30) as usize;
        let end = (first + damaged).min(whole.len());
        for byte in &mut spoilt[first..end] {
            let any = rng.byte();
            *byte = rng.pick(&[0x42, 0x50, 0, any]);
        }
        let found = entries(&spoilt);
        let mut boundaries = (0..whole.len()).step_by(20).filter(|b| *b >= end);
        let Some(b) = boundaries.find(|b| stood_at(&found, *b, spoilt.len())) else {
            continue;
        };
        let (records, bytes) = from(&found, b);
        let expected = (b..whole.len()).step_by(20);
        let expected: Vec<(usize, u16)> = expected.map(|at| (at, (at / 20) as u16)).collect();
        let places: Vec<(usize, u16)> = records.iter().map(|(at, n, _)| (*at, *n)).collect();
        assert_eq!(places, expected);
        assert!(bytes.is_empty());
        assert!(records.iter().skip(1).all(|(_, _, doubtful)| !doubtful));
        tried += 1;
    }
    assert!(tried > TRACES / 2);
}

/// T14.7: two traces that are the same behind a place where both scans stand.
#[test]
fn behind_a_place_where_both_scans_stand_they_are_the_same() {
    let mut tried = 0;
    for place in 0..TRACES {
        let mut rng = Rng::after(1432, place << 32);
        let one = some_trace(place);
        let mut other = one.clone();
        let end = rng.below(one.len() as u32 + 1) as usize;
        for byte in &mut other[..end] {
            if rng.one_in(4) {
                let any = rng.byte();
                *byte = rng.pick(&[0x42, 0x50, 0, any]);
            }
        }
        let (of_one, of_other) = (entries(&one), entries(&other));
        for b in end..=one.len() {
            if !stood_at(&of_one, b, one.len()) || !stood_at(&of_other, b, one.len()) {
                continue;
            }
            let (mut records, bytes) = from(&of_one, b);
            let (mut others, other_bytes) = from(&of_other, b);
            assert_eq!(bytes, other_bytes);
            // but perhaps the first mark
            for first in [records.first_mut(), others.first_mut()]
                .into_iter()
                .flatten()
            {
                first.2 = false;
            }
            assert_eq!(records, others);
            tried += 1;
        }
    }
    assert!(tried > TRACES);
}

// What the programs write

/// An input that is read in portions.
struct Portions<'a> {
    rest: &'a [u8],
    portion: usize,
}

impl Read for Portions<'_> {
    fn read(&mut self, buffer: &mut [u8]) -> io::Result<usize> {
        let length = self.portion.min(self.rest.len()).min(buffer.len());
        buffer[..length].copy_from_slice(&self.rest[..length]);
        self.rest = &self.rest[length..];
        Ok(length)
    }
}

fn by_portions_is_the_whole(trace: &[u8], portion: usize) {
    let input = || Portions {
        rest: trace,
        portion,
    };
    let (mut text, mut anew) = (Vec::new(), Vec::new());
    let counts = lines(input(), &mut text).expect("memory is read and written");
    assert_eq!((text, counts), lines_of(trace));
    let counts = traced(input(), &mut anew).expect("memory is read and written");
    assert_eq!((anew, counts), trace_of(trace));
}

#[test]
fn portions_do_not_change_the_output() {
    for trace in traces().step_by(40) {
        for portion in 1..=45 {
            by_portions_is_the_whole(&trace, portion);
        }
    }
    let long = damage::long(15_000);
    for portion in [1, 19, 4093, 65_520, 65_536, 100_000] {
        by_portions_is_the_whole(&long, portion);
    }
}

#[test]
fn the_lines_are_the_entries() {
    for trace in traces() {
        let mut counts = Counts::default();
        let mut expected = String::new();
        for entry in direct(&trace) {
            let (word, last) = match entry {
                Entry::Kept {
                    number, doubtful, ..
                } => {
                    counts.kept += 1;
                    counts.doubtful += u64::from(doubtful);
                    (["kept", "doubtful"][usize::from(doubtful)], number.into())
                }
                Entry::Skipped { length, .. } => {
                    counts.skipped += length;
                    ("skipped", length)
                }
            };
            expected += &format!("{word} {} {last}\n", at(&entry));
        }
        let Counts {
            kept,
            doubtful,
            skipped,
        } = counts;
        expected += &format!("end {kept} {doubtful} {skipped}\n");
        assert_eq!(lines_of(&trace), (expected.into_bytes(), counts));
    }
}

/// The accesses of the kept records, as the reader reads them.
fn accesses(trace: &[u8]) -> Vec<Access> {
    let mut accesses = Vec::new();
    for entry in direct(trace) {
        if let Entry::Kept { number, .. } = entry {
            accesses.push(read(&trace[at(&entry)..], number).expect("a record stands there"));
        }
    }
    accesses
}

#[test]
fn what_is_kept_is_a_trace() {
    for damaged in traces() {
        let (anew, counts) = trace_of(&damaged);
        let accesses = accesses(&damaged);
        assert_eq!(counts.kept, accesses.len() as u64);
        assert_eq!(anew, trace(&accesses));
        assert!(text(&anew).ends_with(format!("end {}\n", counts.kept).as_bytes()));
        assert_eq!(trace_of(&anew).0, anew);
    }
}

#[test]
fn the_numbers_start_again_at_0() {
    let accesses = vec![Access::new(13, 0, 0, 0, 0, 0); 65_540];
    let (anew, counts) = trace_of(&numbered(5, &accesses));
    assert_eq!((counts.kept, counts.doubtful), (65_540, 1));
    assert_eq!(anew, trace(&accesses));
    assert_eq!(anew[20 * 65_535..][2..4], [0xFF, 0xFF]);
    assert_eq!(anew[20 * 65_536..][2..4], [0, 0]);
}
