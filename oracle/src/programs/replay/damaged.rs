//! Damaged traces: each refusal of the reader at several places, short traces, and the borders of
//! the pieces in which the replay program reads.

use std::collections::BTreeSet;

use crate::access::{kind, Access};
use crate::replay::text;
use crate::trace::{refused, trace, RECORD_LENGTH};

use super::super::change_bits;
use super::scripted;

const SEED: u64 = 700;
/// The replay program reads 65,520 bytes at a time: so many records.
const PIECE: usize = 3276;
/// The records of a trace in whose middle something is damaged.
const FEW: usize = 10;

/// Changes of a record: a byte, and the bits that change.
const CHANGES: [(usize, u8); 9] = [
    (0, 0x01),
    (0, 0x12),
    (1, 0x80),
    (1, 0x12),
    (2, 0x01),
    (2, 0xFF),
    (3, 0x01),
    (7, 0x01),
    (7, 0x80),
];

/// Records around the end of a piece, and the byte that changes.
const BORDER_CHANGES: [(usize, usize); 5] = [
    (PIECE - 1, 3),
    (PIECE, 1),
    (PIECE, 3),
    (PIECE, 7),
    (PIECE + 1, 7),
];

/// Between them they end in every required line, or this panics.
pub fn traces() -> Vec<Vec<u8>> {
    let mut traces = few();
    borders(&mut traces);
    past_the_last_number(&mut traces);
    assert_ends(&traces);
    traces
}

/// Those of few records.
pub fn few() -> Vec<Vec<u8>> {
    let few = random(FEW, SEED);
    let mut traces = Vec::new();
    lengths(&few, &mut traces);
    changes(&few, &mut traces);
    lost_and_doubled(&few, &mut traces);
    traces
}

/// Random accesses to a fresh card.
fn random(records: usize, seed: u64) -> Vec<u8> {
    scripted(seed, |b| (0..records).for_each(|_| b.random()))
}

fn changed(trace: &[u8], record: usize, changes: &[(usize, u8)]) -> Vec<u8> {
    let mut trace = trace.to_vec();
    change_bits(&mut trace[RECORD_LENGTH * record..], changes);
    trace
}

/// The first 0 to 45 bytes, also with a wrong mark in what is left over.
fn lengths(few: &[u8], traces: &mut Vec<Vec<u8>>) {
    for length in 0..=45 {
        traces.push(few[..length].to_vec());
    }
    let wrong = changed(few, 1, &[(0, 1), (2, 1)]);
    for length in RECORD_LENGTH..2 * RECORD_LENGTH {
        traces.push(wrong[..length].to_vec());
    }
    traces.push(vec![0; 19]);
    traces.push(vec![0; 20]);
    traces.push(vec![0; 45]);
}

/// Each change alone, and some together, in each record.
fn changes(few: &[u8], traces: &mut Vec<Vec<u8>>) {
    for record in 0..FEW {
        for change in CHANGES {
            traces.push(changed(few, record, &[change]));
        }
        traces.push(changed(few, record, &[(7, 1), (2, 1)]));
        traces.push(changed(few, record, &[(7, 1), (2, 1), (1, 1)]));
        traces.push(changed(few, record, &[(7, 1), (0, 1)]));
    }
}

/// A record or a byte that is lost, or stands there twice; records that changed places.
fn lost_and_doubled(few: &[u8], traces: &mut Vec<Vec<u8>>) {
    for record in [0, 4, FEW - 1] {
        let (before, rest) = few.split_at(RECORD_LENGTH * record);
        let after = &rest[RECORD_LENGTH..];
        traces.push([before, after].concat());
        traces.push([before, &rest[..RECORD_LENGTH], rest].concat());
        traces.push([before, &rest[1..]].concat());
        traces.push([before, &rest[..1], rest].concat());
    }
    let (first, rest) = few.split_at(RECORD_LENGTH);
    traces.push([&rest[..RECORD_LENGTH], first].concat());
}

/// Ends in, at and behind the end of a piece, and changes in the records around it.
fn borders(traces: &mut Vec<Vec<u8>>) {
    let whole = random(2 * PIECE + 1, SEED + 1);
    let piece = RECORD_LENGTH * PIECE;
    for length in [piece - 10, piece, piece + 1, piece + 20, 2 * piece + 1] {
        traces.push(whole[..length].to_vec());
    }
    for (record, at) in BORDER_CHANGES {
        let rest = &whole[..RECORD_LENGTH * (record + 1)];
        traces.push(changed(rest, record, &[(at, 1)]));
    }
}

/// The record number starts again at 0, and what is counted goes on.
fn past_the_last_number(traces: &mut Vec<Vec<u8>>) {
    let records = usize::from(u16::MAX) + 3;
    let reads = vec![Access::new(kind::LINE, 0, 0, 0, 0, 0); records];
    let last = records - 1;
    traces.push(changed(&trace(&reads), last, &[(2, 0xFF), (3, 0xFF)]));
}

fn assert_ends(traces: &[Vec<u8>]) {
    let ends: BTreeSet<String> = traces.iter().map(|trace| last_line(trace)).collect();
    let log = |number: u8, records: usize| format!("log {number} at {records}");
    let mut required = Vec::new();
    for number in [refused::MARK, refused::NUMBER, refused::ZERO_BYTE] {
        required.extend((0..FEW).chain([PIECE]).map(|records| log(number, records)));
    }
    required.push(log(refused::NUMBER, PIECE - 1));
    required.push(log(refused::ZERO_BYTE, PIECE + 1));
    required.push(log(refused::NUMBER, 65_537));
    let short = [0, 1, 2, PIECE - 1, PIECE, 2 * PIECE];
    required.extend(short.map(|records| log(refused::SHORT, records)));
    required.extend([0, 1, 2, PIECE, PIECE + 1].map(|records| format!("end {records}")));
    required.retain(|line| !ends.contains(line));
    assert!(required.is_empty(), "not reached: {required:?}");
}

fn last_line(trace: &[u8]) -> String {
    let text = String::from_utf8(text(trace)).expect("the text is ASCII");
    text.lines().last().unwrap_or_default().to_string()
}
