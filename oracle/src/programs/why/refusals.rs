//! What the reader refuses, in several places; and two refusals at once.

use crate::trace::{trace, RECORD_LENGTH};
use crate::why::shorthand::{put, LINE, PIN};

use super::super::change_bits;
use super::{Cases, Question};

/// Changes of a record: a byte, and the bits that change.
const CHANGES: [(usize, u8); 9] = [
    (0, 0x01),
    (0, 0x12),
    (1, 0x80),
    (1, 0x12),
    (2, 0x01),
    (2, 0xFF),
    (3, 0x01),
    (7, 0x01),
    (7, 0x80),
];

/// The records of a trace in which something is damaged.
const FEW: usize = 6;

pub fn add(cases: &mut Cases) {
    let few = trace(&[PIN, put(1, 0), LINE, put(3, 0), PIN, LINE]);
    lengths(cases, &few);
    changes(cases, &few);
    lost_and_doubled(cases, &few);
    pairs(cases, &few);
}

fn ask(cases: &mut Cases, trace: Vec<u8>) {
    cases.add(trace, vec![Question::new(0, 4), Question::new(1, 6)]);
}

/// The first 0 to 120 bytes, and as many zeros.
fn lengths(cases: &mut Cases, few: &[u8]) {
    for length in 0..=few.len() {
        ask(cases, few[..length].to_vec());
    }
    for length in [1, 19, 20, 21, 40] {
        ask(cases, vec![0; length]);
    }
}

fn changes(cases: &mut Cases, few: &[u8]) {
    for record in 0..FEW {
        for change in CHANGES {
            let mut trace = few.to_vec();
            change_bits(&mut trace[RECORD_LENGTH * record..], &[change]);
            ask(cases, trace);
        }
    }
}

/// A record that is lost, or stands there twice; a byte that is lost or one too many.
fn lost_and_doubled(cases: &mut Cases, few: &[u8]) {
    for record in 0..FEW {
        let (before, rest) = few.split_at(RECORD_LENGTH * record);
        let after = &rest[RECORD_LENGTH..];
        ask(cases, [before, after].concat());
        ask(cases, [before, &rest[..RECORD_LENGTH], rest].concat());
        ask(cases, [before, &rest[1..]].concat());
        ask(cases, [before, &rest[..1], rest].concat());
    }
}

/// Side, position and trace, each refused or not.
fn pairs(cases: &mut Cases, few: &[u8]) {
    let unread = &few[..few.len() - 1];
    for trace in [few, unread] {
        let questions = [0, 1, 2, 256].into_iter().flat_map(|side| {
            let positions = (0..=10).chain([256]);
            positions.map(move |position| Question::new(side, position))
        });
        cases.add(trace.to_vec(), questions.collect());
    }
}
