//! Traces of no record, of one, and of as many as may be asked about, one fewer and one more.

use crate::access::Access;
use crate::drive::sides::HOST;
use crate::rng::Rng;
use crate::trace::{trace, RECORD_LENGTH};
use crate::why::shorthand::{put, write, LINE, PIN};
use crate::why::{eventful, lines, why, MOST_BYTES, MOST_RECORDS};

use super::{every, Cases, Question};

const SEED: u64 = 710;
/// The records of a trace whose last one is refused.
const MANY: usize = 1000;

pub fn add(cases: &mut Cases) {
    cases.ask(&[], every());
    for access in [LINE, PIN, put(1, 0), put(3, 0)] {
        cases.ask(&[access], every());
    }
    let accesses = ends(MOST_RECORDS + 1);
    let most = trace(&accesses[..MOST_RECORDS]);
    assert_eq!(most.len(), MOST_BYTES);
    let last = lines(&why(&most, 0, 4));
    assert_eq!(last, format!("set by record {}\n", MOST_RECORDS - 1));
    cases.add(most.clone(), every());
    cases.add(trace(&accesses[1..MOST_RECORDS]), every());
    far(cases, &most);
    too_long(cases, &accesses, most);
}

/// Eventful accesses; the last but one raises the external signal, and entries are put before it.
fn ends(count: usize) -> Vec<Access> {
    let mut accesses = eventful::accesses(&mut Rng::new(SEED), count - 5);
    accesses.extend([put(3, 0), put(1, 0), write(HOST, 16), PIN, LINE]);
    accesses
}

/// A record that the reader refuses behind many that it reads.
fn far(cases: &mut Cases, most: &[u8]) {
    let mut unread = most[..MANY * RECORD_LENGTH].to_vec();
    unread[(MANY - 1) * RECORD_LENGTH + 7] = 1;
    cases.add(unread, few());
}

/// "41 above 81,920 bytes", whatever they are.
fn too_long(cases: &mut Cases, accesses: &[Access], most: Vec<u8>) {
    cases.add(trace(accesses), every());
    let left_over = [&most[..], b"B"].concat();
    cases.add(left_over, few());
    // a bad record in it too
    let mut unread = [&most[..], &most[..RECORD_LENGTH - 1]].concat();
    unread[0] = 0;
    assert_eq!(unread.len(), 81_939);
    cases.add(unread, few());
}

/// Refused by side and position, both, and neither.
fn few() -> Vec<Question> {
    let asked = [(0, 4), (1, 6), (0, 7), (1, 4), (0, 2), (0, 10)].into_iter();
    let refused = [(2, 4), (2, 2), (256, 10)].into_iter();
    asked
        .chain(refused)
        .map(|(side, position)| Question::new(side, position))
        .collect()
}
