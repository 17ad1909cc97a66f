//! The corners that the request names, each with its answer.

use crate::access::Access;
use crate::drive::sides::{HOST, LOCAL};
use crate::trace::trace;
use crate::why::shorthand::{put, take, write, LINE, PIN, RESET};
use crate::why::{lines, why};

use super::super::replay::lessons;
use super::{every, Cases};

pub fn add(cases: &mut Cases) {
    signal(cases);
    entries(cases);
    // the questions of its lesson among them
    cases.add(lessons::of_why(), every());
}

/// Of these accesses this is answered, and every other question is asked too.
fn is_told(cases: &mut Cases, accesses: &[Access], side: u8, position: u32, told: &[&str]) {
    let text: String = told.iter().map(|line| format!("{line}\n")).collect();
    assert_eq!(lines(&why(&trace(accesses), side.into(), position)), text);
    cases.ask(accesses, every());
}

/// Position 4 of the host.
fn signal(cases: &mut Cases) {
    let clear = write(HOST, 16);
    let refused = Access { side: HOST, ..PIN };
    let enable = write(HOST, 16 << 16);
    for (accesses, told) in [
        (&[][..], "never raised"),
        (&[PIN], "set by record 0"),
        (&[PIN, PIN], "set by record 0"),
        (&[PIN, clear, RESET], "cleared by record 1"),
        (&[PIN, RESET, clear], "cleared by record 1"),
        (&[PIN, clear, PIN, RESET], "cleared by record 3"),
        (&[clear], "never raised"),
        (&[RESET], "never raised"),
        (&[PIN, clear, clear], "cleared by record 1"),
        (&[PIN, write(LOCAL, 16)], "set by record 0"),
        (&[PIN, write(HOST, 0)], "set by record 0"),
        (&[PIN, enable, LINE], "set by record 0"),
        (&[enable, PIN, LINE, enable], "set by record 1"),
        (&[refused, refused, PIN], "set by record 2"),
        (&[refused], "never raised"),
    ] {
        is_told(cases, accesses, HOST, 4, &[told]);
    }
    is_told(cases, &[PIN], LOCAL, 4, &["why 42"]);
    is_told(cases, &[PIN], LOCAL, 2, &["why 42"]);
}

/// Positions 6 and 7, on either side.
fn entries(cases: &mut Cases) {
    for (fifo, position) in [(1, 6), (3, 7)] {
        let [zero, seven, out] = [put(fifo, 0), put(fifo, 7), take(fifo)];
        let both = ["entry 0 put by record 0", "entry 7 put by record 1"];
        for side in [HOST, LOCAL] {
            let mut is_told = |accesses: &[Access], told: &[&str]| {
                is_told(cases, accesses, side, position, told);
            };
            is_told(&[zero, seven], &["set: 2 held", both[0], both[1]]);
            is_told(&[zero, seven, out], &["set: 1 held", both[1]]);
            is_told(&[zero, out], &["cleared by record 1"]);
            is_told(&[zero, out, out, RESET], &["cleared by record 1"]);
            is_told(&[zero, RESET, out], &["cleared by record 1"]);
            is_told(&[out, RESET], &["never raised"]);
            is_told(&[zero, write(side, u32::MAX)], &["set: 1 held", both[0]]);
        }
    }
}
