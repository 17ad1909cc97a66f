//! FIFOs 1 and 3, which positions 6 and 7 follow: filled, emptied, overflowed, run round.

use crate::access::Access;
use crate::card::FIFO_DEPTH;
use crate::why::shorthand::{put, take, write, LINE, RESET};

use super::{by_both, Cases};

/// Two more than a FIFO holds.
const TOO_MANY: usize = FIFO_DEPTH + 2;

pub fn add(cases: &mut Cases) {
    for fifo in [1, 3] {
        filled(cases, fifo);
        emptied(cases, fifo);
        run_round(cases, fifo);
        reset(cases, fifo);
    }
    beside_each_other(cases);
}

fn ask(cases: &mut Cases, parts: &[&[Access]]) {
    cases.ask(&parts.concat(), by_both(&[6, 7]));
}

/// So many puts, of 0 first.
fn puts(fifo: u8, count: usize) -> Vec<Access> {
    (0..count).map(|entry| put(fifo, entry as u32)).collect()
}

fn takes(fifo: u8, count: usize) -> Vec<Access> {
    vec![take(fifo); count]
}

/// 0 to 34 entries put; alike ones, and the largest.
fn filled(cases: &mut Cases, fifo: u8) {
    for count in 0..=TOO_MANY {
        ask(cases, &[&puts(fifo, count)]);
    }
    for entry in [0, u32::MAX] {
        ask(cases, &[&[put(fifo, entry); 3]]);
        ask(cases, &[&[put(fifo, entry); TOO_MANY]]);
    }
    // refused puts and other accesses count as records
    let by_other = Access {
        side: 1 - put(fifo, 0).side,
        ..put(fifo, 9)
    };
    let unused = Access {
        c: 1,
        ..put(fifo, 9)
    };
    let some = [by_other, put(fifo, 0), LINE, unused, put(fifo, 1), by_other];
    ask(cases, &[&some, &some]);
    // no write clears it
    let written = [write(0, u32::MAX), write(1, u32::MAX)];
    ask(cases, &[&puts(fifo, 2), &written]);
}

/// Takes from one, some and too many entries.
fn emptied(cases: &mut Cases, fifo: u8) {
    ask(cases, &[&takes(fifo, 2)]);
    for (held, out) in [
        (1, 1),
        (1, 2),
        (2, 1),
        (2, 2),
        (2, 3),
        (5, 4),
        (FIFO_DEPTH, 1),
        (FIFO_DEPTH, FIFO_DEPTH - 1),
        (FIFO_DEPTH, FIFO_DEPTH),
        (TOO_MANY, FIFO_DEPTH),
        (TOO_MANY, TOO_MANY),
    ] {
        ask(cases, &[&puts(fifo, held), &takes(fifo, out)]);
        // and one put more
        let again = [put(fifo, 0)];
        ask(cases, &[&puts(fifo, held), &takes(fifo, out), &again]);
    }
    // emptied twice
    let once = [put(fifo, 0), take(fifo)];
    ask(cases, &[&once, &once]);
    // a take by the wrong side
    let by_other = Access {
        side: 1 - take(fifo).side,
        ..take(fifo)
    };
    ask(cases, &[&puts(fifo, 1), &[by_other]]);
}

/// The places of a FIFO are used again, from every place on.
fn run_round(cases: &mut Cases, fifo: u8) {
    for shift in [1, 16, 31, 32, 33, 63, 64, 65] {
        let through: Vec<Access> = puts(fifo, shift)
            .into_iter()
            .flat_map(|put| [put, take(fifo)])
            .collect();
        ask(cases, &[&through, &puts(fifo, 3)]);
        ask(cases, &[&through, &puts(fifo, TOO_MANY)]);
    }
    // full all the time, and each time one is lost
    let mut full = puts(fifo, FIFO_DEPTH);
    for entry in 100..140 {
        full.extend([put(fifo, entry), take(fifo), put(fifo, 0)]);
    }
    ask(cases, &[&full]);
    full.extend(takes(fifo, FIFO_DEPTH + 1));
    ask(cases, &[&full]);
}

fn reset(cases: &mut Cases, fifo: u8) {
    for held in [0, 1, 2, FIFO_DEPTH, TOO_MANY] {
        let puts = puts(fifo, held);
        ask(cases, &[&puts, &[RESET]]);
        ask(cases, &[&puts, &[RESET, RESET, take(fifo)]]);
        ask(cases, &[&puts, &[RESET, put(fifo, 0)]]);
        ask(cases, &[&puts, &takes(fifo, held), &[RESET]]);
        ask(cases, &[&puts, &[RESET], &puts, &[RESET]]);
    }
}

/// Both at once, and the other two full.
fn beside_each_other(cases: &mut Cases) {
    let both: Vec<Access> = (0..20)
        .flat_map(|entry| [put(1, entry), put(3, entry), put(0, 0), put(2, 0)])
        .collect();
    ask(cases, &[&both]);
    ask(cases, &[&both, &takes(1, 20)]);
    ask(cases, &[&both, &takes(3, 5), &puts(1, 20)]);
    ask(cases, &[&puts(0, TOO_MANY), &puts(2, TOO_MANY)]);
    ask(
        cases,
        &[&puts(1, 2), &takes(2, 3), &takes(0, 3), &takes(3, 3)],
    );
}
