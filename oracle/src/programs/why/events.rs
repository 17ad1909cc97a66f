//! Each position that is stored, raised by all that raises it, and cleared or not.

use crate::access::Access;
use crate::card::FIFO_DEPTH;
use crate::drive::sides::{HOST, LOCAL};
use crate::why::shorthand::{mail, put, start, write};
use crate::why::shorthand::{ABOVE, BELOW, COPIED, IN_ABORT_RANGE, LINE, PIN, RESET, RING, STEP};

use super::{by_both, Cases};

/// What raises a position, and what it must stand behind; of both sides one writes.
struct Raiser {
    position: u32,
    before: Vec<Access>,
    raise: Vec<Access>,
    writers: &'static [u8],
}

const BOTH: &[u8] = &[HOST, LOCAL];

fn raisers() -> Vec<Raiser> {
    let by = |position, raise: &[Access]| Raiser {
        position,
        before: Vec::new(),
        raise: raise.to_vec(),
        writers: BOTH,
    };
    let overflow = |fifo, position, writers| Raiser {
        position,
        before: vec![put(fifo, 3); FIFO_DEPTH],
        raise: vec![put(fifo, 0)],
        writers,
    };
    let step_by_local = Access {
        side: LOCAL,
        ..STEP
    };
    vec![
        overflow(0, 0, &[HOST]),
        overflow(3, 0, &[LOCAL]),
        overflow(1, 1, &[LOCAL]),
        overflow(2, 1, &[HOST]),
        by(3, &[mail(HOST, RING)]),
        by(3, &[mail(LOCAL, u32::MAX)]),
        by(4, &[PIN]),
        by(5, &[start(COPIED, 1), STEP]),
        by(5, &[start(IN_ABORT_RANGE - 8, 2), STEP, step_by_local]),
        by(8, &[start(IN_ABORT_RANGE, 1), STEP]),
        by(8, &[start(IN_ABORT_RANGE - 4, 3), STEP, step_by_local]),
        by(9, &[start(BELOW, 2), step_by_local]),
        by(9, &[start(ABOVE, 1), STEP]),
    ]
}

pub fn add(cases: &mut Cases) {
    for raiser in raisers() {
        for side in raiser.writers {
            for accesses in runs(&raiser, *side) {
                cases.ask(&accesses, by_both(&[raiser.position]));
            }
        }
    }
    rings(cases);
}

/// Raised, raised again while it is set, cleared by this side or not, reset, and raised anew.
fn runs(raiser: &Raiser, side: u8) -> Vec<Vec<Access>> {
    let bit = 1 << raiser.position;
    let clear = write(side, bit);
    let (before, raise) = (&raiser.before[..], &raiser.raise[..]);
    let behind_it: [&[&[Access]]; 14] = [
        &[],
        &[&[LINE], raise],
        &[&[clear]],
        &[&[write(1 - side, bit)]],
        &[&[write(side, 0), write(side, !bit)]],
        &[&[write(side, u32::MAX), LINE, clear]],
        &[&[clear, write(1 - side, u32::MAX)]],
        &[&[RESET]],
        &[&[clear, RESET, RESET]],
        &[&[RESET, clear]],
        &[&[clear], raise, &[LINE], raise],
        &[&[RESET], before, raise, raise],
        &[&[RESET], before, raise, &[clear]],
        // refused: a field that is not used, and a side that there is not
        &[&[Access { a: 1, ..clear }, Access { side: 2, ..RESET }]],
    ];
    let mut runs = vec![
        before.to_vec(),
        [before, &[clear]].concat(),
        [before, &[clear], raise].concat(),
    ];
    runs.extend(behind_it.map(|behind| [before, raise, &behind.concat()].concat()));
    runs
}

/// Every bit of a mailbox write alone: bit 24 rings, and no other.
fn rings(cases: &mut Cases) {
    for side in BOTH {
        for bit in 0..32 {
            cases.ask(&[mail(*side, 1 << bit)], by_both(&[3]));
        }
        let [ring, data] = [mail(*side, RING), mail(*side, !RING)];
        cases.ask(&[data, ring, data], by_both(&[3]));
    }
    // both have mail, and one of them clears it
    let both = [mail(HOST, RING), mail(LOCAL, RING)];
    for side in BOTH {
        cases.ask(&[both[0], both[1], write(*side, 8)], by_both(&[3]));
    }
}
