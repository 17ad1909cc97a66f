//! Random accesses in which much happens to the event bits: every kind, done and refused, and often
//! what raises a position, clears it, fills a FIFO or takes from it.

use crate::access::{kind, Access};
use crate::arbitrary;
use crate::drive::sides::{HOST, LOCAL};
use crate::rng::Rng;
use crate::settings::Settings;

use super::shorthand::{self, ABOVE, BELOW, COPIED, IN_ABORT_RANGE, PIN, RESET, RING};

/// How often what is drawn is of each sort, in the order of `some`.
const WEIGHTS: [u32; 12] = [16, 14, 5, 12, 10, 5, 6, 9, 2, 7, 6, 3];

/// The most puts or takes in a row: more than a FIFO holds.
const LONGEST_ROW: u32 = 48;

/// So many accesses.
pub fn accesses(rng: &mut Rng, count: usize) -> Vec<Access> {
    let mut accesses = Vec::new();
    while accesses.len() < count {
        some(rng, &mut accesses);
    }
    accesses.truncate(count);
    accesses
}

fn some(rng: &mut Rng, accesses: &mut Vec<Access>) {
    let access = match rng.weighted(&WEIGHTS) {
        0 => put(rng),
        1 => take(rng),
        2 => {
            let again = if rng.one_in(4) { take(rng) } else { put(rng) };
            return row(rng, again, accesses);
        }
        3 => interrupt_write(rng),
        4 => mailbox_write(rng),
        5 => PIN,
        6 => start(rng),
        7 => Access::new(kind::STEP, side(rng), 0, 0, 0, 0),
        8 => Access::new(kind::RESET, side(rng), 0, 0, 0, 0),
        9 => plain(rng),
        10 => refused(rng),
        _ => arbitrary::access(rng),
    };
    accesses.push(access);
}

/// Some of them one behind the other; of puts each with an entry of its own.
fn row(rng: &mut Rng, again: Access, accesses: &mut Vec<Access>) {
    for _ in 0..=rng.below(LONGEST_ROW) {
        let b = if again.kind == kind::PUT {
            entry(rng)
        } else {
            0
        };
        accesses.push(Access { b, ..again });
    }
}

fn side(rng: &mut Rng) -> u8 {
    rng.pick(&[HOST, LOCAL])
}

/// FIFOs 1 and 3 are those that a position follows.
fn fifo(rng: &mut Rng) -> u8 {
    rng.pick(&[1, 1, 1, 3, 3, 3, 0, 2])
}

/// An entry, often 0.
fn entry(rng: &mut Rng) -> u32 {
    let any = rng.word();
    rng.pick(&[0, 0, 1, 7, any, any, u32::MAX])
}

fn put(rng: &mut Rng) -> Access {
    let fifo = fifo(rng);
    shorthand::put(fifo, entry(rng))
}

fn take(rng: &mut Rng) -> Access {
    shorthand::take(fifo(rng))
}

/// Of no position, of one, of some or of all; enables too.
fn interrupt_write(rng: &mut Rng) -> Access {
    let one = 1 << rng.below(10);
    let some = rng.word() & 0x03FF;
    let enables = rng.word() & 0x03FF_0000;
    let value = rng.pick(&[0, one, one, one, some, some | enables, enables, u32::MAX]);
    shorthand::write(side(rng), value)
}

/// With bit 24, without it, and with every other bit.
fn mailbox_write(rng: &mut Rng) -> Access {
    let data = rng.word() & 0xFFFF;
    let value = rng.pick(&[data, data | RING, data | RING, !RING, u32::MAX]);
    shorthand::mail(side(rng), value)
}

/// A short transfer in the window, to the abort range and into it, or outside the window.
fn start(rng: &mut Rng) -> Access {
    let before_range = IN_ABORT_RANGE - 4;
    let from = [
        COPIED,
        COPIED,
        before_range,
        IN_ABORT_RANGE,
        BELOW,
        ABOVE - 4,
        ABOVE,
    ];
    Access {
        side: side(rng),
        s: rng.below(2) as u8,
        ..shorthand::start(rng.pick(&from), 1 + rng.below(3))
    }
}

/// What raises and clears nothing.
fn plain(rng: &mut Rng) -> Access {
    let side = side(rng);
    let of = |kind, side, a| Access::new(kind, side, 0, a, 0, 0);
    let base = Settings::REPLAY.base;
    rng.pick(&[
        of(kind::SHARED_READ, side, 64),
        of(kind::SHARED_WRITE, side, 64),
        of(kind::WINDOW_READ, HOST, base),
        of(kind::WINDOW_WRITE, HOST, base),
        of(kind::CLAIM, side, 0),
        of(kind::RELEASE, side, 0),
        of(kind::MAILBOX_READ, side, 0),
        of(kind::INTERRUPT_READ, side, 0),
        of(kind::LINE, side, 0),
    ])
}

/// What would raise or clear something, were it not refused: by the wrong side, by one that there is
/// not, or with a field that its kind does not use.
fn refused(rng: &mut Rng) -> Access {
    let access = match rng.below(6) {
        0 => put(rng),
        1 => take(rng),
        2 => interrupt_write(rng),
        3 => mailbox_write(rng),
        4 => PIN,
        _ => RESET,
    };
    let by_other = matches!(access.kind, kind::PUT | kind::TAKE | kind::EXTERNAL_PIN);
    match rng.below(3) {
        0 if by_other => Access {
            side: 1 - access.side,
            ..access
        },
        0 | 1 => Access { side: 2, ..access },
        _ => Access { c: 1, ..access },
    }
}
