//! The long trace: all that a replay can reach, and record numbers past 65,535.

use crate::access::{kind, Access};
use crate::card::FIFO_DEPTH;
use crate::drive::builder::Builder;
use crate::drive::coverage::{required, Coverage};
use crate::drive::faults::faults;
use crate::drive::scripts::{memories, registers, transfers, Script};
use crate::drive::sides::{by_both, taker, HOST, LOCAL};
use crate::replay::bench;
use crate::rng::Rng;
use crate::transfer::SHARED_LENGTH;

const SEED: u64 = 500;
/// The records of the stored trace.
pub const STORED_RECORDS: usize = 82_000;
/// The fewest records: their numbers start again at 0.
pub const FEWEST_RECORDS: usize = 70_000;
/// No round has more accesses: a script may step the largest transfer to its end.
const LONGEST_ROUND: usize = 5000;

/// How often a round of the trace is of each kind, in the order of `round`.
const WEIGHTS: [u32; 5] = [5, 3, 5, 2, 2];

/// Rounds pick among these by number: a further script would change every record behind the first
/// pick, and has a short trace instead.
const SCRIPTS: [Script; 15] = [
    memories::borders,
    memories::lanes,
    registers::inbound_free,
    registers::inbound_post,
    registers::outbound_free,
    registers::outbound_post,
    registers::found,
    registers::flags,
    registers::mailboxes,
    registers::interrupts,
    registers::clearing,
    transfers::abort_range,
    transfers::window_borders,
    transfers::starts,
    transfers::start_checks,
];

/// So many accesses, which reach every fact that is required of a replay; or panics.
pub fn accesses(count: usize) -> Vec<Access> {
    assert!(count >= FEWEST_RECORDS);
    let mut coverage = Coverage::default();
    let mut b = Builder::new(bench(), Rng::new(SEED), &mut coverage);
    for script in SCRIPTS {
        script(&mut b);
        b.plain(kind::RESET, LOCAL);
    }
    whole_transfers(&mut b);
    let last = last_reads(&b);
    let until = count - last.len();
    while b.entries.len() + LONGEST_ROUND < until {
        round(&mut b);
    }
    while b.entries.len() < until {
        rarely_reset(&mut b);
    }
    b.perform(last);
    let accesses = b.accesses();
    assert_eq!(accesses.len(), count);
    coverage.assert_reached(required::of_replay());
    accesses
}

/// The largest transfer in each direction, over memories that are not all zero.
fn whole_transfers(b: &mut Builder) {
    let base = b.settings().base;
    for direction in [0, 1] {
        for _ in 0..100 {
            wide_access(b);
        }
        b.run_transfer(HOST, direction, 0, base + 4096, SHARED_LENGTH);
        b.read_registers();
    }
}

fn round(b: &mut Builder) {
    match b.rng.weighted(&WEIGHTS) {
        0 => {
            for _ in 0..40 {
                rarely_reset(b);
            }
        }
        1 => {
            let script = b.rng.pick(&SCRIPTS);
            script(b);
        }
        2 => interleaved(b),
        3 => {
            let faults = faults(&b.settings(), &mut b.rng);
            for _ in 0..12 {
                let fault = b.rng.pick(&faults);
                b.access(fault);
            }
        }
        _ => {
            for _ in 0..24 {
                wide_access(b);
            }
        }
    }
}

fn rarely_reset(b: &mut Builder) {
    let access = b.choice();
    if access.kind != kind::RESET || b.rng.one_in(8) {
        b.access(access);
    }
}

/// Kinds 1 to 4 anywhere in the memories.
fn wide_access(b: &mut Builder) {
    let settings = b.settings();
    let shared = 4 * b.rng.below(SHARED_LENGTH / 4);
    let pci = settings.base + 4 * b.rng.below(settings.length / 4);
    on_either(b, shared, pci);
}

/// A read or a write of the shared address or of the PCI address.
fn on_either(b: &mut Builder, shared: u32, pci: u32) {
    let (side, lanes, dword) = (b.side(), b.lanes(), b.dword());
    let access = match b.rng.below(4) {
        0 => Access::new(kind::SHARED_READ, side, lanes, shared, 0, 0),
        1 => Access::new(kind::SHARED_WRITE, side, lanes, shared, dword, 0),
        2 => Access::new(kind::WINDOW_READ, HOST, lanes, pci, 0, 0),
        _ => Access::new(kind::WINDOW_WRITE, HOST, lanes, pci, dword, 0),
    };
    b.access(access);
}

/// A transfer whose steps stand among accesses to its ranges, beside them and elsewhere.
fn interleaved(b: &mut Builder) {
    let settings = b.settings();
    let dwords = 1 + b.rng.below(24);
    let size = 4 * dwords;
    let shared = 4 + 4 * b.rng.below((SHARED_LENGTH - size) / 4 - 1);
    let offset = if b.rng.one_in(8) {
        // to the abort range or into it
        settings.lo - size + 4 * b.rng.below(dwords + 4)
    } else {
        4 + 4 * b.rng.below((settings.lo - size) / 4 - 1)
    };
    let pci = settings.base + offset;
    let direction = b.rng.below(2) as u8;
    b.start(HOST, direction, shared, pci, size);
    while b.world.card.running.is_some() {
        let side = b.side();
        match b.rng.below(6) {
            0..=2 => b.plain(kind::STEP, side),
            3 | 4 => {
                let offset = (4 * b.rng.below(dwords + 2)).wrapping_sub(4);
                on_either(b, shared.wrapping_add(offset), pci.wrapping_add(offset));
            }
            _ => rarely_reset(b),
        }
    }
    b.read_registers();
}

/// All that is left: the registers, the FIFOs, the mailboxes, the flags, and every dword of both
/// memories.
fn last_reads(b: &Builder) -> Vec<Access> {
    let settings = b.settings();
    let mut list = Vec::new();
    for kind in [kind::INTERRUPT_READ, kind::LINE, kind::MAILBOX_READ] {
        list.extend(by_both(kind, 0));
    }
    for fifo in 0..4 {
        let take = Access::new(kind::TAKE, taker(fifo), fifo, 0, 0, 0);
        list.extend([take; FIFO_DEPTH + 1]);
        // the pair of the same number
        list.extend(by_both(kind::CLAIM, fifo));
    }
    let dwords = |length: u32| (0..length).step_by(4);
    list.extend(dwords(SHARED_LENGTH).map(|a| Access::new(kind::SHARED_READ, LOCAL, 0, a, 0, 0)));
    list.extend(
        dwords(settings.length)
            .map(|offset| Access::new(kind::WINDOW_READ, HOST, 0, settings.base + offset, 0, 0)),
    );
    list
}
