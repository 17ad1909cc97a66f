//! The planned part of each list.

pub mod memories;
pub mod registers;
pub mod transfers;

use crate::access::kind;
use crate::refusal::LAST_KIND;

use super::builder::Builder;
use super::faults::{faultless, faults};
use super::sides::{HOST, LOCAL};
use memories::borders;

/// Performs planned accesses.
pub type Script = fn(&mut Builder);

/// The accesses of `all_refused`: random ones follow them in every list.
const PLANNED_REFUSALS: usize = 42;

/// A window without bytes: each step is a master abort.
pub fn no_window(b: &mut Builder) {
    let base = b.settings().base;
    borders(b);
    for direction in [0, 1] {
        b.start(HOST, direction, 0, base, 8);
        b.plain(kind::STEP, LOCAL);
        b.read_registers();
        b.plain(kind::STEP, HOST);
        b.value(kind::INTERRUPT_WRITE, direction, 0x0200_0200);
        b.read_lines();
    }
}

/// Every kind, and faults of every number, where all is refused with 1.
pub fn all_refused(b: &mut Builder) {
    let settings = b.settings();
    b.perform((0..=LAST_KIND).map(|kind| faultless(kind, &settings)));
    let faults = faults(&settings, &mut b.rng);
    while b.entries.len() < PLANNED_REFUSALS {
        let fault = b.rng.pick(&faults);
        b.access(fault);
    }
}
