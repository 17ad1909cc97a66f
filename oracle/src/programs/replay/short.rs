//! Traces of a few records: the whole case, and each script on a fresh card.

use crate::drive::scripts::{memories, registers, transfers, Script};
use crate::replay::WHOLE_CASE;
use crate::seeds::Seeds;
use crate::trace::trace;

use super::scripted;

const SEEDS: Seeds = Seeds::new(
    600,
    &[
        "borders",
        "lanes",
        "inbound free",
        "inbound post",
        "outbound free",
        "outbound post",
        "found",
        "flags",
        "mailboxes",
        "interrupts",
        "clearing",
        "abort range",
        "window borders",
        "starts",
        "start checks",
    ],
);

/// The scripts by their names. A new one may stand anywhere.
const SCRIPTS: [(&str, Script); 15] = [
    ("borders", memories::borders),
    ("lanes", memories::lanes),
    ("inbound free", registers::inbound_free),
    ("inbound post", registers::inbound_post),
    ("outbound free", registers::outbound_free),
    ("outbound post", registers::outbound_post),
    ("found", registers::found),
    ("flags", registers::flags),
    ("mailboxes", registers::mailboxes),
    ("interrupts", registers::interrupts),
    ("clearing", registers::clearing),
    ("abort range", transfers::abort_range),
    ("window borders", transfers::window_borders),
    ("starts", transfers::starts),
    ("start checks", transfers::start_checks),
];

pub fn traces() -> Vec<Vec<u8>> {
    let mut traces = vec![trace(&WHOLE_CASE)];
    traces.extend(SCRIPTS.map(|(name, script)| scripted(SEEDS.of(name), script)));
    traces
}
