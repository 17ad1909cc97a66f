//! Traces, and what the replay writes of them.

pub mod damaged;
pub mod lessons;
mod long;
mod short;

use crate::drive::builder::Builder;
use crate::drive::coverage::Coverage;
use crate::list::list;
use crate::replay::{bench, text};
use crate::rng::Rng;
use crate::trace::{trace, RECORD_LENGTH};

use super::Program;

pub use long::FEWEST_RECORDS;

/// The records of all traces together are at least so many.
const LEAST_RECORDS: usize = 100_000;
/// What all traces and texts may take together.
const BYTES_LIMIT: usize = 10_000_000;
/// The records of a trace of two pieces: the first is full.
const TWO_PIECES: usize = 4000;

pub fn programs() -> [Program; 3] {
    let long = long_trace(long::STORED_RECORDS);
    let traces = [short::traces(), damaged::traces(), lessons::traces()].concat();
    let bytes = long.len() + traces.iter().map(Vec::len).sum::<usize>();
    assert!(bytes >= LEAST_RECORDS * RECORD_LENGTH);
    let two_pieces = long[..TWO_PIECES * RECORD_LENGTH].to_vec();
    let programs = [
        on_trace("replay", long),
        on_traces("replay_test", traces),
        on_trace("turn_test", two_pieces),
    ];
    let sizes = programs.iter().map(|p| p.stdin.len() + p.stdout.len());
    assert!(sizes.sum::<usize>() < BYTES_LIMIT);
    programs
}

/// A trace of so many records, at least `FEWEST_RECORDS`, every kind done and refused among them.
pub fn long_trace(records: usize) -> Vec<u8> {
    trace(&long::accesses(records))
}

/// The text list of the same accesses.
pub fn long_list(records: usize) -> Vec<u8> {
    list(&long::accesses(records))
}

/// The trace of what a script does to a fresh card. Nobody asks what it reaches.
fn scripted(seed: u64, script: impl FnOnce(&mut Builder)) -> Vec<u8> {
    let mut coverage = Coverage::default();
    let mut builder = Builder::new(bench(), Rng::new(seed), &mut coverage);
    script(&mut builder);
    trace(&builder.accesses())
}

fn on_trace(name: &'static str, stdin: Vec<u8>) -> Program {
    let stdout = text(&stdin);
    Program {
        name,
        stdin,
        stdout,
    }
}

/// stdin: traces one behind the other, each behind its length (4 bytes, least byte first).
/// stdout: what the replay writes of each, from a fresh card between zeroed memories.
fn on_traces(name: &'static str, traces: Vec<Vec<u8>>) -> Program {
    let mut stdin = Vec::new();
    for trace in &traces {
        stdin.extend((trace.len() as u32).to_le_bytes());
        stdin.extend(trace);
    }
    Program {
        name,
        stdin,
        stdout: traces.iter().flat_map(|trace| text(trace)).collect(),
    }
}
