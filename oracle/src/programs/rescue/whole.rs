//! What each of the two programs reads itself: a long trace, badly damaged, whose record numbers
//! start again at 0.

use crate::arbitrary;
use crate::rescue::damage;
use crate::rescue::{entries, lines_of, trace_of, Entry};
use crate::rng::Rng;
use crate::trace::{record, MARK, RECORD_LENGTH};

use super::super::Program;

const LIST_SEED: u64 = 1420;
const TRACE_SEED: u64 = 1421;
/// The first number: the numbers last for less than half of the records.
const FIRST: u16 = 58_000;
const RECORDS: usize = 26_000;
/// So much is read at a time.
const CHUNK: usize = 65_520;

/// Damage of every sort anywhere, and some of it across the end of each chunk.
fn damaged(seed: u64) -> Vec<u8> {
    let mut rng = Rng::new(seed);
    let sound = damage::sound(&mut rng, FIRST, RECORDS);
    let mut trace = damage::damaged(&mut rng, &sound, damage::BADLY);
    let stray = record(7, &arbitrary::access(&mut rng));
    let run = MARK.repeat(RECORD_LENGTH);
    for (border, place) in (CHUNK..trace.len() - 100).step_by(CHUNK).zip(0..) {
        // what stands around the border, and how much of it before
        let (bytes, before): (&[u8], usize) = match place % 6 {
            0 => (&run, 20),
            1 => (&stray, 1),
            2 => (&[0xFF; 90], 40),
            3 => (&stray, 19),
            4 => (&MARK, 1),
            _ => (&stray, 7),
        };
        trace[border - before..][..bytes.len()].copy_from_slice(bytes);
    }
    assert_sorts(&trace);
    trace
}

/// There is doubt and none, records and ranges lie across the ends of chunks, and number 0 follows
/// 65,535 without doubt.
fn assert_sorts(trace: &[u8]) {
    assert!(trace.len() > 6 * CHUNK);
    let across = |at: u64, length: u64| at / CHUNK as u64 != (at + length - 1) / CHUNK as u64;
    let (mut kept, mut skipped, mut again) = (0, 0, false);
    let mut previous = 0;
    for entry in entries(trace) {
        match entry {
            Entry::Kept {
                at,
                number,
                doubtful,
            } => {
                kept += u32::from(across(at, RECORD_LENGTH as u64));
                again |= previous == u16::MAX && number == 0 && !doubtful;
                previous = number;
            }
            Entry::Skipped { at, length } => skipped += u32::from(across(at, length)),
        }
    }
    assert!(kept >= 2 && skipped >= 2 && again);
}

pub fn rescue_list() -> Program {
    let stdin = damaged(LIST_SEED);
    let (stdout, _) = lines_of(&stdin);
    Program {
        name: "rescue_list",
        stdin,
        stdout,
    }
}

pub fn rescue_trace() -> Program {
    let stdin = damaged(TRACE_SEED);
    let (stdout, _) = trace_of(&stdin);
    Program {
        name: "rescue_trace",
        stdin,
        stdout,
    }
}
