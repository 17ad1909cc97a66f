//! "Scan a lent trace from byte 0: where a whole record with mark and zero byte stands, keep it and
//! go on after it; otherwise skip one byte."

pub mod damage;
pub mod list;
mod written;

use std::io::{self, Read};

use crate::input::Input;
use crate::trace::{next_number, stands, RECORD_LENGTH};

pub use written::{lines, lines_of, trace_of, traced};

/// The bytes of a record.
pub type Record = [u8; RECORD_LENGTH];

/// "List kept records and skipped ranges, each as long as it can be, in order".
#[derive(Clone, Copy, Debug, PartialEq, Eq)]
pub enum Entry {
    /// "mark a kept record doubtful when its number is not the previous kept one plus one, modulo
    /// 65,536; the first is doubtful unless its number is 0"
    Kept {
        at: u64,
        number: u16,
        doubtful: bool,
    },
    /// Bytes at which no record stands, and none between them.
    Skipped { at: u64, length: u64 },
}

/// What a scan counted.
#[derive(Clone, Copy, Debug, Default, PartialEq, Eq)]
pub struct Counts {
    /// Kept records, the doubtful ones too.
    pub kept: u64,
    pub doubtful: u64,
    /// The bytes skipped.
    pub skipped: u64,
}

/// Scans a trace of any length to its end. Each entry goes to `entry`, a kept one with its record.
///
/// What is kept ahead is one buffer: a range is listed when its end is found, and its bytes are gone
/// by then.
pub fn scan(
    input: impl Read,
    mut entry: impl FnMut(Entry, &Record) -> io::Result<()>,
) -> io::Result<Counts> {
    let mut input = Input::new(input);
    let mut counts = Counts::default();
    let mut at = 0;
    // "the first is doubtful unless its number is 0"
    let mut expected = 0;
    loop {
        let length = skip(&mut input)?;
        if length > 0 {
            entry(Entry::Skipped { at, length }, &[0; RECORD_LENGTH])?;
            counts.skipped += length;
            at += length;
        }
        let Some(record) = input.ahead(RECORD_LENGTH)?.first_chunk() else {
            return Ok(counts);
        };
        let number = u16::from_le_bytes([record[2], record[3]]);
        let doubtful = number != expected;
        let kept = Entry::Kept {
            at,
            number,
            doubtful,
        };
        entry(kept, record)?;
        counts.kept += 1;
        counts.doubtful += u64::from(doubtful);
        expected = next_number(number);
        at += RECORD_LENGTH as u64;
        input.take(RECORD_LENGTH);
    }
}

/// Takes the bytes to the next place where a record stands, or to the end, and gives how many.
fn skip(input: &mut Input<impl Read>) -> io::Result<u64> {
    let mut skipped = 0;
    loop {
        let ahead = input.ahead(RECORD_LENGTH)?;
        let (bytes, is_all) = match ahead.windows(RECORD_LENGTH).position(stands) {
            Some(bytes) => (bytes, true),
            // the last 1 to 19 bytes
            None if ahead.len() < RECORD_LENGTH => (ahead.len(), true),
            // a record may stand in what is left, with bytes that are not read yet
            None => (ahead.len() - (RECORD_LENGTH - 1), false),
        };
        input.take(bytes);
        skipped += bytes as u64;
        if is_all {
            return Ok(skipped);
        }
    }
}

/// The entries of a trace in memory.
pub fn entries(trace: &[u8]) -> Vec<Entry> {
    let mut entries = Vec::new();
    let scanned = scan(trace, |entry, _| {
        entries.push(entry);
        Ok(())
    });
    scanned.expect("memory is read");
    entries
}
