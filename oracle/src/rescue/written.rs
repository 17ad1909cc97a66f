//! What the two programs write of a scan: a line an entry, or the kept records anew.

use std::io::{self, BufWriter, Read, Write};

use crate::decimal;
use crate::input::BUFFER;
use crate::trace::{next_number, renumbered};

use super::{scan, Counts, Entry};

/// The bytes of the longest line: the longest word, two numbers of 64 bits, and a byte behind each.
const LONGEST_LINE: usize = "doubtful".len() + 1 + 2 * (20 + 1);

/// `kept AT NUMBER`, `doubtful AT NUMBER` or `skipped AT LENGTH`, a line an entry; then
/// `end KEPT DOUBTFUL SKIPPED`.
pub fn lines(input: impl Read, output: impl Write) -> io::Result<Counts> {
    let mut output = BufWriter::with_capacity(BUFFER, output);
    let counts = scan(input, |entry, _| match entry {
        Entry::Kept {
            at,
            number,
            doubtful,
        } => {
            let word: &[u8] = if doubtful { b"doubtful" } else { b"kept" };
            write_line(&mut output, word, at, number.into())
        }
        Entry::Skipped { at, length } => write_line(&mut output, b"skipped", at, length),
    })?;
    let Counts {
        kept,
        doubtful,
        skipped,
    } = counts;
    writeln!(output, "end {kept} {doubtful} {skipped}")?;
    output.flush()?;
    Ok(counts)
}

/// The line is stored from its end on, as its digits are.
fn write_line(output: &mut impl Write, word: &[u8], at: u64, last: u64) -> io::Result<()> {
    let mut room = [b' '; LONGEST_LINE];
    let end = LONGEST_LINE - 1;
    room[end] = b'\n';
    let last = decimal::store_long(last, &mut room[..end]);
    let at = decimal::store_long(at, &mut room[..last - 1]);
    let start = at - 1 - word.len();
    room[start..at - 1].copy_from_slice(word);
    output.write_all(&room[start..])
}

/// The kept records, doubtful ones too, as a trace numbered from 0.
pub fn traced(input: impl Read, output: impl Write) -> io::Result<Counts> {
    let mut output = BufWriter::with_capacity(BUFFER, output);
    let mut number = 0;
    let counts = scan(input, |entry, record| {
        if let Entry::Kept { .. } = entry {
            output.write_all(&renumbered(number, record))?;
            number = next_number(number);
        }
        Ok(())
    })?;
    output.flush()?;
    Ok(counts)
}

/// The lines of a trace in memory, and what was counted.
pub fn lines_of(trace: &[u8]) -> (Vec<u8>, Counts) {
    let mut text = Vec::new();
    let counts = lines(trace, &mut text).expect("memory is read and written");
    (text, counts)
}

/// What is kept of a trace in memory, as a trace, and what was counted.
pub fn trace_of(trace: &[u8]) -> (Vec<u8>, Counts) {
    let mut kept = Vec::new();
    let counts = traced(trace, &mut kept).expect("memory is read and written");
    (kept, counts)
}
