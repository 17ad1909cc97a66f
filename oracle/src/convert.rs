//! "One program turns a text list of accesses [..] into a trace, another turns it back."

use std::io::{self, BufWriter, Read, Write};

use crate::input::{Input, BUFFER};
use crate::list::{self, LONGEST_LINE};
use crate::trace::{self, RECORD_LENGTH};

/// How far a program came.
#[derive(Clone, Copy, Debug, Default, PartialEq, Eq)]
pub struct Turned {
    /// The accesses that were turned. It does not wrap; the record number does.
    pub accesses: u64,
    /// What it stopped at, before the end of the input.
    pub refusal: Option<u8>,
}

/// "On a refusal each writes the line `text 25 at N` [..] after what it has turned, and stops."
/// "25, a text line not in that form [..], with its line number counted from 1."
///
/// The longest line is all that is kept ahead: a longer one is refused within so many bytes.
pub fn to_trace(input: impl Read, output: impl Write) -> io::Result<Turned> {
    let turn = |ahead: &[u8], number: u16, output: &mut BufWriter<_>| match list::read(ahead) {
        Ok((access, length)) => {
            output.write_all(&trace::record(number, &access))?;
            Ok(Ok(length))
        }
        Err(refusal) => Ok(Err(refusal)),
    };
    let last = |refusal: u8, accesses: u64| format!("text {refusal} at {}\n", accesses + 1);
    turn_all(input, output, LONGEST_LINE, turn, last)
}

/// "On a refusal each writes [..] the replay's `log R at N` after what it has turned, and stops."
pub fn to_text(input: impl Read, output: impl Write) -> io::Result<Turned> {
    let turn =
        |ahead: &[u8], number: u16, output: &mut BufWriter<_>| match trace::read(ahead, number) {
            Ok(access) => {
                output.write_all(list::line(&access).bytes())?;
                Ok(Ok(RECORD_LENGTH))
            }
            Err(refusal) => Ok(Err(refusal)),
        };
    let last = |refusal: u8, accesses: u64| format!("log {refusal} at {accesses}\n");
    turn_all(input, output, RECORD_LENGTH, turn, last)
}

/// Access after access, each read within the `longest` bytes ahead. `turn` writes one, and gives how
/// many bytes of the input it has, or the refusal; `last` is the line of a refusal.
fn turn_all<W: Write>(
    input: impl Read,
    output: W,
    longest: usize,
    turn: impl Fn(&[u8], u16, &mut BufWriter<W>) -> io::Result<Result<usize, u8>>,
    last: impl Fn(u8, u64) -> String,
) -> io::Result<Turned> {
    let mut input = Input::new(input);
    let mut output = BufWriter::with_capacity(BUFFER, output);
    let mut number = 0;
    let mut turned = Turned::default();
    loop {
        let ahead = input.ahead(longest)?;
        if ahead.is_empty() {
            break;
        }
        match turn(ahead, number, &mut output)? {
            Ok(length) => input.take(length),
            Err(refusal) => {
                output.write_all(last(refusal, turned.accesses).as_bytes())?;
                turned.refusal = Some(refusal);
                break;
            }
        }
        number = trace::next_number(number);
        turned.accesses += 1;
    }
    output.flush()?;
    Ok(turned)
}

/// What is written of a list in memory, and how far that came.
pub fn trace_of(list: &[u8]) -> (Vec<u8>, Turned) {
    let mut trace = Vec::new();
    let turned = to_trace(list, &mut trace).expect("memory is read and written");
    (trace, turned)
}

/// What is written of a trace in memory, and how far that came.
pub fn list_of(trace: &[u8]) -> (Vec<u8>, Turned) {
    let mut list = Vec::new();
    let turned = to_text(trace, &mut list).expect("memory is read and written");
    (list, turned)
}
