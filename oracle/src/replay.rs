//! "The replay program reads a trace from standard input, on zeroed memories."

use std::io::{self, BufWriter, Read, Write};

use crate::access::{kind, Access, Answer};
use crate::card::fresh;
use crate::decimal;
use crate::input::{Input, BUFFER};
use crate::settings::Settings;
use crate::trace::{self, RECORD_LENGTH};
use crate::world::World;

/// Room for the digits of a number; one of 32 bits has at most ten.
const DIGITS: usize = 20;

/// "Whole case: local kind 9 with B 16,777,216; host kind 10; host kind 15."
pub const WHOLE_CASE: [Access; 3] = [
    Access::new(kind::MAILBOX_WRITE, 1, 0, 0, 16_777_216, 0),
    Access::new(kind::MAILBOX_READ, 0, 0, 0, 0, 0),
    Access::new(kind::STEP, 0, 0, 0, 0, 0),
];

/// A fresh card with the replay's settings between zeroed memories.
pub fn bench() -> World {
    let (_, card) = fresh(Settings::REPLAY);
    World::zeroed(card)
}

/// "Per record it writes record number, answer number, V, X in decimal with single spaces; then
/// `end` and the count of records. A reader refusal writes `log R at N` instead, N the records
/// answered, and stops." The count does not wrap; the record number does.
pub fn replay(input: impl Read, output: impl Write) -> io::Result<()> {
    let mut input = Input::new(input);
    let mut output = BufWriter::with_capacity(BUFFER, output);
    let mut bench = bench();
    let mut number = 0;
    let mut count: u64 = 0;
    loop {
        let ahead = input.ahead(RECORD_LENGTH)?;
        if ahead.is_empty() {
            writeln!(output, "end {count}")?;
            break;
        }
        match trace::read(ahead, number) {
            Ok(access) => {
                let answer = bench.access(access);
                write_line(&mut output, number, &answer)?;
                input.take(RECORD_LENGTH);
            }
            Err(refusal) => {
                writeln!(output, "log {refusal} at {count}")?;
                break;
            }
        }
        number = trace::next_number(number);
        count += 1;
    }
    output.flush()
}

pub fn text(trace: &[u8]) -> Vec<u8> {
    let mut text = Vec::new();
    replay(trace, &mut text).expect("memory is read and written");
    text
}

fn write_line(output: &mut impl Write, number: u16, answer: &Answer) -> io::Result<()> {
    write_number(output, u32::from(number), b' ')?;
    write_number(output, u32::from(answer.number), b' ')?;
    write_number(output, answer.v, b' ')?;
    write_number(output, answer.x, b'\n')
}

/// A number in decimal, and the byte after it.
fn write_number(output: &mut impl Write, number: u32, after: u8) -> io::Result<()> {
    let mut text = [after; DIGITS + 1];
    let start = decimal::store(number, &mut text[..DIGITS]);
    output.write_all(&text[start..])
}
