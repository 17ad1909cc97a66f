//! "Given a trace of at most 4,096 records, run as the replay runs it, a side and an event position
//! 0 to 9, say why the bit reads as it does at the end."
//!
//! The answer is kept by looking at what is asked and answered, and never at a register.

mod entries;
mod event;
pub mod eventful;
pub mod shorthand;
mod written;

use crate::access::{Access, Answer};
use crate::card::FIFO_DEPTH;
use crate::replay::bench;
use crate::trace::{self, RECORD_LENGTH};

use entries::Entries;
use event::Event;

pub use written::{asked, lines, USAGE};

/// "Refusals, in this order".
pub mod refused {
    pub const SIDE: u8 = 43;
    pub const POSITION: u8 = 42;
    pub const LONG: u8 = 41;
    pub const TRACE: u8 = 40;
}

/// "a trace of at most 4,096 records", and as many bytes.
pub const MOST_RECORDS: usize = 4096;
pub const MOST_BYTES: usize = MOST_RECORDS * RECORD_LENGTH;

/// An entry held, and the record that put it. Records are counted from 0.
#[derive(Clone, Copy, Debug, PartialEq, Eq)]
pub struct Holding {
    pub entry: u32,
    pub record: usize,
}

#[derive(Clone, Debug, PartialEq, Eq)]
pub enum Why {
    /// "never raised"
    Never,
    /// "cleared, with the record that last cleared it"
    Cleared(usize),
    /// "set, with the earliest record that raised it since the last clear or reset"
    Set(usize),
    /// "Positions 6 and 7 are explained by the entries held, oldest first, with the records that put
    /// them". There is one at least.
    Held(Vec<Holding>),
}

/// An answer, or the number of a refusal.
pub type Told = Result<Why, u8>;

/// What is kept of one position along a run. Each done access is noted, in order.
trait Book {
    fn note(&mut self, record: usize, access: &Access, answer: &Answer);
    fn why(&self) -> Why;
}

/// Side and position are any numbers. "Refusals, in this order: 43 a side above 1; 42 a position
/// above 9 or reserved there; 41 above 81,920 bytes; 40 a trace the reader refuses."
pub fn why(trace: &[u8], side: u32, position: u32) -> Told {
    if side > 1 {
        return Err(refused::SIDE);
    }
    if position > 9 || is_reserved(side, position) {
        return Err(refused::POSITION);
    }
    if trace.len() > MOST_BYTES {
        return Err(refused::LONG);
    }
    let accesses = accesses(trace).ok_or(refused::TRACE)?;
    let mut book = book(side as u8, position);
    run(&accesses, book.as_mut());
    Ok(book.why())
}

/// "2 reserved", "4 external signal (host only; reserved in LINT)".
pub fn is_reserved(side: u32, position: u32) -> bool {
    position == 2 || position == 4 && side == 1
}

/// The accesses of a trace that the reader reads to its end.
fn accesses(trace: &[u8]) -> Option<Vec<Access>> {
    let records = trace.chunks(RECORD_LENGTH).zip(0..);
    records
        .map(|(record, number)| trace::read(record, number).ok())
        .collect()
}

/// "Bits 6 and 7 follow FIFOs 1 and 3".
fn book(side: u8, position: u32) -> Box<dyn Book> {
    match position {
        6 => Box::new(Entries::of(1)),
        7 => Box::new(Entries::of(3)),
        _ => Box::new(Event::of(side, position)),
    }
}

/// "run as the replay runs it". A refused access changes nothing, and its record counts.
fn run(accesses: &[Access], book: &mut dyn Book) {
    let mut bench = bench();
    for (record, access) in accesses.iter().enumerate() {
        let answer = bench.access(*access);
        if answer.number == 0 {
            book.note(record, access, &answer);
        }
    }
}

/// Entries and records in places of their own, 0 where there is none: "Each answers zeros".
pub fn places(told: &Told) -> [[u32; FIFO_DEPTH]; 2] {
    let mut places = [[0; FIFO_DEPTH]; 2];
    if let Ok(Why::Held(held)) = told {
        for (place, holding) in held.iter().enumerate() {
            places[0][place] = holding.entry;
            places[1][place] = holding.record as u32;
        }
    }
    places
}
