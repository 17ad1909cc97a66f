//! Records, accesses and memories as antt text, in the layout of the formatter.

use crate::access::{Access, Answer};
use crate::bursts::Burst;
use crate::call::{Call, Given};
use crate::card::{Card, Mailboxes, Pair};
use crate::decimal::decimal;
use crate::dma::Dma;
use crate::settings::Settings;
use crate::transfer::{Running, Transfer};

use super::uses::uses;

/// How every file begins that this program writes as antt text.
const WRITTEN: &str = "-- Written by the independent program, oracle/";

/// Runs of at least this many zeros are written as a count.
const ZERO_RUN: usize = 8;

/// The indent of a list's entries.
pub const INDENT: &str = "    ";

/// A file of these definitions, behind a line that says what it holds.
pub fn file(holds: &str, definitions: &str) -> String {
    format!("{WRITTEN}: {holds}.\n{}\n{definitions}", uses(definitions))
}

/// Whether a stored file is one that this program wrote.
pub fn is_written(bytes: &[u8]) -> bool {
    bytes.starts_with(WRITTEN.as_bytes())
}

/// "a ∷ b ∷ []", on one line.
fn list<T>(items: impl IntoIterator<Item = T>, text: impl Fn(T) -> String) -> String {
    let mut line = String::new();
    for item in items {
        line += &text(item);
        line += " ∷ ";
    }
    line + "[]"
}

/// The same in brackets, where it is not empty.
pub fn bracketed<T>(items: impl IntoIterator<Item = T>, text: impl Fn(T) -> String) -> String {
    let line = list(items, text);
    if line == "[]" {
        line
    } else {
        format!("({line})")
    }
}

/// Cases of a type, and that they agree with a definition, by computation: `unfolded` names what
/// does not unfold by itself.
pub fn agreement(
    case: &str,
    agree: &str,
    unfolded: &str,
    cases: impl IntoIterator<Item = String>,
) -> String {
    let cases = entries(cases);
    format!(
        "cases : List {case}\n\
         cases =\n\
         {cases}\n\
         agrees : {agree} cases\n\
         unfolding {unfolded}\n\
         agrees = refl\n"
    )
}

/// Cases in portions of so many, each a definition of this name and its number, and that it agrees.
pub fn portions(
    portion: usize,
    name: &str,
    case: &str,
    agree: &str,
    unfolded: &str,
    cases: &[String],
) -> Vec<String> {
    cases
        .chunks(portion)
        .zip(1..)
        .map(|(cases, number)| {
            let entries = entries(cases.iter().cloned());
            format!(
                "{name}{number} : List {case}\n\
                 {name}{number} =\n\
                 {entries}\n\
                 agrees_{name}{number} : {agree} {name}{number}\n\
                 unfolding {name}{number} {unfolded}\n\
                 agrees_{name}{number} = refl\n"
            )
        })
        .collect()
}

/// A list with an entry to a line, as the body of a definition.
pub fn entries(items: impl IntoIterator<Item = String>) -> String {
    let mut items: Vec<String> = items.into_iter().collect();
    items.push("[]".to_string());
    format!("{INDENT}{}\n", items.join(&format!("\n{INDENT}∷ ")))
}

pub fn settings(settings: &Settings) -> String {
    format!("(settings {})", decimal(settings.numbers()))
}

pub fn request(transfer: &Transfer) -> String {
    format!("(request {})", decimal(transfer.numbers()))
}

/// A card as changes of an untouched one of its settings: only the parts that differ are named.
pub fn card(card: &Card) -> String {
    let untouched = format!("(untouched {})", settings(&card.settings));
    // the last change stands innermost
    changes(card)
        .into_iter()
        .rev()
        .fold(untouched, |rest, (word, part)| {
            format!("({word} {part} {rest})")
        })
}

/// The parts in which a card differs from an untouched one, each behind the word that changes it.
fn changes(card: &Card) -> Vec<(&'static str, String)> {
    let untouched = Card::cleared(card.settings);
    let mut changes = Vec::new();
    if card.fifos != untouched.fifos {
        let fifos = bracketed(&card.fifos, |fifo| bracketed(fifo, u32::to_string));
        changes.push(("with_fifos", fifos));
    }
    if card.pairs != untouched.pairs {
        changes.push(("with_arbitration", bracketed(&card.pairs, pair)));
    }
    if card.mailboxes != untouched.mailboxes {
        changes.push(("with_mailboxes", mail(&card.mailboxes)));
    }
    if card.register_numbers() != untouched.register_numbers() {
        let numbers = decimal(card.register_numbers());
        changes.push(("with_interrupts", format!("(interrupts {numbers})")));
    }
    if let Some(Running { transfer, moved }) = &card.running {
        let running = format!("(running {} {moved})", request(transfer));
        changes.push(("with_transfer", running));
    }
    if card.dma != untouched.dma {
        changes.push(("with_dma", dma(&card.dma)));
    }
    changes
}

fn pair(pair: &Pair) -> String {
    format!("pair {} {}", pair.host, pair.local)
}

fn mail(mail: &Mailboxes) -> String {
    format!("(mail {} {} {})", mail.hldata, mail.lhdata, mail.written)
}

fn dma(dma: &Dma) -> String {
    let numbers = decimal([dma.shared, dma.pci, dma.size]);
    let owner = pair(&dma.owner);
    format!("(dma {numbers} ({owner}) {} {})", dma.inhibit, dma.outward)
}

/// A memory in pieces: so many zeros, then these bytes.
pub fn bytes(memory: &[u8]) -> String {
    let mut pieces: Vec<(usize, &[u8])> = Vec::new();
    let mut rest = memory;
    while !rest.is_empty() {
        let zeros = leading_zeros(rest);
        rest = &rest[zeros..];
        let taken = (0..rest.len())
            .find(|start| rest[*start] == 0 && leading_zeros(&rest[*start..]) >= ZERO_RUN)
            .unwrap_or(rest.len());
        pieces.push((zeros, &rest[..taken]));
        rest = &rest[taken..];
    }
    let pieces = bracketed(pieces, |(zeros, bytes)| {
        format!("({zeros}, {})", list(bytes, u8::to_string))
    });
    format!("(bytes {pieces})")
}

fn leading_zeros(memory: &[u8]) -> usize {
    memory.iter().take_while(|byte| **byte == 0).count()
}

pub fn entry(access: &Access, answer: &Answer) -> String {
    let (access, answer) = (decimal(access.numbers()), decimal(answer.numbers()));
    format!("q {access} gives r {answer}")
}

/// A call: `d` and the numbers of a direct access, `g` and those of a register access, `bw` and a
/// burst that writes, `br` and one that reads, with the list as it was and as it is left.
pub fn call(call: &Call, given: &Given) -> String {
    let asked = match call {
        Call::Direct(_) => format!("d {call}"),
        Call::Register(_) => format!("g {call}"),
        Call::BurstWrite(burst) => format!("bw {}", self::burst(burst)),
        Call::BurstRead(burst, list) => format!("br {} {}", self::burst(burst), numbers(list)),
    };
    let answered = format!("{asked} gets r {}", decimal(given.answer.numbers()));
    match &given.list {
        Some(list) => format!("{answered} leaving {}", numbers(list)),
        None => answered,
    }
}

/// Side, mode, start and the phases, `p` and pins and data of each.
fn burst(burst: &Burst) -> String {
    let phases = bracketed(&burst.phases, |phase| {
        format!("p {} {}", phase.pins, phase.data)
    });
    format!("{} {} {} {phases}", burst.side, burst.mode, burst.start)
}

fn numbers(list: &[u32]) -> String {
    bracketed(list, u32::to_string)
}
