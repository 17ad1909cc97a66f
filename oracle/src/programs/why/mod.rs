//! Questions why an event bit reads as it does, and their answers.

mod corners;
mod events;
mod fifos;
mod lengths;
mod random;
mod refusals;
mod texts;
mod whole;

use std::collections::BTreeSet;

use crate::access::Access;
use crate::stored::Stored;
use crate::trace::trace;
use crate::why::{asked, is_reserved, lines, places, Told, Why, USAGE};

use super::Program;

/// What each of both files may take.
const BYTES_LIMIT: usize = 900_000;

/// A side and a position, as they are written.
struct Question {
    side: Vec<u8>,
    position: Vec<u8>,
}

impl Question {
    fn new(side: impl ToString, position: impl ToString) -> Question {
        Question {
            side: side.to_string().into_bytes(),
            position: position.to_string().into_bytes(),
        }
    }

    fn told(&self, trace: &[u8]) -> Option<Told> {
        asked(trace, &self.side, &self.position)
    }
}

/// Every position by both sides, reserved ones too.
fn every() -> Vec<Question> {
    let of = |side: u32| (0..10).map(move |position| Question::new(side, position));
    [0, 1].into_iter().flat_map(of).collect()
}

/// These positions by both sides.
fn by_both(positions: &[u32]) -> Vec<Question> {
    let of = |side: u32| {
        let positions = positions.iter();
        positions.map(move |position| Question::new(side, position))
    };
    [0, 1].into_iter().flat_map(of).collect()
}

struct Case {
    trace: Vec<u8>,
    questions: Vec<Question>,
}

#[derive(Default)]
struct Cases(Vec<Case>);

impl Cases {
    fn add(&mut self, trace: Vec<u8>, questions: Vec<Question>) {
        self.0.push(Case { trace, questions });
    }

    /// Of the trace of these accesses.
    fn ask(&mut self, accesses: &[Access], questions: Vec<Question>) {
        self.add(trace(accesses), questions);
    }
}

fn cases() -> Vec<Case> {
    let mut cases = Cases::default();
    corners::add(&mut cases);
    texts::add(&mut cases);
    events::add(&mut cases);
    fifos::add(&mut cases);
    refusals::add(&mut cases);
    lengths::add(&mut cases);
    random::add(&mut cases);
    cases.0
}

/// An answer by its case; of entries how many there are.
fn sort(told: &Told) -> (u8, usize) {
    match told {
        Ok(Why::Never) => (0, 0),
        Ok(Why::Cleared(_)) => (1, 0),
        Ok(Why::Set(_)) => (2, 0),
        Ok(Why::Held(held)) => (3, held.len()),
        Err(refusal) => (*refusal, 0),
    }
}

/// The answers that a question of one digit each must have somewhere.
fn required(side: &[u8], position: &[u8]) -> Vec<(u8, usize)> {
    let number = |text: &[u8]| u32::from(text[0] - b'0');
    if is_reserved(number(side), number(position)) {
        return vec![(42, 0)];
    }
    let mut required = vec![(0, 0), (1, 0), (40, 0), (41, 0)];
    match number(position) {
        6 | 7 => required.extend((1..=32).map(|count| (3, count))),
        _ => required.push((2, 0)),
    }
    required
}

/// Every position has each of its answers on either side, with 1 to 32 entries held; every refusal
/// is given, and there are texts that are no decimals.
fn assert_reached(cases: &[Case]) {
    let mut reached = BTreeSet::new();
    let mut is_no_decimal = false;
    for case in cases {
        for question in &case.questions {
            match question.told(&case.trace) {
                Some(told) => {
                    let (side, position) = (&question.side[..], &question.position[..]);
                    reached.insert((side, position, sort(&told)));
                }
                None => is_no_decimal = true,
            }
        }
    }
    assert!(is_no_decimal);
    for question in every() {
        let (side, position) = (&question.side[..], &question.position[..]);
        for sort in required(side, position) {
            assert!(
                reached.contains(&(side, position, sort)),
                "{}: {sort:?}",
                String::from_utf8_lossy(&[side, b" ", position].concat())
            );
        }
    }
    assert!(reached.iter().any(|(_, _, sort)| sort.0 == 43));
}

/// The lines of an answer, then its 32 entries and its 32 records; or the usage.
fn output(told: Option<Told>) -> String {
    let Some(told) = told else {
        return USAGE.to_string();
    };
    let mut text = lines(&told);
    for numbers in places(&told) {
        text.extend(numbers.map(|number| format!("{number} ")));
        text.push('\n');
    }
    text
}

/// The lengths of both, 4 bytes each, least byte first.
fn lengths(one: usize, other: usize) -> [u8; 8] {
    let number = (one as u64) | (other as u64) << 32;
    number.to_le_bytes()
}

/// stdin: traces one behind the other: how many bytes it has, how many questions are asked of it (4
/// bytes each, least byte first), its bytes, and the questions: how many bytes the side's text has,
/// how many the position's (the same), and both texts.
/// stdout: for each question what the program writes, and then its 32 entries and its 32 records, each
/// number and a space behind it, a line each; or the usage alone.
fn on_cases(name: &'static str) -> Program {
    let cases = cases();
    assert_reached(&cases);
    let mut stdin = Vec::new();
    let mut stdout = String::new();
    for Case { trace, questions } in &cases {
        stdin.extend(lengths(trace.len(), questions.len()));
        stdin.extend(trace);
        for question in questions {
            let Question { side, position } = question;
            stdin.extend(lengths(side.len(), position.len()));
            stdin.extend(side);
            stdin.extend(position);
            stdout += &output(question.told(trace));
        }
    }
    assert!(stdin.len().max(stdout.len()) < BYTES_LIMIT);
    Program {
        name,
        stdin,
        stdout: stdout.into_bytes(),
    }
}

pub fn programs() -> [Program; 2] {
    [on_cases("why_test"), whole::program()]
}

/// The arguments of the program's own run, a line each.
pub fn args() -> Stored {
    whole::args()
}
