//! Lists and traces, and what the two programs write that turn one into the other.

mod lines;
mod long;
mod numbers;
mod portions;
mod random;
mod traces;
mod whole;

use std::collections::BTreeSet;
use std::ops::Range;

use crate::convert::{list_of, trace_of, Turned};
use crate::list::REFUSED;
use crate::trace::refused;

use super::Program;

/// The most bytes that a case reads at a time.
const LARGEST_PORTION: usize = 65_000;
/// The portions of cases that do not ask for one.
const PORTIONS: [usize; 16] = [1, 1, 1, 2, 3, 5, 7, 11, 13, 17, 19, 23, 29, 37, 43, 65_000];
/// What both files may take together.
const BYTES_LIMIT: usize = 1_500_000;

/// Lines at the borders of their lengths, and one between them.
const SHORTEST: &[u8] = b"0 0 0 0 0 0\n";
const MIDDLE: &[u8] = b"14 0 1 16380 268435456 4\n";
const LONGEST: &[u8] = b"255 255 255 4294967295 4294967295 4294967295\n";

#[derive(Clone, Copy, PartialEq, Eq, PartialOrd, Ord)]
enum Direction {
    ToTrace = 0,
    ToText = 1,
}

struct Case {
    direction: Direction,
    portion: usize,
    bytes: Vec<u8>,
}

impl Case {
    fn output(&self) -> (Vec<u8>, Turned) {
        match self.direction {
            Direction::ToTrace => trace_of(&self.bytes),
            Direction::ToText => list_of(&self.bytes),
        }
    }
}

#[derive(Default)]
struct Cases(Vec<Case>);

impl Cases {
    /// The portion follows from the bytes, so that a further case moves no other's.
    fn add(&mut self, direction: Direction, bytes: Vec<u8>) {
        let sum: usize = bytes.iter().map(|byte| usize::from(*byte)).sum();
        self.by_portion(PORTIONS[sum % PORTIONS.len()], direction, bytes);
    }

    fn by_portion(&mut self, portion: usize, direction: Direction, bytes: Vec<u8>) {
        assert!((1..=LARGEST_PORTION).contains(&portion));
        self.0.push(Case {
            direction,
            portion,
            bytes,
        });
    }

    fn list(&mut self, parts: &[&[u8]]) {
        self.add(Direction::ToTrace, parts.concat());
    }

    fn trace(&mut self, parts: &[&[u8]]) {
        self.add(Direction::ToText, parts.concat());
    }

    /// A list of which every line is taken.
    fn taken(&mut self, parts: &[&[u8]]) {
        let list = parts.concat();
        assert_eq!(trace_of(&list).1.refusal, None);
        self.list(&[&list]);
    }

    /// A list that is refused behind so many lines.
    fn refused(&mut self, behind: u64, parts: &[&[u8]]) {
        let list = parts.concat();
        let (_, turned) = trace_of(&list);
        assert_eq!(turned.refusal, Some(REFUSED));
        assert_eq!(turned.accesses, behind);
        self.list(&[&list]);
    }
}

fn cases() -> Cases {
    let mut cases = Cases::default();
    lines::add(&mut cases);
    numbers::add(&mut cases);
    portions::add(&mut cases);
    long::add(&mut cases);
    traces::add(&mut cases);
    random::add(&mut cases);
    cases
}

/// Where cases of each direction ended: behind so many accesses, at this refusal or at the end.
type Ends = BTreeSet<(Direction, u64, Option<u8>)>;

fn assert_ends(ends: &Ends) {
    let assert_reached = |direction, counts: Range<u64>, refusals: &[Option<u8>]| {
        for accesses in counts {
            for refusal in refusals {
                assert!(ends.contains(&(direction, accesses, *refusal)));
            }
        }
    };
    assert_reached(Direction::ToTrace, 0..6, &[None, Some(REFUSED)]);
    let wrong = [refused::MARK, refused::NUMBER, refused::ZERO_BYTE].map(Some);
    assert_reached(Direction::ToText, 0..10, &wrong);
    assert_reached(Direction::ToText, 0..3, &[None, Some(refused::SHORT)]);
}

/// Either way there is every portion to a byte more than the longest line has, and an input of more
/// bytes than the largest portion.
fn assert_portions(cases: &[Case]) {
    for direction in [Direction::ToTrace, Direction::ToText] {
        let has = |is_one: &dyn Fn(&Case) -> bool| {
            let mut cases = cases.iter().filter(|case| case.direction == direction);
            cases.any(is_one)
        };
        for portion in 1..=LONGEST.len() + 1 {
            assert!(has(&|case| case.portion == portion));
        }
        let largest =
            |case: &Case| case.portion == LARGEST_PORTION && case.bytes.len() > LARGEST_PORTION;
        assert!(has(&largest));
    }
}

/// stdin: cases one behind the other: a direction (0 from a list to a trace, 1 back), how many bytes
/// are read at a time, a length (4 bytes each, least byte first), and so many bytes.
/// stdout: for each what the program of that direction writes, which does not depend on how many
/// bytes are read at a time; then a line: how many accesses were turned, and 1 if one was refused,
/// else 0.
fn on_cases(name: &'static str) -> Program {
    let cases = cases().0;
    let mut stdin = Vec::new();
    let mut stdout = Vec::new();
    let mut ends = Ends::new();
    for case in &cases {
        let numbers = [case.direction as usize, case.portion, case.bytes.len()];
        stdin.extend(numbers.map(|number| (number as u32).to_le_bytes()).concat());
        stdin.extend(&case.bytes);
        let (output, turned) = case.output();
        stdout.extend(&output);
        let Turned { accesses, refusal } = turned;
        let refused = u8::from(refusal.is_some());
        stdout.extend(format!("{accesses} {refused}\n").bytes());
        ends.insert((case.direction, accesses, refusal));
    }
    assert_ends(&ends);
    assert_portions(&cases);
    assert!(stdin.len() + stdout.len() < BYTES_LIMIT);
    Program {
        name,
        stdin,
        stdout,
    }
}

pub fn programs() -> [Program; 3] {
    [
        on_cases("convert_test"),
        whole::to_trace(),
        whole::to_text(),
    ]
}
