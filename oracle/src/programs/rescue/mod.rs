//! Damaged traces, and what a rescue gives of them.

mod corners;
mod damaged;
mod lists;
mod numbers;
mod portions;
mod random;
mod whole;

use std::collections::BTreeSet;

use crate::access::Access;
use crate::rescue::list::{rescue, PLACE};
use crate::rescue::{entries, lines_of, trace_of};
use crate::trace::trace;

use super::Program;

/// The most numbers of a lent list, the most bytes of a trace, and of a portion.
const LONGEST_LIST: usize = 3000;
const LONGEST_TRACE: usize = 65_000;
const LARGEST_PORTION: usize = 65_000;
/// The portions of cases that do not ask for one.
const PORTIONS: [usize; 16] = [1, 1, 2, 3, 5, 7, 11, 13, 17, 19, 20, 21, 23, 37, 43, 65_000];
/// How many numbers the lent list has beside those that the entries take, where a case does not ask.
const BESIDE: [isize; 8] = [0, 0, 1, 2, 3, 5, -1, -3];
/// What each of both files may take.
const BYTES_LIMIT: usize = 500_000;

/// The first number of a lent list before the scan; each other one is the next.
const BEFORE: u64 = 1_000_000_000_000;

#[derive(Clone, Copy, PartialEq, Eq)]
enum How {
    List = 0,
    Lines = 1,
    Trace = 2,
}

struct Case {
    how: How,
    /// Of a list its numbers, else how many bytes are read at a time.
    argument: usize,
    trace: Vec<u8>,
}

impl Case {
    fn output(&self) -> Vec<u8> {
        match self.how {
            How::List => self.list().into_bytes(),
            How::Lines => lines_of(&self.trace).0,
            How::Trace => {
                let (mut records, counts) = trace_of(&self.trace);
                records.extend(format!("records {}\n", counts.kept).bytes());
                records
            }
        }
    }

    fn list(&self) -> String {
        let mut list: Vec<u64> = (BEFORE..).take(self.argument).collect();
        let answer = match rescue(&self.trace, &mut list) {
            Ok(count) => format!("0 {count}\n"),
            Err(refusal) => format!("{refusal} 0\n"),
        };
        let numbers: String = list.iter().map(|number| format!("{number} ")).collect();
        answer + &numbers + "\n"
    }
}

#[derive(Default)]
struct Cases(Vec<Case>);

impl Cases {
    fn add(&mut self, how: How, argument: usize, trace: &[u8]) {
        let most = match how {
            How::List => 0..=LONGEST_LIST,
            _ => 1..=LARGEST_PORTION,
        };
        assert!(most.contains(&argument) && trace.len() <= LONGEST_TRACE);
        self.0.push(Case {
            how,
            argument,
            trace: trace.to_vec(),
        });
    }

    /// Each way. List and portions follow from the bytes, so that a further case moves no other's.
    fn every_way(&mut self, parts: &[&[u8]]) {
        let trace = parts.concat();
        let sum: usize = trace.iter().map(|byte| usize::from(*byte)).sum();
        let exact = PLACE * entries(&trace).len();
        let numbers = exact.saturating_add_signed(BESIDE[sum % BESIDE.len()]);
        self.add(How::List, numbers, &trace);
        self.add(How::Lines, PORTIONS[sum % PORTIONS.len()], &trace);
        self.add(How::Trace, PORTIONS[(sum / 7) % PORTIONS.len()], &trace);
    }
}

/// Four records: of zeros, of bytes that all differ, with a mark in A and zeros behind it, and once
/// more of bytes that differ.
fn few() -> Vec<u8> {
    trace(&[
        Access::new(10, 0, 0, 0, 0, 0),
        Access::new(9, 1, 5, 0x1413_1211, 0x2423_2221, 0x3433_3231),
        Access::new(1, 0, 0, 0x5042, 0, 0),
        Access::new(14, 1, 6, 0x1817_1615, 0x2827_2625, 0x3837_3635),
    ])
}

fn cases() -> Vec<Case> {
    let mut cases = Cases::default();
    corners::add(&mut cases);
    damaged::add(&mut cases);
    numbers::add(&mut cases);
    lists::add(&mut cases);
    portions::add(&mut cases);
    random::add(&mut cases);
    cases.0
}

/// Both answers stand with lists that leave 0, 1 and 2 numbers behind their last place, and with as
/// many places as there are entries, one too few and one more; and both programs read in every
/// portion to three records.
fn assert_reached(cases: &[Case]) {
    let mut lists = BTreeSet::new();
    let mut portions = BTreeSet::new();
    for case in cases {
        if case.how == How::List {
            let listed = entries(&case.trace).len() as isize;
            let beside = (case.argument / PLACE) as isize - listed;
            lists.insert((beside.clamp(-2, 2), case.argument % PLACE));
        } else {
            portions.insert((case.how as u32, case.argument));
        }
    }
    for beside in -2..=2 {
        for behind in 0..PLACE {
            assert!(lists.contains(&(beside, behind)), "{beside} {behind}");
        }
    }
    for portion in 1..=60 {
        assert!(portions.contains(&(How::Lines as u32, portion)));
        assert!(portions.contains(&(How::Trace as u32, portion)));
    }
}

/// stdin: cases one behind the other: how (0 into a lent list, 1 as lines, 2 as a trace), the numbers
/// of the list or the bytes that are read at a time, a length (4 bytes each, least byte first), and
/// so many bytes of trace.
/// stdout: for 0 a line with 0 and the count of entries, or with the refusal and 0; then a line with
/// each number of the list and a space behind it, which were `BEFORE` and the numbers behind it. For
/// 1 the lines. For 2 the records, then a line with their count.
fn on_cases(name: &'static str) -> Program {
    let cases = cases();
    assert_reached(&cases);
    let mut stdin = Vec::new();
    let mut stdout = Vec::new();
    for case in &cases {
        let numbers = [case.how as usize, case.argument, case.trace.len()];
        stdin.extend(numbers.map(|number| (number as u32).to_le_bytes()).concat());
        stdin.extend(&case.trace);
        stdout.extend(case.output());
    }
    assert!(stdin.len().max(stdout.len()) < BYTES_LIMIT);
    Program {
        name,
        stdin,
        stdout,
    }
}

pub fn programs() -> [Program; 3] {
    [
        on_cases("rescue_test"),
        whole::rescue_list(),
        whole::rescue_trace(),
    ]
}
