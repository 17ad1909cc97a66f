//! Lines of thousands of bytes, and inputs that are longer than the largest portion.

use crate::access::Access;
use crate::trace::{trace, RECORD_LENGTH};

use super::{Cases, Direction, LARGEST_PORTION, LONGEST, SHORTEST};

const LONG: usize = 2000;
const LONGER_THAN_A_PORTION: usize = LARGEST_PORTION + 1000;

pub fn add(cases: &mut Cases) {
    for byte in *b"019 x\n\r\0" {
        let line = vec![byte; LONG];
        let ended = [&line, SHORTEST].concat();
        for portion in [1, 7, 44, 45, 46, LARGEST_PORTION] {
            let list = [SHORTEST, LONGEST, &ended].concat();
            cases.by_portion(portion, Direction::ToTrace, list);
        }
        cases.refused(0, &[&line]);
        // behind five numbers, and behind six, which line feeds end
        cases.refused(0, &[b"0 0 0 0 0 ", &ended]);
        let taken = u64::from(byte == b'\n');
        cases.refused(taken, &[b"1 1 1 1 1 1", &line]);
    }
    let endless = [LONGEST, &[b'9'; LONGER_THAN_A_PORTION]].concat();
    cases.by_portion(LARGEST_PORTION, Direction::ToTrace, endless);
    many(cases);
}

/// A portion ends in a line, and in a record's third byte.
fn many(cases: &mut Cases) {
    let lines = LARGEST_PORTION / LONGEST.len() + 2;
    let list = [SHORTEST, &LONGEST.repeat(lines)].concat();
    cases.by_portion(LARGEST_PORTION, Direction::ToTrace, list);
    let records = LARGEST_PORTION / RECORD_LENGTH + 2;
    let trace = trace(&vec![Access::default(); records]);
    cases.by_portion(LARGEST_PORTION - 17, Direction::ToText, trace.clone());
    cases.by_portion(LARGEST_PORTION, Direction::ToText, trace);
}
