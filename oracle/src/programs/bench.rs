//! The work of the bench for bursts, a few rounds of it.
//!
//! stdin: cases of two numbers of 4 bytes, least byte first: 0 for bursts or 1 for the same single
//! accesses, and the rounds.
//! stdout: for each a line with its sum.

use crate::bursts::workload;
use crate::decimal::line;

use super::Program;

const ROUNDS: u32 = 3;

pub fn program() -> Program {
    let cases = [[0, ROUNDS], [1, ROUNDS]];
    let sum = line([workload::sum(ROUNDS as usize)]);
    Program {
        name: "burst_bench",
        stdin: cases
            .concat()
            .into_iter()
            .flat_map(u32::to_le_bytes)
            .collect(),
        stdout: sum.repeat(cases.len()).into_bytes(),
    }
}
