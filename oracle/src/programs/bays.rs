//! Every number as a bay index and as a bay label.
//!
//! stdout: for each from 0 to 255 a line with the number; the label of the bay that has it as index, 0 for none;
//! how many bays have it as label; and the index of that bay, 0 for none.

use crate::bays::{index, label};
use crate::decimal::line;

use super::Program;

fn answers(number: u8) -> [u32; 4] {
    let (label, index) = (label(number), index(number));
    let bays = index.is_some();
    let [label, index] = [label, index].map(|found| u32::from(found.unwrap_or(0)));
    [number.into(), label, bays.into(), index]
}

pub fn program() -> Program {
    let stdout: String = (0..=255).map(|number| line(answers(number))).collect();
    Program {
        name: "bays_test",
        stdin: Vec::new(),
        stdout: stdout.into_bytes(),
    }
}
