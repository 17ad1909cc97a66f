//! Every mode with all pins, and what is refused.
//!
//! stdin: cases of 6 bytes: mode, pins, data (4 bytes, least byte first).
//! stdout: for each a line with number, lanes and dword.

use crate::decimal::line;
use crate::pins::decode;
use crate::rng::Rng;
use crate::vectors::pins::{DATA, REFUSED_DATA};

use super::Program;

const SEED: u64 = 200;

/// Data words besides those of the vectors: each byte alone, the bits at the borders of the halves,
/// and once more four bytes that differ.
const FURTHER_DATA: [u32; 6] = [
    0x0000_00FF,
    0x0000_FF00,
    0x00FF_0000,
    0xFF00_0000,
    0x7FFE_8001,
    0x0102_0304,
];

const REFUSED_MODES: [u8; 5] = [4, 5, 7, 128, 255];
const REFUSED_PINS: [u8; 5] = [16, 17, 31, 128, 255];

/// A data word of these pins alone.
fn random(mode: u8, pins: u8) -> u32 {
    let place = 16 * u64::from(mode) + u64::from(pins);
    Rng::after(SEED, place).word()
}

fn cases() -> Vec<(u8, u8, u32)> {
    let mut cases = Vec::new();
    for mode in 0..=3 {
        for pins in 0..=15 {
            let random = random(mode, pins);
            let data = DATA.into_iter().chain(FURTHER_DATA).chain([random]);
            cases.extend(data.map(|data| (mode, pins, data)));
        }
    }
    let mut refused = |mode, pins| cases.extend(REFUSED_DATA.map(|data| (mode, pins, data)));
    for mode in REFUSED_MODES {
        for pins in (0..=15).chain(REFUSED_PINS) {
            refused(mode, pins);
        }
    }
    for mode in 0..=3 {
        for pins in REFUSED_PINS {
            refused(mode, pins);
        }
    }
    cases
}

pub fn program() -> Program {
    let mut stdin = Vec::new();
    let mut stdout = String::new();
    for (mode, pins, data) in cases() {
        stdin.extend([mode, pins]);
        stdin.extend(data.to_le_bytes());
        stdout += &line(decode(mode, pins, data).numbers());
    }
    Program {
        name: "pins_test",
        stdin,
        stdout: stdout.into_bytes(),
    }
}
