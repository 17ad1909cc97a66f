//! Every mode with all pins, and what is refused.

use crate::decimal::decimal;
use crate::pins::decode;

use super::text;

/// Data words: none and all of the bits, and bytes that differ from each other.
pub const DATA: [u32; 6] = [
    0x0000_0000,
    0xFFFF_FFFF,
    0x1234_5678,
    0xA1B2_C3D4,
    0x0000_ABCD,
    0x8040_2010,
];

/// The data of a refusal, which answers a dword of 0 whatever they are.
pub const REFUSED_DATA: [u32; 2] = [0, 0xA1B2_C3D4];

const REFUSED: [(u8, u8); 12] = [
    (4, 0),
    (4, 15),
    (5, 6),
    (255, 0),
    (255, 15),
    (0, 16),
    (1, 16),
    (2, 16),
    (3, 16),
    (3, 255),
    (4, 16),
    (255, 255),
];

fn cases() -> Vec<(u8, u8, u32)> {
    let mut cases = Vec::new();
    for mode in 0..=3 {
        for pins in 0..=15 {
            cases.extend(DATA.map(|data| (mode, pins, data)));
        }
    }
    for (mode, pins) in REFUSED {
        cases.extend(REFUSED_DATA.map(|data| (mode, pins, data)));
    }
    cases
}

fn line(mode: u8, pins: u8, data: u32) -> String {
    let decoded = decimal(decode(mode, pins, data).numbers());
    format!("pin_case {mode} {pins} {data} {decoded}")
}

pub fn text() -> String {
    let lines = cases()
        .into_iter()
        .map(|(mode, pins, data)| line(mode, pins, data));
    let agreement = text::agreement("PinCase", "PinsAgree", "cases decode", lines);
    let definitions = format!("-- mode, pins, data; number, lanes, dword\n{agreement}");
    text::file("local pins to lanes and dword", &definitions)
}
