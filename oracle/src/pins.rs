//! "Local pins to lanes."

use crate::dword::{lane_bits, NO_LANES};

/// "The sixteen rows of the Motorola style, BE[3:0] from 0000 to 1111."
const MODE_2_LANES: [u8; 16] = [
    0b0011, 0b1011, 0b1100, 0b1110, 0b0111, 0b1011, 0b1101, 0b1110, 0b0011, 0b1011, 0b1100, 0b1110,
    0b0011, 0b1011, 0b1100, 0b1110,
];

#[derive(Clone, Copy, Debug, PartialEq, Eq)]
pub struct Decoded {
    pub number: u8,
    pub lanes: u8,
    pub dword: u32,
}

impl Decoded {
    /// Number, lanes and dword.
    pub fn numbers(&self) -> [u32; 3] {
        [self.number.into(), self.lanes.into(), self.dword]
    }
}

/// "Given width mode, pins BE[3:0] and data, the answer is lanes and dword; unused lanes are 0."
pub fn decode(mode: u8, pins: u8, data: u32) -> Decoded {
    if mode > 3 || pins > 15 {
        return Decoded {
            number: 4,
            lanes: NO_LANES,
            dword: 0,
        };
    }
    let low = data & 0xFF;
    let (lanes, carried) = match mode {
        // "BE[3:2] is A1 A0 and picks the one lane; data from DQ[7:0]"
        0 => (NO_LANES & !(1 << (pins >> 2)), low * 0x0101_0101),
        1 => (mode_1_lanes(pins), carried_by_16_bits(data)),
        2 => (MODE_2_LANES[usize::from(pins)], carried_by_16_bits(data)),
        _ => (pins, data),
    };
    Decoded {
        number: 0,
        lanes,
        dword: carried & lane_bits(lanes),
    }
}

/// "BE[3] is A1. 0 gives lanes 1 and 0, 1 gives lanes 3 and 2; BE[1:0] low enable the upper and
/// lower of them."
fn mode_1_lanes(pins: u8) -> u8 {
    let pair = pins & 0b11;
    if pins & 0b1000 == 0 {
        0b1100 | pair
    } else {
        pair << 2 | 0b0011
    }
}

/// "lanes 3 and 1 carry DQ[15:8], lanes 2 and 0 carry DQ[7:0]"
fn carried_by_16_bits(data: u32) -> u32 {
    let half = data & 0xFFFF;
    half << 16 | half
}
