//! Bursts: "local burst reads and writes of shared memory in modes 0, 1 and 3. A burst has a start
//! dword number and a list of phases, each with pins and data" (document 02, L10). A burst "equals
//! the single accesses done one by one"; here it reaches the bytes by itself, so that the one can be
//! compared with the other.

pub mod refusal;
pub mod workload;

use std::fmt::{self, Display, Formatter};

use crate::access::Answer;
use crate::card::Side;
use crate::transfer::SHARED_LENGTH;
use crate::world::World;

/// "12 [..] more than 65,536 phases"
pub const MOST_PHASES: usize = 65_536;
/// The last dword of shared memory, counted from 0.
pub const LAST_DWORD: u32 = SHARED_LENGTH / 4 - 1;
/// Pins BE[3:0] are at most this.
pub const MOST_PINS: u32 = 15;

/// "13 the overrun, which amends rule 1 and keeps that V"
pub const OVERRUN: u8 = 13;

/// "phases, each with pins and data": two numbers of 32 bits. A read ignores the data.
#[derive(Clone, Copy, Debug, Default, PartialEq, Eq)]
pub struct Phase {
    pub pins: u32,
    pub data: u32,
}

impl Phase {
    pub const fn new(pins: u32, data: u32) -> Phase {
        Phase { pins, data }
    }
}

/// The pins as the sheet writes them, BE[3] first.
impl Display for Phase {
    fn fmt(&self, f: &mut Formatter) -> fmt::Result {
        write!(f, "{:04b}:{:#x}", self.pins, self.data)
    }
}

/// What a burst read and a burst write have: side and mode are bytes, the start a 32-bit number.
#[derive(Clone, Debug, Default, PartialEq, Eq)]
pub struct Burst {
    pub side: u8,
    pub mode: u8,
    /// The number of a dword of shared memory.
    pub start: u32,
    pub phases: Vec<Phase>,
}

impl Burst {
    pub fn new(side: u8, mode: u8, start: u32, phases: Vec<Phase>) -> Burst {
        Burst {
            side,
            mode,
            start,
            phases,
        }
    }
}

impl World {
    /// A burst write. The record stays as it is, whatever is answered.
    pub fn burst_write(&mut self, burst: &Burst) -> Answer {
        let number = self.refused(burst);
        if number != 0 {
            return Answer::refused(number);
        }
        let shared = self.shared.as_mut_slice();
        perform(burst, |phase, address, _| {
            let Reach { bits, shift } = Reach::of(burst.mode, phase.pins);
            let kept = dword(shared, address) & !bits;
            let stored = kept | phase.data << shift & bits;
            shared[address..address + 4].copy_from_slice(&stored.to_le_bytes());
        })
    }

    /// A burst read, into the list that is lent. Neither memory changes, nor the record.
    pub fn burst_read(&self, burst: &Burst, list: &mut [u32]) -> Answer {
        let number = self.refused(burst);
        if number != 0 {
            return Answer::refused(number);
        }
        if list.len() < burst.phases.len() {
            return Answer::refused(14);
        }
        // "A read list gets each phase's V; its other places stay."
        perform(burst, |phase, address, place| {
            let Reach { bits, .. } = Reach::of(burst.mode, phase.pins);
            list[place] = dword(&self.shared, address) & bits;
        })
    }

    /// "Refusals, in this order after 1 and 2: 5 the host side, 12 a mode of 2 or above 3 or more
    /// than 65,536 phases, 4 any phase's pins above 15": what both check, or 0.
    fn refused(&self, burst: &Burst) -> u8 {
        if self.unfit() {
            return 1;
        }
        if burst.side > Side::Local as u8 {
            return 2;
        }
        if burst.side == Side::Host as u8 {
            return 5;
        }
        if burst.mode == 2 || burst.mode > 3 || burst.phases.len() > MOST_PHASES {
            return 12;
        }
        if burst.phases.iter().any(|phase| phase.pins > MOST_PINS) {
            return 4;
        }
        0
    }
}

/// Hands over the phases in their order, each with the address of its dword and with its place in
/// the list. "A phase past the last dword stops the burst; the phases before it stand. V is the
/// phases done, X 0."
fn perform(burst: &Burst, mut turn: impl FnMut(&Phase, usize, usize)) -> Answer {
    let mut dword = burst.start;
    for (done, phase) in burst.phases.iter().enumerate() {
        if dword > LAST_DWORD {
            return Answer {
                number: OVERRUN,
                v: done as u32,
                x: 0,
            };
        }
        turn(phase, 4 * dword as usize, done);
        if advances(burst.mode, phase.pins) {
            dword += 1;
        }
    }
    Answer::done(burst.phases.len() as u32, 0)
}

/// "In mode 0 the dword address advances after a phase with BE[3:2] at 11, in mode 1 after a phase
/// with BE[3] high, in mode 3 after each phase."
fn advances(mode: u8, pins: u32) -> bool {
    match mode {
        0 => pins / 4 == 3,
        1 => pins / 8 == 1,
        _ => true,
    }
}

/// The four bytes at an address, lane 0 first.
fn dword(shared: &[u8], address: usize) -> u32 {
    let mut bytes = [0; 4];
    bytes.copy_from_slice(&shared[address..address + 4]);
    u32::from_le_bytes(bytes)
}

/// The bits of the lanes whose pins are low, by the pins.
const LOW: [u32; MOST_PINS as usize + 1] = [
    0xFFFF_FFFF,
    0xFFFF_FF00,
    0xFFFF_00FF,
    0xFFFF_0000,
    0xFF00_FFFF,
    0xFF00_FF00,
    0xFF00_00FF,
    0xFF00_0000,
    0x00FF_FFFF,
    0x00FF_FF00,
    0x00FF_00FF,
    0x00FF_0000,
    0x0000_FFFF,
    0x0000_FF00,
    0x0000_00FF,
    0x0000_0000,
];

/// The bits of a dword that a phase reaches, and how far up in it DQ[0] goes.
struct Reach {
    bits: u32,
    shift: u32,
}

impl Reach {
    /// Document 01, "Local pins to lanes".
    fn of(mode: u8, pins: u32) -> Reach {
        match mode {
            // "BE[3:2] is A1 A0 and picks the one lane; data from DQ[7:0]"
            0 => {
                let shift = pins / 4 * 8;
                let bits = 0xFF << shift;
                Reach { bits, shift }
            }
            // "BE[3] is A1. 0 gives lanes 1 and 0, 1 gives lanes 3 and 2; BE[1:0] low enable the
            // upper and lower of them."
            1 => {
                let shift = pins / 8 * 16;
                let bits = (LOW[pins as usize % 4] & 0xFFFF) << shift;
                Reach { bits, shift }
            }
            // "32 bits, lanes are the pins"
            _ => Reach {
                bits: LOW[pins as usize],
                shift: 0,
            },
        }
    }
}
