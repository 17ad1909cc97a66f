//! How the calls of the cases are put together.

use crate::access::{kind, Access};
use crate::bursts::{Burst, Phase};
use crate::drive::sides::LOCAL;

use super::case::{Asked, Repeated};

/// The modes that a burst may have.
pub const MODES: [u8; 3] = [0, 1, 3];

pub fn local(mode: u8, start: u32, phases: &[Phase]) -> Repeated {
    Repeated::whole(Burst::new(LOCAL, mode, start, phases.to_vec()))
}

pub fn write(mode: u8, start: u32, phases: &[Phase]) -> Asked {
    Asked::Write(local(mode, start, phases))
}

/// Into a list that has so many places more than there are phases.
pub fn read(mode: u8, start: u32, phases: &[Phase], more: usize) -> Asked {
    Asked::Read(local(mode, start, phases), phases.len() + more)
}

/// So many phases, these again and again.
pub fn repeated(mode: u8, start: u32, phases: &[Phase], count: usize) -> Repeated {
    Repeated {
        phases: count,
        ..local(mode, start, phases)
    }
}

pub fn direct(kind: u8, side: u8, a: u32, b: u32, c: u32) -> Asked {
    Asked::Direct(Access::new(kind, side, 0, a, b, c))
}

pub fn step(side: u8) -> Asked {
    direct(kind::STEP, side, 0, 0, 0)
}

/// Phases with these pins; the data of each have bytes of its own.
pub fn phases(pins: impl IntoIterator<Item = u32>) -> Vec<Phase> {
    let data = (1..).map(|i: u32| i.wrapping_mul(0x9E37_79B1) ^ 0x1234_5678);
    let phase = |(pins, data)| Phase::new(pins, data);
    pins.into_iter().zip(data).map(phase).collect()
}

/// So many phases that go over the lanes in their order, from this one on. Pins that the mode
/// ignores change all the time.
pub fn walk(mode: u8, lane: u32, count: u32) -> Vec<Phase> {
    let pins = |i: u32| match mode {
        0 => (lane + i) % 4 * 4 + i * 7 % 4,
        1 => {
            // the lower lane is left out where the walk begins with the upper one
            let disabled = if i == 0 { lane % 2 } else { 0 };
            (lane / 2 + i) % 2 * 8 + i % 2 * 4 + disabled
        }
        _ if i == 0 => (1 << lane) - 1,
        _ => 0,
    };
    phases((0..count).map(pins))
}
