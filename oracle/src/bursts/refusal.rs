//! The causes of refusal of a burst, each whatever else holds. They are written beside the bursts
//! and not used by them, so that the one can be compared with the other.

use crate::world::World;

use super::{Burst, Phase, LAST_DWORD, MOST_PHASES, MOST_PINS, OVERRUN};

/// "Refusals, in this order after 1 and 2: 5 [..], 12 [..], 4 [..], 14 [..]; 13 the overrun". The
/// first whose cause holds is given, and not the smallest.
pub const ORDER: [u8; 7] = [1, 2, 5, 12, 4, 14, OVERRUN];

impl World {
    /// The first number in order whose cause holds, or 0. A read has a list of so many places, a
    /// write has none.
    pub fn burst_refusal(&self, burst: &Burst, places: Option<usize>) -> u8 {
        let holds = |number: &u8| self.burst_cause(*number, burst, places);
        ORDER.into_iter().find(holds).unwrap_or(0)
    }

    /// Whether the cause with this number holds.
    pub fn burst_cause(&self, number: u8, burst: &Burst, places: Option<usize>) -> bool {
        let phases = burst.phases.len();
        match number {
            1 => self.unfit(),
            2 => ![0, 1].contains(&burst.side),
            4 => burst.phases.iter().any(|phase| phase.pins > MOST_PINS),
            5 => burst.side == 0,
            12 => ![0, 1, 3].contains(&burst.mode) || phases > MOST_PHASES,
            OVERRUN => stopped_at(burst).is_some(),
            14 => places.is_some_and(|places| places < phases),
            _ => false,
        }
    }
}

/// The first phase past the last dword: the number of its dword is the start and one for each phase
/// before it that advances.
pub fn stopped_at(burst: &Burst) -> Option<usize> {
    let mut next = u64::from(burst.start);
    burst.phases.iter().position(|phase| {
        let dword = next;
        next += u64::from(advances(burst.mode, phase));
        dword > u64::from(LAST_DWORD)
    })
}

/// "In mode 0 [..] after a phase with BE[3:2] at 11, in mode 1 after a phase with BE[3] high, in
/// mode 3 after each phase." No other mode advances.
fn advances(mode: u8, phase: &Phase) -> bool {
    let high = match mode {
        0 => 0b1100,
        1 => 0b1000,
        3 => 0,
        _ => return false,
    };
    phase.pins & high == high
}
