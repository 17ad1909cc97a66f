//! One case: its numbers, and what is answered.

use crate::access::Access;
use crate::bursts::{Burst, Phase};
use crate::call::{Call, Given};
use crate::decimal::line;
use crate::drive::plans::First;
use crate::world::World;

use super::super::case::{digest, digest_of, direct, world_text, Case, Memories};

/// The top byte of a burst's first number.
const BURST_WRITE: u32 = 2;
const BURST_READ: u32 = 3;

/// Place i of a list holds this and i before a read.
const PLACES: u32 = 0xC0DE_0000;
/// So many phases a burst may have, and its list places.
const MOST: usize = 65_600;
/// So many places of a list are shown.
const SHOWN: usize = 64;

/// A call as it is stored.
#[derive(Clone)]
pub enum Asked {
    Direct(Access),
    Write(Repeated),
    /// With so many places in its list.
    Read(Repeated, usize),
}

/// A burst of so many phases: those of the burst that is stored, again and again.
#[derive(Clone)]
pub struct Repeated {
    pub burst: Burst,
    pub phases: usize,
}

impl Repeated {
    /// Every phase is stored.
    pub fn whole(burst: Burst) -> Repeated {
        Repeated {
            phases: burst.phases.len(),
            burst,
        }
    }

    fn burst(&self) -> Burst {
        let phases = self.burst.phases.iter().cycle().take(self.phases);
        Burst {
            phases: phases.copied().collect(),
            ..self.burst
        }
    }

    fn numbers(&self, top: u32, places: usize) -> Vec<u32> {
        let Burst {
            side,
            mode,
            start,
            phases: stored,
        } = &self.burst;
        assert!(self.phases <= MOST && places <= MOST);
        assert!(stored.len() <= self.phases && stored.is_empty() == (self.phases == 0));
        let first = u32::from(*mode) | u32::from(*side) << 8 | top << 24;
        let counts = [self.phases, places, stored.len()].map(|count| count as u32);
        let mut numbers = vec![first, *start];
        numbers.extend(counts);
        numbers.extend(stored.iter().flat_map(|Phase { pins, data }| [pins, data]));
        numbers
    }
}

impl Asked {
    fn numbers(&self) -> Vec<u32> {
        match self {
            Asked::Direct(access) => direct(access).to_vec(),
            Asked::Write(stored) => stored.numbers(BURST_WRITE, 0),
            Asked::Read(stored, places) => stored.numbers(BURST_READ, *places),
        }
    }

    pub fn call(&self) -> Call {
        match self {
            Asked::Direct(access) => Call::Direct(*access),
            Asked::Write(stored) => Call::BurstWrite(stored.burst()),
            Asked::Read(stored, places) => {
                let list = (PLACES..).take(*places).collect();
                Call::BurstRead(stored.burst(), list)
            }
        }
    }
}

/// Calls to a card, and what they leave.
pub fn of_calls(first: &First, memories: &Memories, calls: &[Asked]) -> Case {
    let mut case = Case::of_card(first, memories, calls.len());
    let mut world = memories.world(first);
    for asked in calls {
        case.numbers.extend(asked.numbers());
        let given = world.call(&asked.call());
        case.text += &match asked {
            Asked::Direct(_) => line(given.answer.numbers()),
            Asked::Write(_) | Asked::Read(..) => burst_text(&given, &world),
        };
    }
    case.text += &world_text(&world);
    case
}

fn burst_text(given: &Given, world: &World) -> String {
    let answer = given.answer.numbers().into_iter();
    let text = line(answer.chain([digest(&world.shared)]));
    match &given.list {
        Some(list) => {
            let shown = list.iter().take(SHOWN).copied();
            text + &line(shown.chain([digest_of(list.iter().copied())]))
        }
        None => text,
    }
}
