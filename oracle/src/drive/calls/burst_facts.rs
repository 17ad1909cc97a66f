//! Which facts bursts reach: each mode done and stopped, each refusal, and every two causes of
//! refusal that can hold at once.

use std::collections::BTreeSet;

use crate::bursts::refusal::ORDER;
use crate::bursts::{Burst, OVERRUN};
use crate::call::Call;
use crate::world::World;

#[derive(Clone, Copy, Debug, PartialEq, Eq, PartialOrd, Ord)]
enum Fact {
    /// The number that a burst in one of the three modes gets, having done some phases or none.
    Answered {
        reads: bool,
        mode: u8,
        number: u8,
        some: bool,
    },
    Refused {
        reads: bool,
        number: u8,
    },
    /// A refusal while the cause of one behind it holds too.
    Over {
        given: u8,
        also: u8,
    },
}

/// A refusal, and those behind it whose causes can hold as well. The side is either above 1 or the
/// host's.
const OVER: [(u8, &[u8]); 6] = [
    (1, &[2, 5, 12, 4, 14, OVERRUN]),
    (2, &[12, 4, 14, OVERRUN]),
    (5, &[12, 4, 14, OVERRUN]),
    (12, &[4, 14, OVERRUN]),
    (4, &[14, OVERRUN]),
    (14, &[OVERRUN]),
];

fn required() -> BTreeSet<Fact> {
    let mut facts = BTreeSet::new();
    for reads in [false, true] {
        for mode in [0, 1, 3] {
            for (number, some) in [(0, false), (0, true), (OVERRUN, false), (OVERRUN, true)] {
                facts.insert(Fact::Answered {
                    reads,
                    mode,
                    number,
                    some,
                });
            }
        }
        // "14 a read list shorter than the phases"
        let refusals = ORDER.into_iter().filter(|number| reads || *number != 14);
        facts.extend(refusals.map(|number| Fact::Refused { reads, number }));
    }
    for (given, behind) in OVER {
        facts.extend(behind.iter().map(|also| Fact::Over { given, also: *also }));
    }
    facts
}

#[derive(Default)]
pub struct BurstFacts(BTreeSet<Fact>);

impl BurstFacts {
    /// Notes what the bursts among these calls reach.
    pub fn observe(&mut self, mut world: World, calls: &[Call]) {
        for call in calls {
            let (burst, places) = match call {
                Call::BurstWrite(burst) => (burst, None),
                Call::BurstRead(burst, list) => (burst, Some(list.len())),
                _ => {
                    world.call(call);
                    continue;
                }
            };
            let hold = |number: &u8| world.burst_cause(*number, burst, places);
            let causes: Vec<u8> = ORDER.into_iter().filter(hold).collect();
            let answer = world.call(call).answer;
            self.note(burst, places.is_some(), &causes, answer.number, answer.v);
        }
    }

    fn note(&mut self, burst: &Burst, reads: bool, causes: &[u8], number: u8, v: u32) {
        if number == 0 || number == OVERRUN {
            self.0.insert(Fact::Answered {
                reads,
                mode: burst.mode,
                number,
                some: v > 0,
            });
        }
        if number != 0 {
            self.0.insert(Fact::Refused { reads, number });
        }
        let behind = causes.iter().filter(|also| **also != number);
        let over = |also: &u8| Fact::Over {
            given: number,
            also: *also,
        };
        self.0.extend(behind.map(over));
    }

    /// Panics with what was not reached.
    pub fn assert_reached(&self) {
        let missing: Vec<Fact> = required().difference(&self.0).copied().collect();
        assert!(missing.is_empty(), "not reached: {missing:#?}");
    }
}
