//! Bursts beside transfers, the stored lists, and random lists.

use crate::access::{kind, Access};
use crate::arbitrary;
use crate::bursts::{Burst, Phase, LAST_DWORD};
use crate::call::Call;
use crate::drive::calls::burst_lists;
use crate::drive::plans::{First, MIDDLE, NO_ABORT};
use crate::drive::sides::{HOST, LOCAL};
use crate::rng::Rng;
use crate::settings::Settings;
use crate::transfer::SHARED_LENGTH;

use super::asked::{direct, read, step, walk, write, MODES};
use super::case::{Asked, Repeated};
use super::cases::Adding;

const SEED: u64 = 701;
/// Random lists, and the bursts of each.
const RANDOM: usize = 60;
const OF_RANDOM: usize = 8;
/// The steps of a transfer.
const STEPS: usize = 4;

pub fn add(adding: &mut Adding) {
    transfers(adding);
    stored_lists(adding);
    random(adding);
}

/// A transfer of four dwords in either direction, from the second dword of shared memory or to the
/// last one, with bursts before its steps, between any two of them or behind the last.
fn transfers(adding: &mut Adding) {
    adding.section("transfers");
    for direction in [0, 1] {
        for mode in MODES {
            for place in 0..=STEPS {
                for shared in [4, SHARED_LENGTH - 16] {
                    let asked = beside_a_transfer(direction, shared, mode, place);
                    adding.add_fresh(NO_ABORT, &asked);
                }
            }
        }
    }
}

/// A burst write to the transfer's shared range behind so many steps, and a read of all of it; then
/// what is left of it in either memory.
fn beside_a_transfer(direction: u8, shared: u32, mode: u8, place: usize) -> Vec<Asked> {
    let pci = NO_ABORT.base + 8;
    let start = Access::new(kind::START, HOST, direction, shared, pci, 4 * STEPS as u32);
    let mut asked = vec![Asked::Direct(start)];
    for at in 0..=STEPS {
        if at == place {
            let dword = shared / 4 + at as u32 / 2;
            asked.push(write(mode, dword, &walk(mode, 1, 9)));
        }
        if at == place || at == STEPS {
            asked.push(read(mode, shared / 4, &walk(mode, 0, 12), 0));
        }
        // the last one is refused
        asked.push(step((at % 2) as u8));
    }
    let addresses = (pci..).step_by(4).take(STEPS);
    asked.extend(addresses.map(|address| direct(kind::WINDOW_READ, HOST, address, 0, 0)));
    asked.push(direct(kind::INTERRUPT_READ, LOCAL, 0, 0, 0));
    asked
}

/// The lists of the vectors that have no register accesses, on other memories.
fn stored_lists(adding: &mut Adding) {
    let mut names = Vec::new();
    for list in burst_lists() {
        let asked = |call: Call| match call {
            Call::Direct(access) => Some(Asked::Direct(access)),
            Call::Register(_) => None,
            Call::BurstWrite(burst) => Some(Asked::Write(Repeated::whole(burst))),
            Call::BurstRead(burst, list) => Some(Asked::Read(Repeated::whole(burst), list.len())),
        };
        let asked: Option<Vec<Asked>> = list.calls.into_iter().map(asked).collect();
        let Some(asked) = asked else { continue };
        adding.section(list.name);
        let (shared, window) = (list.shared_length, list.window_length);
        let memories = adding.cases.memories(shared, window);
        adding.add(&list.first, &memories, &asked);
        names.push(list.name);
    }
    assert!(names.contains(&"NarrowBus"));
}

/// Random bursts among direct accesses to the same dwords, on fresh cards and on others.
fn random(adding: &mut Adding) {
    adding.section("random");
    for at in 0..RANDOM {
        let mut rng = Rng::new(SEED + at as u64);
        let first = match at % 4 {
            0 => First::Record(arbitrary::sound_card(&mut rng)),
            1 => First::Fresh(Settings::REPLAY),
            2 => First::Fresh(MIDDLE),
            _ => First::Fresh(NO_ABORT),
        };
        let settings = first.settings();
        let near = rng.pick(&[0, 0, 17, 4000, LAST_DWORD - 6]);
        let mut asked = Vec::new();
        for _ in 0..OF_RANDOM {
            for _ in 0..rng.below(3) {
                asked.push(Asked::Direct(random_access(&mut rng, near, &settings)));
            }
            asked.push(random_burst(&mut rng, near));
        }
        adding.add_fit(&first, &asked);
    }
}

/// A shared read or write, a start over the dwords near this one, or a step.
fn random_access(rng: &mut Rng, near: u32, settings: &Settings) -> Access {
    let (side, lanes, word) = (rng.below(2) as u8, rng.below(16) as u8, rng.word());
    let address = 4 * (near + rng.below(7));
    let pci = settings
        .base
        .wrapping_add(4 * rng.below(settings.length / 4 + 1));
    let size = 4 + 4 * rng.below(3);
    let direction = rng.below(2) as u8;
    rng.pick(&[
        Access::new(kind::SHARED_READ, side, lanes, address, 0, 0),
        Access::new(kind::SHARED_WRITE, side, lanes, address, word, 0),
        Access::new(kind::START, side, direction, address, pci, size),
        Access::new(kind::START, side, direction, address, settings.base, size),
        Access::new(kind::STEP, side, 0, 0, 0, 0),
        Access::new(kind::STEP, side, 0, 0, 0, 0),
        Access::new(kind::STEP, side, 0, 0, 0, 0),
    ])
}

/// Most are not refused; some stop, near the last dword.
fn random_burst(rng: &mut Rng, near: u32) -> Asked {
    let mode = rng.pick(&MODES);
    let most = rng.pick(&[4, 8, 8, 16, 16, 40]);
    let count = rng.below(most);
    let phases = if rng.one_in(3) {
        walk(mode, rng.below(4), count)
    } else {
        let random = |_| Phase::new(rng.below(16), rng.word());
        (0..count).map(random).collect()
    };
    let mut burst = Burst::new(LOCAL, mode, near + rng.below(4), phases);
    if rng.one_in(8) {
        spoil(rng, &mut burst);
    }
    let stored = Repeated::whole(burst);
    if rng.one_in(2) {
        return Asked::Write(stored);
    }
    let places = if rng.one_in(16) {
        stored.phases.saturating_sub(1)
    } else {
        stored.phases + rng.pick(&[0, 0, 1, 9])
    };
    Asked::Read(stored, places)
}

/// One field that may be refused, or more.
fn spoil(rng: &mut Rng, burst: &mut Burst) {
    let word = rng.word();
    loop {
        match rng.below(4) {
            0 => burst.side = rng.pick(&[HOST, 2, 255]),
            1 => burst.mode = rng.pick(&[2, 4, 255]),
            2 => burst.start = word,
            _ => {
                let last = burst.phases.last_mut();
                last.into_iter().for_each(|phase| phase.pins = word | 16);
            }
        }
        if rng.one_in(2) {
            return;
        }
    }
}
