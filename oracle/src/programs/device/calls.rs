//! The cases of mixed calls: the stored lists, every register and a walk over the map, and random
//! lists.

use crate::arbitrary;
use crate::call::Call;
use crate::drive::calls::{lists, random, Faulty};
use crate::drive::plans::{First, BASE_ZERO, MIDDLE, NO_ABORT, SMALL};
use crate::drive::sides::{HOST, LOCAL};
use crate::registers::map::{offset, REGISTERS};
use crate::registers::{RegisterAccess, READ, WRITE};
use crate::rng::Rng;
use crate::settings::Settings;
use crate::transfer::SHARED_LENGTH;

use super::super::sections::Cases;
use super::cases::{list_memories, LARGEST};

const SEED: u64 = 500;
/// Random lists, and their calls.
const RECORDS: usize = 60;
const OF_RECORD: usize = 40;
const OF_FRESH: usize = 250;
/// So far the map is walked in steps of a dword: over the registers.
const REGISTERS_END: u32 = 0x0800;
/// And behind them in steps of this.
const STRIDE: u32 = 4 * 37;
const MAP_END: u32 = 0x8000;

pub fn add(cases: &mut Cases) {
    stored_lists(cases);
    walk(cases);
    beside_registers(cases);
    records(cases);
    fresh(cases);
}

/// The lists of the vectors, on other memories.
fn stored_lists(cases: &mut Cases) {
    for list in lists() {
        let memories = list_memories(list.name, list.shared_length, list.window_length);
        cases.add_calls(&list.first, &memories, &list.calls);
    }
}

/// Every multiple of 4 among the registers, then some up to the map's end and behind it: read and
/// written by both sides.
fn walk(cases: &mut Cases) {
    cases.section("calls: walk");
    let mut rng = Rng::new(SEED);
    let registers = (0..REGISTERS_END).step_by(4);
    let others = (REGISTERS_END..MAP_END + 4 * STRIDE).step_by(STRIDE as usize);
    let borders = [0x1FFC, 0x2000, 0x3FFC, 0x4000, 0x7FFC, 0x8000];
    let mut calls: Vec<Call> = Vec::new();
    for (offset, at) in registers.chain(others).chain(borders).zip(0..) {
        let (first, second) = if at & 1 == 0 {
            (HOST, LOCAL)
        } else {
            (LOCAL, HOST)
        };
        calls.push(RegisterAccess::write(first, offset, rng.word()).into());
        calls.push(RegisterAccess::read(second, offset).into());
    }
    add_on_fresh(cases, MIDDLE, &calls);
}

/// What is no register: offsets beside one, and those that are one once they are cut. Then all is
/// read, to see that nothing changed.
fn beside_registers(cases: &mut Cases) {
    cases.section("calls: beside registers");
    let mut rng = Rng::new(SEED + 1);
    let mut calls: Vec<Call> = Vec::new();
    for offset in REGISTERS
        .into_iter()
        .chain([offset::SHARED, offset::LAST_SHARED])
    {
        for wrong in [1, 2, 3, 0x8000, 0x1_0000, 0x0100_0000, 0x8000_0000] {
            let (side, direction) = (rng.pick(&[HOST, LOCAL]), rng.pick(&[READ, WRITE]));
            let access = RegisterAccess::new(side, offset | wrong, direction, rng.word());
            calls.push(access.into());
        }
        for side in [HOST, LOCAL, 2] {
            for direction in [READ, WRITE, 2, 255] {
                calls.push(RegisterAccess::new(side, offset, direction, 8).into());
            }
        }
    }
    for side in [HOST, LOCAL] {
        calls.extend(REGISTERS.map(|offset| Call::from(RegisterAccess::read(side, offset))));
    }
    add_on_fresh(cases, SMALL, &calls);
}

fn add_on_fresh(cases: &mut Cases, settings: Settings, calls: &[Call]) {
    let memories = cases.memories(SHARED_LENGTH, settings.length);
    cases.add_calls(&First::Fresh(settings), &memories, calls);
}

/// Random calls to random records with any DMA registers; some of them are not sound.
fn records(cases: &mut Cases) {
    cases.section("calls: random records");
    let mut rng = Rng::new(SEED + 2);
    let mut unsound = 0;
    for at in 0..RECORDS {
        let mut card = arbitrary::sound_card(&mut rng);
        card.dma = arbitrary::dma(&mut rng);
        if at % 2 == 0 {
            // as they are left where they are used: a start from here may be done
            card.dma.shared = 4 * rng.below(8);
            card.dma.size = 4 + 4 * rng.below(6);
            card.dma.pci = card.settings.base;
        }
        if at % 12 == 11 {
            card.pairs[at / 12 % 4].host = true;
            card.pairs[at / 12 % 4].local = true;
            unsound += 1;
        }
        let faulty = if at % 3 == 0 {
            Faulty::Often
        } else {
            Faulty::Seldom
        };
        let first = First::Record(card);
        let memories = cases.memories(SHARED_LENGTH, first.settings().length);
        let drawn = Rng::new(rng.number());
        let calls = random(memories.world(&first), drawn, faulty, OF_RECORD);
        cases.add_calls(&first, &memories, &calls);
    }
    assert!(unsound >= 5);
}

/// Random calls to fresh cards, with small and with large windows.
fn fresh(cases: &mut Cases) {
    cases.section("calls: random fresh");
    let mut rng = Rng::new(SEED + 3);
    for (settings, faulty) in [
        (Settings::REPLAY, Faulty::Seldom),
        (Settings::REPLAY, Faulty::Often),
        (LARGEST, Faulty::Seldom),
        (LARGEST, Faulty::Often),
        (Settings::ZERO, Faulty::Seldom),
        (MIDDLE, Faulty::Seldom),
        (SMALL, Faulty::Seldom),
        (SMALL, Faulty::Often),
        (NO_ABORT, Faulty::Seldom),
        (BASE_ZERO, Faulty::Seldom),
    ] {
        let first = First::Fresh(settings);
        let memories = cases.memories(SHARED_LENGTH, settings.length);
        let drawn = Rng::new(rng.number());
        let calls = random(memories.world(&first), drawn, faulty, OF_FRESH);
        cases.add_calls(&first, &memories, &calls);
    }
}
