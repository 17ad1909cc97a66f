//! The cases: what a replay cannot reach, then planned and random lists, then source requests, then
//! lists of calls.

use std::collections::BTreeSet;

use crate::access::{kind, Access};
use crate::arbitrary;
use crate::call::Call;
use crate::card::{fresh, Card, FIFOS, PAIRS};
use crate::drive::builder::Builder;
use crate::drive::coverage::{required, Coverage};
use crate::drive::faults::faultless;
use crate::drive::plans::{plans, Faults, First, MIDDLE, NUMBERED};
use crate::drive::sides::{by_both, putter, taker, HOST, LOCAL};
use crate::refusal::LAST_KIND;
use crate::rng::Rng;
use crate::seeds::Seeds;
use crate::settings::{Settings, LENGTH_LIMIT};
use crate::transfer::{Running, Transfer, SHARED_LENGTH};
use crate::vectors::{fresh as settings_cases, sound, source};

use super::super::case::{Case, Memories};
use super::super::sections::{number, Cases};
use super::calls;
use super::case::{of_calls, of_requests};

const SEED: u64 = 400;
/// Accesses of a planned list, and of a random one.
const PLANNED: usize = 400;
const RANDOM: usize = 24;
const RANDOM_LISTS: usize = 120;
const RANDOM_SOURCES: usize = 60;

pub const LARGEST: Settings = Settings::new(0xFFFF_0000, 65_536, 32_768, 49_152);

/// Where the memories' numbers of the first sections begin.
const FIRSTS: [(&str, u32); 23] = [
    ("records: settings", 0),
    ("records: fifos", 35),
    ("records: pairs", 48),
    ("records: mailboxes", 60),
    ("records: registers", 70),
    ("records: transfers", 126),
    ("records: random sound", 161),
    ("records: random", 173),
    ("records: further", 189),
    ("lengths", 222),
    ("settings", 269),
    ("random", 349),
    ("sources: sizes, direction 0", 469),
    ("sources: addresses, direction 0", 485),
    ("sources: windows, direction 0", 502),
    ("sources: causes of 1, direction 0", 528),
    ("sources: sizes, direction 1", 545),
    ("sources: addresses, direction 1", 561),
    ("sources: windows, direction 1", 578),
    ("sources: causes of 1, direction 1", 604),
    ("sources: directions", 621),
    ("sources: two at once", 627),
    ("sources: random", 637),
];
/// The lists' memories are numbered by the lists' names.
const LIST_NUMBERS: Seeds = Seeds::new(325, &NUMBERED);
const LIST_SEEDS: Seeds = Seeds::new(SEED, &NUMBERED);

impl Cases {
    /// Direct accesses. A record that is given has any DMA registers, drawn by themselves.
    fn add_accesses(&mut self, first: First, memories: &Memories, accesses: &[Access]) {
        let first = match first {
            First::Record(card) => First::Record(Card {
                dma: arbitrary::dma(&mut memories.rng()),
                ..card
            }),
            fresh => fresh,
        };
        let calls: Vec<Call> = accesses.iter().copied().map(Call::from).collect();
        self.add_calls(&first, memories, &calls);
    }

    pub fn add_calls(&mut self, first: &First, memories: &Memories, calls: &[Call]) {
        self.cases.push(of_calls(first, memories, calls));
    }

    fn add_requests(&mut self, settings: Settings, memories: &Memories, transfers: &[Transfer]) {
        self.cases.push(of_requests(settings, memories, transfers));
    }
}

pub fn list_memories(name: &str, shared_length: u32, window_length: u32) -> Memories {
    Memories::new(number(&LIST_NUMBERS, name), shared_length, window_length)
}

pub fn cases() -> Vec<Case> {
    let mut cases = Cases::new(&FIRSTS);
    records(&mut cases);
    lengths(&mut cases);
    settings(&mut cases);
    planned(&mut cases);
    random(&mut cases);
    sources(&mut cases);
    random_sources(&mut cases);
    calls::add(&mut cases);
    cases.cases
}

/// Every kind but a reset, and what tells of each part of the record.
fn probe(settings: &Settings) -> Vec<Access> {
    let mut list = Vec::new();
    for kind in [kind::INTERRUPT_READ, kind::LINE, kind::MAILBOX_READ] {
        list.extend(by_both(kind, 0));
    }
    list.extend(by_both(kind::STEP, 0));
    for fifo in 0..4 {
        let put = |entry| Access::new(kind::PUT, putter(fifo), fifo, 0, entry, 0);
        list.push(Access::new(kind::TAKE, taker(fifo), fifo, 0, 0, 0));
        list.extend([put(u32::MAX), put(0)]);
        // the pair of the same number
        list.extend(by_both(kind::CLAIM, fifo));
    }
    list.extend((kind::SHARED_READ..=LAST_KIND).map(|kind| faultless(kind, settings)));
    list
}

/// Every kind, and causes of larger numbers.
fn every_kind(settings: &Settings) -> Vec<Access> {
    let mut list: Vec<Access> = (0..=LAST_KIND)
        .map(|kind| faultless(kind, settings))
        .collect();
    list.extend([
        Access::new(17, HOST, 0, 0, 0, 0),
        Access::new(kind::STEP, 2, 0, 0, 0, 0),
        Access::new(kind::RESET, LOCAL, 1, 0, 0, 0),
        Access::new(kind::TAKE, HOST, 4, 0, 0, 0),
        Access::new(kind::START, HOST, 0, 0, 0, 0),
    ]);
    list
}

/// Sound and unsound records, each rule alone, at its border.
fn records(cases: &mut Cases) {
    let mut unsound = 0;
    for sound::Section { name, cases: given } in sound::sections() {
        cases.section(&format!("records: {name}"));
        // the stdin of a case has room for four FIFOs and four pairs
        let written_down = |card: &Card| card.fifos.len() == FIFOS && card.pairs.len() == PAIRS;
        let cards = given.into_iter().map(|(card, _)| card);
        unsound += add_records(cases, cards.filter(written_down).collect());
    }
    cases.section("records: further");
    unsound += add_records(cases, further_records());
    let all = cases.cases.len();
    assert!(unsound >= 100 && all >= unsound + 80, "{unsound} of {all}");
}

/// Adds a case of each record, and says how many are unsound.
fn add_records(cases: &mut Cases, cards: Vec<Card>) -> usize {
    let unsound = cards.iter().filter(|card| !card.sound()).count();
    for card in cards {
        let settings = card.settings;
        let accesses = if card.sound() {
            probe(&settings)
        } else {
            every_kind(&settings)
        };
        let memories = cases.memories(SHARED_LENGTH, settings.length.min(LENGTH_LIMIT));
        cases.add_accesses(First::Record(card), &memories, &accesses);
    }
    unsound
}

/// Numbers that are sound once they are cut to fewer bits.
fn further_records() -> Vec<Card> {
    let mut cards = Vec::new();
    let mut add = |change: &dyn Fn(&mut Card)| cards.push(sound::changed(MIDDLE, false, change));
    for fifo in 0..FIFOS {
        for count in [34, 64, 255, 256 + 5, 65_536 + 5] {
            add(&|card| card.fifos[fifo] = (0..count).collect());
        }
    }
    for data in [65_536 + 7, 1 << 24, 1 << 31] {
        add(&|card| card.mailboxes.hldata = data);
        add(&|card| card.mailboxes.lhdata = data);
    }
    for (direction, shared, pci, size, moved) in [
        (0, 0, MIDDLE.base, 65_536 + 8, 0),
        (1, 65_536, MIDDLE.base, 8, 0),
        (0, 0, MIDDLE.base, 8, 256),
        (0, 0, MIDDLE.base, 8, 65_536),
        (128, 0, MIDDLE.base, 8, 0),
        (0, 1 << 31, MIDDLE.base, 8, 1),
    ] {
        add(&|card| {
            let transfer = Transfer::new(direction, shared, pci, size);
            card.running = Some(Running { transfer, moved });
        });
    }
    // several rules at once
    add(&|card| {
        card.settings.hi = 2;
        card.fifos[3] = (0..40).collect();
        card.pairs.iter_mut().for_each(|pair| {
            pair.host = true;
            pair.local = true;
        });
        card.mailboxes.hldata = u32::MAX;
        card.hint.status = u32::MAX;
        card.lint.enables = u32::MAX;
    });
    cards
}

/// Memories of wrong lengths.
fn lengths(cases: &mut Cases) {
    cases.section("lengths");
    let mut add = |settings: Settings, shared_length, window_length| {
        let memories = cases.memories(shared_length, window_length);
        let accesses = every_kind(&settings);
        cases.add_accesses(First::Fresh(settings), &memories, &accesses);
    };
    for shared in [0, 4, 8192, 16_380, 16_383, 16_385, 16_388, 32_768, 65_536] {
        add(MIDDLE, shared, MIDDLE.length);
        add(Settings::REPLAY, shared, Settings::REPLAY.length);
    }
    for settings in [MIDDLE, Settings::REPLAY, LARGEST] {
        let length = settings.length;
        for window in [
            0,
            length / 2,
            length - 4,
            length - 1,
            length + 1,
            length + 4,
        ] {
            add(settings, SHARED_LENGTH, window);
        }
        add(settings, SHARED_LENGTH - 4, length + 4);
    }
    add(MIDDLE, MIDDLE.length, SHARED_LENGTH);
    for window in [1, 3, 4, 256] {
        add(Settings::ZERO, SHARED_LENGTH, window);
    }
    // the right ones
    for settings in [Settings::ZERO, MIDDLE, LARGEST] {
        add(settings, SHARED_LENGTH, settings.length);
    }
}

/// Settings that pass and settings that fail, with the window of the card that they give, and
/// failing ones with a window of the length that they ask for.
fn settings(cases: &mut Cases) {
    cases.section("settings");
    for (settings, passes) in settings_cases::CASES {
        let given = fresh(settings).1.settings;
        let mut lengths = BTreeSet::from([given.length]);
        if !passes {
            lengths.insert(settings.length.min(LENGTH_LIMIT));
        }
        let accesses = [probe(&given), probe(&settings)].concat();
        for length in lengths {
            let memories = cases.memories(SHARED_LENGTH, length);
            cases.add_accesses(First::Fresh(settings), &memories, &accesses);
        }
    }
}

/// The planned lists, each with all faults: between them they reach every required fact, or this
/// panics.
fn planned(cases: &mut Cases) {
    let mut coverage = Coverage::default();
    for mut plan in plans() {
        plan.faults = plan.faults.map(|_| Faults::ALL);
        let memories = list_memories(plan.name, plan.shared_length, plan.window_length);
        let world = memories.world(&plan.first);
        let rng = Rng::new(LIST_SEEDS.of(plan.name));
        let mut builder = Builder::new(world, rng, &mut coverage);
        builder.follow(&plan, PLANNED);
        let accesses = builder.accesses();
        cases.add_accesses(plan.first, &memories, &accesses);
    }
    coverage.assert_reached(required::facts());
}

/// Random accesses to random records.
fn random(cases: &mut Cases) {
    cases.section("random");
    let mut rng = Rng::new(SEED - 1);
    let mut coverage = Coverage::default();
    for _ in 0..RANDOM_LISTS {
        let first = First::Record(arbitrary::sound_card(&mut rng));
        let memories = cases.memories(SHARED_LENGTH, first.settings().length);
        let world = memories.world(&first);
        let mut builder = Builder::new(world, Rng::new(rng.number()), &mut coverage);
        for _ in 0..RANDOM {
            builder.random();
        }
        let accesses = builder.accesses();
        cases.add_accesses(first, &memories, &accesses);
    }
}

/// The source requests of the vectors.
fn sources(cases: &mut Cases) {
    for source::Section {
        name,
        cases: requests,
    } in source::sections()
    {
        cases.section(&format!("sources: {name}"));
        for request in requests {
            let memories = cases.memories(request.shared_length, request.window_length);
            cases.add_requests(request.settings, &memories, &[request.transfer]);
        }
    }
}

/// Random source requests over large windows.
fn random_sources(cases: &mut Cases) {
    cases.section("sources: random");
    let mut rng = Rng::new(SEED - 2);
    for settings in [Settings::REPLAY, LARGEST] {
        let random = |_| {
            let size = 4 + 4 * rng.below(SHARED_LENGTH / 4);
            let shared = 4 * rng.below((SHARED_LENGTH - size) / 4 + 1);
            let pci = settings.base + 4 * rng.below((settings.length - size) / 4 + 1);
            Transfer::new(rng.below(2) as u8, shared, pci, size)
        };
        let transfers: Vec<Transfer> = (0..RANDOM_SOURCES).map(random).collect();
        let memories = cases.memories(SHARED_LENGTH, settings.length);
        cases.add_requests(settings, &memories, &transfers);
    }
}
