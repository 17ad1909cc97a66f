//! The lists: what each starts from, and what it turns to.

use std::collections::VecDeque;

use crate::card::{fresh, Card, Pair};
use crate::rng::Rng;
use crate::settings::Settings;
use crate::transfer::{Running, Transfer, SHARED_LENGTH};
use crate::world::World;

use super::scripts::{self, memories, registers, transfers, Script};

/// What a list starts from.
pub enum First {
    Fresh(Settings),
    Record(Card),
}

pub struct Plan {
    /// What the list shows.
    pub name: &'static str,
    pub first: First,
    pub shared_length: u32,
    pub window_length: u32,
    pub script: Script,
    /// The faults that are spread over the list.
    pub faults: Option<Faults>,
}

/// One part of all faults, of so many.
#[derive(Clone, Copy)]
pub struct Faults {
    pub part: usize,
    pub parts: usize,
}

impl Faults {
    pub const ALL: Faults = Faults { part: 0, parts: 1 };
}

impl First {
    /// The settings that are given.
    pub fn settings(&self) -> Settings {
        match self {
            First::Fresh(settings) => *settings,
            First::Record(card) => card.settings,
        }
    }

    pub fn is_fresh(&self) -> bool {
        matches!(self, First::Fresh(_))
    }

    pub fn world(&self, shared: Vec<u8>, window: Vec<u8>) -> World {
        let card = match self {
            First::Fresh(settings) => fresh(*settings).1,
            First::Record(card) => card.clone(),
        };
        World {
            card,
            shared,
            window,
        }
    }
}

/// An abort range in the middle of the window.
pub const MIDDLE: Settings = Settings::new(0x2000_0000, 256, 64, 128);
/// The same in a small window.
pub const SMALL: Settings = Settings::new(0x0000_1000, 64, 24, 40);
/// lo = hi: no abort range.
pub const NO_ABORT: Settings = Settings::new(0xC000_0040, 128, 32, 32);
/// base + length = 4,294,967,296, the abort range at the end.
const TOP: Settings = Settings::new(4_294_967_040, 256, 192, 256);
/// The same with the abort range in the middle.
const TOP_MIDDLE: Settings = Settings::new(4_294_967_168, 128, 64, 96);
pub const BASE_ZERO: Settings = Settings::new(0, 64, 16, 32);
const ALL_ABORT: Settings = Settings::new(0x7FFF_FFC0, 64, 0, 64);
const NO_WINDOW: Settings = Settings::new(0x1000_0000, 0, 0, 0);
/// hi is above the length.
const FAILING: Settings = Settings::new(0x1000_0000, 64, 0, 68);

/// The lists that had numbers before they had names. Their seeds are those numbers.
pub const NUMBERED: [&str; 24] = [
    "MemoryBorders",
    "AbortRangeAtWindowEnd",
    "InboundPostOverflow",
    "InboundFreeOverflow",
    "CardFoundAtWork",
    "EveryEventCleared",
    "ClaimsAndReleases",
    "MailboxesAndLabels",
    "EventsAndLines",
    "AbortRangeInWindow",
    "AbortRangeWholeWindow",
    "WindowTooShort",
    "WindowAtLastAddress",
    "WindowAtAddressZero",
    "StartChecks",
    "StartsAtBounds",
    "LaneMasks",
    "EmptyWindow",
    "AllZeroSettings",
    "OutboundPostOverflow",
    "FailingSettings",
    "OneEntryTooMany",
    "DirectionOfTwo",
    "SharedTooShort",
];

/// So many parts the faults are dealt out in. A list that takes faults names its part, so that the
/// parts of the others stay as they are.
const FAULT_PARTS: usize = 15;

/// All lists. A new one may stand anywhere.
pub fn plans() -> Vec<Plan> {
    vec![
        plan("MemoryBorders", Settings::REPLAY, memories::borders).with_faults(0),
        plan(
            "AbortRangeAtWindowEnd",
            Settings::REPLAY,
            transfers::abort_range,
        )
        .with_faults(1),
        plan("InboundPostOverflow", MIDDLE, registers::inbound_post),
        plan("InboundFreeOverflow", SMALL, registers::inbound_free),
        record("CardFoundAtWork", found(), registers::found).with_faults(2),
        record("EveryEventCleared", every_event(), registers::clearing),
        plan("ClaimsAndReleases", Settings::REPLAY, registers::flags).with_faults(3),
        plan("MailboxesAndLabels", NO_ABORT, registers::mailboxes).with_faults(4),
        plan("EventsAndLines", MIDDLE, registers::interrupts).with_faults(5),
        plan("AbortRangeInWindow", MIDDLE, transfers::abort_range).with_faults(6),
        plan("AbortRangeWholeWindow", ALL_ABORT, transfers::abort_range).with_faults(7),
        Plan {
            window_length: MIDDLE.length - 4,
            ..record("WindowTooShort", found(), scripts::all_refused)
        },
        plan("WindowAtLastAddress", TOP, transfers::window_borders).with_faults(8),
        plan("WindowAtAddressZero", BASE_ZERO, transfers::window_borders).with_faults(9),
        plan("StartChecks", NO_ABORT, transfers::start_checks).with_faults(10),
        plan("StartsAtBounds", TOP_MIDDLE, transfers::starts).with_faults(11),
        plan("LaneMasks", SMALL, memories::lanes).with_faults(12),
        plan("EmptyWindow", NO_WINDOW, scripts::no_window).with_faults(13),
        plan("AllZeroSettings", Settings::ZERO, scripts::no_window).with_faults(14),
        Plan {
            window_length: 0,
            ..plan("OutboundPostOverflow", FAILING, registers::outbound_post)
        },
        plan("FailingSettings", FAILING, scripts::all_refused),
        record(
            "OneEntryTooMany",
            one_entry_too_many(),
            scripts::all_refused,
        ),
        record("DirectionOfTwo", direction_of_two(), scripts::all_refused),
        Plan {
            shared_length: SHARED_LENGTH - 4,
            ..record("SharedTooShort", found(), scripts::all_refused)
        },
    ]
}

fn plan(name: &'static str, settings: Settings, script: Script) -> Plan {
    Plan {
        name,
        first: First::Fresh(settings),
        shared_length: SHARED_LENGTH,
        window_length: settings.length,
        script,
        faults: None,
    }
}

fn record(name: &'static str, card: Card, script: Script) -> Plan {
    let settings = card.settings;
    Plan {
        first: First::Record(card),
        ..plan(name, settings, script)
    }
}

impl Plan {
    /// A list with a part of the faults. One that is long already, or refuses all, takes none.
    fn with_faults(self, part: usize) -> Plan {
        Plan {
            faults: Some(Faults {
                part,
                parts: FAULT_PARTS,
            }),
            ..self
        }
    }
}

fn entries(count: usize, seed: u64) -> VecDeque<u32> {
    let mut rng = Rng::new(seed);
    (0..count).map(|_| rng.word()).collect()
}

/// A sound record in the middle of its work.
pub fn found() -> Card {
    let (_, mut card) = fresh(MIDDLE);
    card.fifos[0] = entries(2, 10);
    card.fifos[2] = entries(30, 11);
    card.fifos[2][3] = u32::MAX;
    card.fifos[3] = entries(3, 12);
    card.pairs[1].host = true;
    card.pairs[2].local = true;
    card.mailboxes.hldata = 65_535;
    card.mailboxes.lhdata = 0x2A07;
    card.hint.enables = 0x0C8;
    card.hint.status = 0x018;
    card.lint.enables = 0x001;
    card.lint.status = 0x020;
    card.running = Some(Running {
        transfer: Transfer::new(0, 8, MIDDLE.base + 128, 24),
        moved: 3,
    });
    card
}

/// A sound record that has every event stored and every FIFO full.
fn every_event() -> Card {
    let (_, mut card) = fresh(BASE_ZERO);
    for (fifo, seed) in card.fifos.iter_mut().zip(20..) {
        *fifo = entries(32, seed);
    }
    card.hint.enables = 0x3FB;
    card.lint.enables = 0x3EB;
    card.hint.status = 0x33B;
    card.lint.status = 0x32B;
    card
}

fn one_entry_too_many() -> Card {
    let (_, mut card) = fresh(SMALL);
    card.fifos[2] = entries(33, 30);
    card.pairs[0] = Pair {
        host: false,
        local: true,
    };
    card
}

fn direction_of_two() -> Card {
    let (_, mut card) = fresh(SMALL);
    card.mailboxes.written = true;
    card.running = Some(Running {
        transfer: Transfer::new(2, 0, SMALL.base, 8),
        moved: 1,
    });
    card
}
