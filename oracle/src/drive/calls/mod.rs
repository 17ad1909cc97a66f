//! Lists of calls: direct and register accesses and bursts, mixed.

mod builder;
pub mod burst_facts;
mod choice;
mod reached;
mod scripts;

use crate::call::{Call, Given};
use crate::card::{fresh, Card, Pair};
use crate::dma::Dma;
use crate::rng::Rng;
use crate::seeds::Seeds;
use crate::settings::Settings;
use crate::transfer::SHARED_LENGTH;
use crate::world::World;

use super::coverage::Coverage;
use super::plans::{found, First, BASE_ZERO, MIDDLE, NO_ABORT, SMALL};
use builder::CallBuilder;
use burst_facts::BurstFacts;
use scripts::{bursts, mixed, refusals, registers, transfers, Script};

pub use choice::Faulty;

/// The draws of a list are those of its name.
const SEEDS: Seeds = Seeds::new(2, &[]);

/// The lists of the lessons about zero and about narrow buses.
const ZERO: &str = "ZeroInRegisters";
const NARROW: &str = "NarrowBus";

/// So many single accesses and calls without one the lists with bursts may have together: each takes
/// the prover its time.
const BURST_ACCESSES: usize = 160;

pub struct CallList {
    /// What the list shows.
    pub name: &'static str,
    pub first: First,
    pub shared_length: u32,
    pub window_length: u32,
    /// Its stored answers are those of zeroed memories.
    pub of_zeroed: bool,
    pub calls: Vec<Call>,
}

/// The lists without bursts. Between them they reach every required fact, or this panics.
pub fn lists() -> Vec<CallList> {
    let lists = vec![
        on_fresh("EveryRegister", SMALL, registers::every),
        on_fresh("RegisterRefusals", SMALL, refusals::every),
        on_record("ReadsWithDword", found_programmed(), refusals::reads),
        on_fresh("TransfersByRegisters", MIDDLE, transfers::programmed),
        on_fresh("OwnershipBits", SMALL, transfers::ownership),
        on_fresh("PlainReads", SMALL, registers::plain_reads),
        on_fresh("FlagsByRegister", BASE_ZERO, registers::flags),
        on_record("RegistersFoundAtWork", found_programmed(), transfers::found),
        on_fresh(ZERO, Settings::REPLAY, scripts::zero),
        on_fresh("MixedCalls", NO_ABORT, mixed::seldom_refused),
        on_record(
            "MixedCallsAtWork",
            found_programmed(),
            mixed::seldom_refused,
        ),
        on_fresh("MixedCallsRefused", SMALL, mixed::often_refused),
        on_record("CallsToUnsoundCard", unsound(), refusals::with_1),
        short_memory("CallsWithShortMemory", without_size(), refusals::with_1),
    ];
    reached::assert_all(&lists);
    lists
}

/// The lists with bursts. Between them they reach every fact about bursts, or this panics.
pub fn burst_lists() -> Vec<CallList> {
    let lists = vec![
        on_fresh("BurstsInEachMode", SMALL, bursts::each_mode),
        on_fresh("BurstsThatOverrun", BASE_ZERO, bursts::overruns),
        on_fresh("BurstsRefused", MIDDLE, bursts::refused),
        on_record("BurstsToUnsoundCard", unsound(), bursts::with_1),
        short_memory(
            "BurstsWithShortMemory",
            without_size(),
            bursts::in_short_memory,
        ),
        on_fresh("BurstsBesideATransfer", MIDDLE, bursts::beside_a_transfer),
        narrow(),
    ];
    let mut facts = BurstFacts::default();
    for list in &lists {
        facts.observe(list.zeroed(), &list.calls);
    }
    facts.assert_reached();
    let accesses: usize = lists.iter().map(CallList::accesses).sum();
    assert!(accesses <= BURST_ACCESSES, "{accesses}");
    lists
}

fn narrow() -> CallList {
    CallList {
        of_zeroed: true,
        ..on_fresh(NARROW, Settings::REPLAY, bursts::narrow)
    }
}

/// The calls of the lesson about zero, with what each gives.
pub fn zero_in_registers() -> Vec<(Call, Given)> {
    on_fresh(ZERO, Settings::REPLAY, scripts::zero).given()
}

/// The calls of the lesson about narrow buses, with what each gives.
pub fn narrow_bus() -> Vec<(Call, Given)> {
    narrow().given()
}

/// So many random calls to a world.
pub fn random(world: World, rng: Rng, faulty: Faulty, count: usize) -> Vec<Call> {
    let mut coverage = Coverage::default();
    let mut builder = CallBuilder::new(world, rng, &mut coverage);
    builder.random(faulty, count);
    builder.calls
}

fn on_fresh(name: &'static str, settings: Settings, script: Script) -> CallList {
    follow(name, First::Fresh(settings), SHARED_LENGTH, script)
}

fn on_record(name: &'static str, card: Card, script: Script) -> CallList {
    follow(name, First::Record(card), SHARED_LENGTH, script)
}

fn short_memory(name: &'static str, card: Card, script: Script) -> CallList {
    follow(name, First::Record(card), SHARED_LENGTH - 4, script)
}

/// No call depends on the bytes of the memories, so that the list can be put to others.
fn follow(name: &'static str, first: First, shared_length: u32, script: Script) -> CallList {
    let mut list = CallList {
        name,
        shared_length,
        window_length: first.settings().length,
        first,
        of_zeroed: false,
        calls: Vec::new(),
    };
    let mut coverage = Coverage::default();
    let rng = Rng::new(SEEDS.of(name));
    let mut builder = CallBuilder::new(list.zeroed(), rng, &mut coverage);
    script(&mut builder);
    list.calls = builder.calls;
    list
}

impl CallList {
    /// What the list starts from, between zeroed memories.
    pub fn zeroed(&self) -> World {
        let zeros = |length| vec![0; length as usize];
        let (shared, window) = (zeros(self.shared_length), zeros(self.window_length));
        self.first.world(shared, window)
    }

    /// How many accesses it has, a burst as those that it equals, or as one where it does none.
    fn accesses(&self) -> usize {
        let mut world = self.zeroed();
        let accesses = |call: &Call| match (call, world.call(call).answer.v) {
            (Call::BurstWrite(_) | Call::BurstRead(..), phases) => phases.max(1) as usize,
            _ => 1,
        };
        self.calls.iter().map(accesses).sum()
    }

    /// The calls with what each gives, from zeroed memories.
    fn given(self) -> Vec<(Call, Given)> {
        let mut world = self.zeroed();
        let given = |call: Call| {
            let given = world.call(&call);
            (call, given)
        };
        self.calls.into_iter().map(given).collect()
    }
}

/// A sound record in the middle of its work, whose DMA registers no writes have left: bits that no
/// register shows, and both sides as owners. They show shared address 8, the first dword behind the
/// abort range, and size 16.
fn found_programmed() -> Card {
    let mut card = found();
    card.dma = Dma {
        shared: 0xFFFF_C00B,
        pci: MIDDLE.base + MIDDLE.hi + 3,
        size: 0xABCD_4012,
        owner: Pair {
            host: true,
            local: true,
        },
        inhibit: true,
        outward: false,
    };
    card
}

/// A pair has both flags set; a start would be refused with 6, and its range with 9.
fn unsound() -> Card {
    let mut card = found_programmed();
    card.pairs[2].host = true;
    card.dma.shared = 0x3FFC;
    card
}

/// DMASIZE shows 0.
fn without_size() -> Card {
    let (_, mut card) = fresh(SMALL);
    card.dma.size = 0x0001_4003;
    card.dma.outward = true;
    card
}
