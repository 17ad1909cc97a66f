//! All cases.

use crate::call::Call;
use crate::drive::calls::burst_facts::BurstFacts;
use crate::drive::plans::First;
use crate::settings::Settings;
use crate::transfer::SHARED_LENGTH;

use super::super::case::{Case, Memories};
use super::super::sections::Cases;
use super::case::{of_calls, Asked};
use super::{cards, lists, phases, refused};

/// Between them the cases reach every fact about bursts, or this panics.
pub fn cases() -> Vec<Case> {
    let mut adding = Adding {
        cases: Cases::new(&[]),
        facts: BurstFacts::default(),
    };
    phases::add(&mut adding);
    refused::add(&mut adding);
    cards::add(&mut adding);
    lists::add(&mut adding);
    adding.facts.assert_reached();
    adding.cases.cases
}

/// The cases so far, and what they reach.
pub struct Adding {
    pub cases: Cases,
    facts: BurstFacts,
}

impl Adding {
    pub fn section(&mut self, name: &str) {
        self.cases.section(&format!("bursts: {name}"));
    }

    pub fn add(&mut self, first: &First, memories: &Memories, asked: &[Asked]) {
        let calls: Vec<Call> = asked.iter().map(Asked::call).collect();
        self.facts.observe(memories.world(first), &calls);
        self.cases.cases.push(of_calls(first, memories, asked));
    }

    /// Between memories of the right lengths.
    pub fn add_fit(&mut self, first: &First, asked: &[Asked]) {
        let memories = self.cases.memories(SHARED_LENGTH, first.settings().length);
        self.add(first, &memories, asked);
    }

    pub fn add_fresh(&mut self, settings: Settings, asked: &[Asked]) {
        self.add_fit(&First::Fresh(settings), asked);
    }
}
