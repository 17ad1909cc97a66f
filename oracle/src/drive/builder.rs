//! Builds one list of accesses, on the world that they act on.

use crate::access::{kind, Access, Answer};
use crate::rng::Rng;
use crate::settings::Settings;
use crate::world::World;

use super::coverage::{Coverage, Observed};
use super::faults;
use super::plans::{Faults, Plan};
use super::sides::{by_both, HOST, LOCAL};

pub struct Builder<'a> {
    pub world: World,
    pub rng: Rng,
    pub entries: Vec<(Access, Answer)>,
    coverage: &'a mut Coverage,
}

impl<'a> Builder<'a> {
    pub fn new(world: World, rng: Rng, coverage: &'a mut Coverage) -> Builder<'a> {
        coverage.start_list();
        Builder {
            world,
            rng,
            entries: Vec::new(),
            coverage,
        }
    }

    pub fn settings(&self) -> Settings {
        self.world.card.settings
    }

    /// The plan's script, then random accesses until the list has so many, with its part of the
    /// faults spread among them.
    pub fn follow(&mut self, plan: &Plan, length: usize) {
        let mut faults = Vec::new();
        if let Some(Faults { part, parts }) = plan.faults {
            let all = faults::faults(&self.settings(), &mut self.rng);
            faults = all.into_iter().skip(part).step_by(parts).collect();
        }
        (plan.script)(self);
        while self.entries.len() < length || !faults.is_empty() {
            let room = length.saturating_sub(self.entries.len());
            let chosen = self.rng.below(room.max(faults.len()).max(1) as u32) as usize;
            if chosen < faults.len() {
                let fault = faults.remove(chosen);
                self.access(fault);
            } else {
                self.random();
            }
        }
    }

    pub fn accesses(&self) -> Vec<Access> {
        self.entries.iter().map(|(access, _)| *access).collect()
    }

    /// Performs an access and keeps it with its answer.
    pub fn access(&mut self, access: Access) {
        let before = self.world.clone();
        let answer = self.world.access(access);
        self.coverage.observe(&Observed {
            before: &before,
            access: &access,
            answer: &answer,
            after: &self.world,
        });
        self.entries.push((access, answer));
    }

    pub fn perform(&mut self, accesses: impl IntoIterator<Item = Access>) {
        for access in accesses {
            self.access(access);
        }
    }

    /// A kind that uses no field.
    pub fn plain(&mut self, kind: u8, side: u8) {
        self.access(Access::new(kind, side, 0, 0, 0, 0));
    }

    /// A kind that uses the selector alone.
    pub fn select(&mut self, kind: u8, side: u8, s: u8) {
        self.access(Access::new(kind, side, s, 0, 0, 0));
    }

    /// A kind that uses B alone.
    pub fn value(&mut self, kind: u8, side: u8, b: u32) {
        self.access(Access::new(kind, side, 0, 0, b, 0));
    }

    pub fn put(&mut self, side: u8, fifo: u8, entry: u32) {
        self.access(Access::new(kind::PUT, side, fifo, 0, entry, 0));
    }

    pub fn start(&mut self, side: u8, direction: u8, shared: u32, pci: u32, size: u32) {
        self.access(Access::new(kind::START, side, direction, shared, pci, size));
    }

    /// Steps from both sides in turn, until no transfer runs.
    pub fn step_to_end(&mut self) {
        let mut side = HOST;
        while self.world.card.running.is_some() {
            self.plain(kind::STEP, side);
            side = 1 - side;
        }
    }

    /// A start, then steps until no transfer runs.
    pub fn run_transfer(&mut self, side: u8, direction: u8, shared: u32, pci: u32, size: u32) {
        self.start(side, direction, shared, pci, size);
        self.step_to_end();
    }

    pub fn read_registers(&mut self) {
        self.perform(by_both(kind::INTERRUPT_READ, 0));
    }

    pub fn read_lines(&mut self) {
        self.perform(by_both(kind::LINE, 0));
    }

    pub fn read_mailboxes(&mut self) {
        self.perform(by_both(kind::MAILBOX_READ, 0));
    }

    /// An interrupt write to HINT, then one to LINT.
    pub fn write_registers(&mut self, hint: u32, lint: u32) {
        self.value(kind::INTERRUPT_WRITE, HOST, hint);
        self.value(kind::INTERRUPT_WRITE, LOCAL, lint);
    }
}
