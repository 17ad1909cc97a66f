//! Builds one list of calls, on the world that they act on.

use crate::access::{kind, Access};
use crate::bursts::{Burst, Phase};
use crate::call::Call;
use crate::registers::map::{offset, DMA_REGISTERS};
use crate::registers::RegisterAccess;
use crate::rng::Rng;
use crate::settings::Settings;
use crate::world::World;

use super::super::builder::Builder;
use super::super::coverage::Coverage;
use super::super::sides::{HOST, LOCAL};

pub struct CallBuilder<'a> {
    /// The world, and what draws direct accesses to it.
    pub drawing: Builder<'a>,
    pub calls: Vec<Call>,
}

impl<'a> CallBuilder<'a> {
    pub fn new(world: World, rng: Rng, coverage: &'a mut Coverage) -> CallBuilder<'a> {
        CallBuilder {
            drawing: Builder::new(world, rng, coverage),
            calls: Vec::new(),
        }
    }

    pub fn settings(&self) -> Settings {
        self.drawing.settings()
    }

    pub fn runs(&self) -> bool {
        self.drawing.world.card.running.is_some()
    }

    /// Performs a call and keeps it.
    pub fn call(&mut self, call: impl Into<Call>) {
        let call = call.into();
        self.drawing.world.call(&call);
        self.calls.push(call);
    }

    pub fn direct(&mut self, kind: u8, side: u8, s: u8, a: u32, b: u32, c: u32) {
        self.call(Access::new(kind, side, s, a, b, c));
    }

    /// A kind that uses the selector at most.
    pub fn select(&mut self, kind: u8, side: u8, s: u8) {
        self.direct(kind, side, s, 0, 0, 0);
    }

    /// A kind that uses no field.
    pub fn plain(&mut self, kind: u8, side: u8) {
        self.select(kind, side, 0);
    }

    pub fn register(&mut self, side: u8, offset: u32, direction: u8, dword: u32) {
        self.call(RegisterAccess::new(side, offset, direction, dword));
    }

    pub fn read(&mut self, side: u8, offset: u32) {
        self.call(RegisterAccess::read(side, offset));
    }

    pub fn write(&mut self, side: u8, offset: u32, dword: u32) {
        self.call(RegisterAccess::write(side, offset, dword));
    }

    pub fn read_by_both(&mut self, offset: u32) {
        self.read(HOST, offset);
        self.read(LOCAL, offset);
    }

    /// A burst write of these phases, each with pins and data.
    pub fn burst_write(&mut self, side: u8, mode: u8, start: u32, phases: &[(u32, u32)]) {
        self.call(Call::BurstWrite(burst(side, mode, start, phases)));
    }

    /// A burst read of these phases, into a list that holds so much.
    pub fn burst_read(
        &mut self,
        side: u8,
        mode: u8,
        start: u32,
        phases: &[(u32, u32)],
        list: &[u32],
    ) {
        let burst = burst(side, mode, start, phases);
        self.call(Call::BurstRead(burst, list.to_vec()));
    }

    /// A burst read of phases with these pins.
    pub fn read_pins(&mut self, side: u8, mode: u8, start: u32, pins: &[u32], list: &[u32]) {
        let phases: Vec<(u32, u32)> = pins.iter().map(|pins| (*pins, 0)).collect();
        self.burst_read(side, mode, start, &phases, list);
    }

    /// What a start by DMACTL needs.
    pub fn program(&mut self, side: u8, shared: u32, pci: u32, size: u32) {
        self.write(side, offset::DMALBASE, shared);
        self.write(side, offset::DMAHBASE, pci);
        self.write(side, offset::DMASIZE, size);
    }

    /// All four DMA registers.
    pub fn read_dma(&mut self, side: u8) {
        for offset in DMA_REGISTERS {
            self.read(side, offset);
        }
    }

    /// Steps from both sides in turn, until no transfer runs.
    pub fn step_to_end(&mut self) {
        let mut side = HOST;
        while self.runs() {
            self.plain(kind::STEP, side);
            side = 1 - side;
        }
    }
}

fn burst(side: u8, mode: u8, start: u32, phases: &[(u32, u32)]) -> Burst {
    let phases = phases.iter().map(|(pins, data)| Phase::new(*pins, *data));
    Burst::new(side, mode, start, phases.collect())
}
