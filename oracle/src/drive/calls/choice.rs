//! Random calls, steered by the state that they meet.

use crate::access::{kind, Access};
use crate::call::Call;
use crate::registers::map::{offset, REGISTERS};
use crate::registers::{RegisterAccess, READ, WRITE};
use crate::rng::Rng;

use super::super::faults::faults;
use super::super::sides::{HOST, LOCAL};
use super::builder::CallBuilder;

/// How often a register access turns to each part of the map, in the order of `register_choice`.
const WEIGHTS: [u32; 6] = [3, 4, 3, 3, 4, 9];

/// How often a call is given a fault.
#[derive(Clone, Copy)]
pub enum Faulty {
    Seldom,
    Often,
}

impl Faulty {
    /// One in so many.
    fn one_in(self) -> u32 {
        match self {
            Faulty::Seldom => 8,
            Faulty::Often => 2,
        }
    }
}

impl CallBuilder<'_> {
    pub fn random(&mut self, faulty: Faulty, count: usize) {
        let settings = self.settings();
        let direct_faults = faults(&settings, self.rng());
        for _ in 0..count {
            let fault = self.rng().one_in(faulty.one_in());
            let direct = self.rng().one_in(2);
            let call = match (direct, fault) {
                // so that transfers end
                (_, false) if self.runs() && self.rng().one_in(4) => self.step(),
                (true, false) => self.direct_choice(),
                (true, true) => self.rng().pick(&direct_faults).into(),
                (false, false) => self.register_choice().into(),
                (false, true) => self.register_fault().into(),
            };
            self.call(call);
        }
    }

    /// A direct access. Most starts give way to the DMA registers, or few transfers would be left to
    /// them, and most resets to a step.
    fn direct_choice(&mut self) -> Call {
        let access = self.drawing.choice();
        let kept = self.rng().one_in(4);
        match access.kind {
            kind::START if !kept => self.dma_choice().into(),
            kind::RESET if !kept => self.step(),
            _ => access.into(),
        }
    }

    fn step(&mut self) -> Call {
        Access::new(kind::STEP, self.drawing.side(), 0, 0, 0, 0).into()
    }

    fn rng(&mut self) -> &mut Rng {
        &mut self.drawing.rng
    }

    /// A read or a write by either side.
    fn at(&mut self, offset: u32, dword: u32) -> RegisterAccess {
        let side = self.drawing.side();
        self.by(side, offset, dword)
    }

    fn by(&mut self, side: u8, offset: u32, dword: u32) -> RegisterAccess {
        if self.rng().one_in(2) {
            RegisterAccess::read(side, offset)
        } else {
            RegisterAccess::write(side, offset, dword)
        }
    }

    fn register_choice(&mut self) -> RegisterAccess {
        match self.rng().weighted(&WEIGHTS) {
            0 => {
                let offset = offset::SHARED + self.drawing.shared_address();
                let dword = self.drawing.dword();
                self.at(offset, dword)
            }
            1 => {
                let (side, offset) = self.rng().pick(&[
                    (HOST, offset::IBFPFIFO),
                    (HOST, offset::OBPFFIFO),
                    (LOCAL, offset::IBPFFIFO),
                    (LOCAL, offset::OBFPFIFO),
                ]);
                let dword = self.drawing.dword();
                self.by(side, offset, dword)
            }
            2 => {
                let word = self.rng().word();
                let dword = self
                    .rng()
                    .pick(&[word, word & 0x0303_0303, word & 0x0100_0001]);
                self.at(offset::ARBUTIL, dword)
            }
            3 => {
                let offset = self.rng().pick(&[offset::HLDATA, offset::LHDATA]);
                let bay = self.rng().below(32);
                let upper = self.rng().pick(&[0, 0x0100_0000, 0xFEFF_4300]);
                self.at(offset, bay | upper)
            }
            4 => {
                let offset = self.rng().pick(&[offset::HINT, offset::LINT]);
                let word = self.rng().word();
                let dword = self.rng().pick(&[0, word, word & 0xFFFF_0000, 0x03FF_0020]);
                self.at(offset, dword)
            }
            _ => self.dma_choice(),
        }
    }

    /// A write of a base, of the size or of DMACTL, or a read. Some writes are of any dword.
    fn dma_choice(&mut self) -> RegisterAccess {
        let side = self.drawing.side();
        let dma = self.drawing.world.card.dma;
        let missing = if dma.dmasize() == 0 {
            offset::DMASIZE
        } else if dma.dmahbase() == 0 {
            offset::DMAHBASE
        } else {
            offset::DMACTL
        };
        let offset = self.rng().pick(&[
            offset::DMALBASE,
            offset::DMAHBASE,
            offset::DMASIZE,
            offset::DMACTL,
            missing,
            missing,
            missing,
        ]);
        let near = 4 * self.rng().below(8);
        let any = self.drawing.dword();
        let dword = match offset {
            offset::DMALBASE => self.rng().pick(&[near, near, near + 0x4003, 16_380, any]),
            offset::DMAHBASE => {
                let pci = self.drawing.pci_address();
                self.rng().pick(&[pci, pci, pci, pci | 3, any])
            }
            offset::DMASIZE => {
                let size = 4 + near;
                self.rng()
                    .pick(&[size, size, size, size, size + 0x8001, 0, 16_384, any])
            }
            _ => {
                let owner = self.rng().pick(&[0, 0x100, 0x200, 0x300]);
                let control = owner | self.rng().below(4);
                self.rng().pick(&[control, control, control, any])
            }
        };
        if self.rng().one_in(4) {
            RegisterAccess::read(side, offset)
        } else {
            RegisterAccess::write(side, offset, dword)
        }
    }

    /// A register access with one fault, or with more.
    fn register_fault(&mut self) -> RegisterAccess {
        let mut access = self.register_choice();
        if self.rng().one_in(3) {
            access.offset = self.rng().pick(&REGISTERS);
        }
        loop {
            match self.rng().below(6) {
                0 => access.side = self.rng().pick(&[2, 3, 128, 255]),
                1 => access.side = 1 - access.side.min(1),
                2 => access.offset = self.wrong_offset(access.offset),
                3 => access.direction = self.rng().pick(&[2, 3, 128, 255]),
                4 => {
                    access.direction = READ;
                    access.dword = self.rng().pick(&[1, 0x100, 0x0100_0000, 0x8000_0000]);
                }
                _ => {
                    access.offset = offset::DMACTL;
                    access.direction = WRITE;
                }
            }
            if self.rng().one_in(2) {
                return access;
            }
        }
    }

    /// No multiple of 4, one that is the right one once it is cut, or one that is not modelled.
    fn wrong_offset(&mut self, offset: u32) -> u32 {
        let low = 1 + self.rng().below(3);
        let cut = self
            .rng()
            .pick(&[0x8000, 0x1_0000, 0x0100_0000, 0x8000_0000]);
        let (word, near) = (self.rng().word(), 4 * self.rng().below(512));
        self.rng().pick(&[
            offset | low,
            offset | cut,
            word,
            near,
            0x0030,
            0x04E0,
            0x04FC,
            0x0800,
            0x2000,
            0x3FFC,
            0x8000,
            u32::MAX - 3,
        ])
    }
}
