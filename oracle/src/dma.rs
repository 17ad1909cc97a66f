//! The DMA registers: "A transfer is now programmed by several writes before the one that starts
//! it; those values are part of the record" (document 02, L4).

use crate::access::{kind, Access};
use crate::card::{Pair, Side};

/// "13:2 Local Base Address", and 13:2 for the burst size too.
const BITS_13_TO_2: u32 = 0x0000_3FFC;
/// The PCI address has bits 31 to 2.
const BITS_31_TO_2: u32 = 0xFFFF_FFFC;

/// The bits of DMACTL.
mod control {
    pub const W: u32 = 1 << 0;
    pub const PI: u32 = 1 << 1;
    pub const P: u32 = 1 << 8;
    pub const L: u32 = 1 << 9;
}

/// The three numbers are what is stored, of which a register shows the bits that it has: no bit is
/// asked to be clear for a record to be sound, so each is written and read through its mask.
#[derive(Clone, Copy, Debug, Default, PartialEq, Eq)]
pub struct Dma {
    /// Behind DMALBASE.
    pub shared: u32,
    /// Behind DMAHBASE.
    pub pci: u32,
    /// Behind DMASIZE.
    pub size: u32,
    /// P and L of DMACTL. They bind nobody, and a record with both set is sound.
    pub owner: Pair,
    /// PI: "Pre-Fetch Inhibit for PCI memory reads".
    pub inhibit: bool,
    /// W: the direction of the last transfer that was started here.
    pub outward: bool,
}

impl Dma {
    pub fn dmalbase(&self) -> u32 {
        self.shared & BITS_13_TO_2
    }

    pub fn dmahbase(&self) -> u32 {
        self.pci & BITS_31_TO_2
    }

    /// So 16,384 reads as 0.
    pub fn dmasize(&self) -> u32 {
        self.size & BITS_13_TO_2
    }

    pub fn dmactl(&self) -> u32 {
        [
            (self.outward, control::W),
            (self.inhibit, control::PI),
            (self.owner.host, control::P),
            (self.owner.local, control::L),
        ]
        .into_iter()
        .filter(|(set, _)| *set)
        .fold(0, |bits, (_, bit)| bits | bit)
    }

    /// "The lower two bits of each of the address and transfer size fields are ignored."
    pub fn write_dmalbase(&mut self, dword: u32) {
        self.shared = dword & BITS_13_TO_2;
    }

    pub fn write_dmahbase(&mut self, dword: u32) {
        self.pci = dword & BITS_31_TO_2;
    }

    pub fn write_dmasize(&mut self, dword: u32) {
        self.size = dword & BITS_13_TO_2;
    }

    /// The start that a write of DMACTL is: "Determines the direction of the DMA and starts
    /// transfer", with the other numbers as they read now.
    pub fn start(&self, caller: Side, dword: u32) -> Access {
        let direction = u8::from(dword & control::W != 0);
        let (shared, pci, size) = (self.dmalbase(), self.dmahbase(), self.dmasize());
        Access::new(kind::START, caller as u8, direction, shared, pci, size)
    }

    /// What DMACTL keeps of a write that started a transfer. "Writing to this bit by the local
    /// processor updates the value if and only if the P bit is not set to '1.' A write to this bit
    /// from the PCI bus never updates this bit", and the same of P.
    pub fn write_dmactl(&mut self, caller: Side, dword: u32) {
        let Pair { host, local } = self.owner;
        match caller {
            Side::Host if !local => self.owner.host = dword & control::P != 0,
            Side::Local if !host => self.owner.local = dword & control::L != 0,
            _ => (),
        }
        self.inhibit = dword & control::PI != 0;
        self.outward = dword & control::W != 0;
    }
}
