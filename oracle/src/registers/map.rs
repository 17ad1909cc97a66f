//! "The memory map covers a continuous 32 KB address space", and what stands in it.

use crate::card::Side;
use crate::transfer::SHARED_LENGTH;

/// By the sheet's mnemonics.
pub mod offset {
    pub const IBFPFIFO: u32 = 0x0040;
    pub const OBPFFIFO: u32 = 0x0044;
    pub const IBPFFIFO: u32 = 0x0048;
    pub const OBFPFIFO: u32 = 0x004C;
    pub const DMALBASE: u32 = 0x04B0;
    pub const DMAHBASE: u32 = 0x04B4;
    pub const DMASIZE: u32 = 0x04B8;
    pub const DMACTL: u32 = 0x04BC;
    pub const ARBUTIL: u32 = 0x04C0;
    pub const HINT: u32 = 0x04E4;
    pub const HLDATA: u32 = 0x04E8;
    pub const LINT: u32 = 0x04F4;
    pub const LHDATA: u32 = 0x04F8;
    /// "Shared Memory 0x4000-0x7FFF"
    pub const SHARED: u32 = 0x4000;
    pub const LAST_SHARED: u32 = 0x7FFC;
}

/// The offsets of the registers that are modelled.
pub const REGISTERS: [u32; 13] = [
    offset::IBFPFIFO,
    offset::OBPFFIFO,
    offset::IBPFFIFO,
    offset::OBFPFIFO,
    offset::DMALBASE,
    offset::DMAHBASE,
    offset::DMASIZE,
    offset::DMACTL,
    offset::ARBUTIL,
    offset::HINT,
    offset::HLDATA,
    offset::LINT,
    offset::LHDATA,
];

/// "PCI Bus Mastering (DMA) Registers"
pub const DMA_REGISTERS: [u32; 4] = [
    offset::DMALBASE,
    offset::DMAHBASE,
    offset::DMASIZE,
    offset::DMACTL,
];

/// "CY7C09449PVA resources are accessed from the PCI bus as an offset [..] Resources are also
/// accessed from the local bus".
#[derive(Clone, Copy, Debug, PartialEq, Eq)]
pub enum Resource {
    /// "A shared port": one FIFO is taken from there, another is put into.
    Port {
        taken: u8,
        put: u8,
    },
    /// HINT or LINT, by its side.
    Interrupts(Side),
    /// HLDATA or LHDATA, by the side that writes it.
    Mailbox(Side),
    /// ARBUTIL, in its description ARB_FLAGS.
    ArbitrationFlags,
    Dmalbase,
    Dmahbase,
    Dmasize,
    Dmactl,
    /// A dword of shared memory, by its address there.
    Shared(u32),
}

/// What stands at an offset; none if it is no multiple of 4 or "one we do not model".
pub fn resource(offset: u32) -> Option<Resource> {
    let port = |taken, put| Resource::Port { taken, put };
    Some(match offset {
        // "Inbound Free FIFO (read only) and Inbound Post FIFO (write only)"
        offset::IBFPFIFO => port(0, 1),
        // "Outbound Post FIFO (read only) and Outbound Free FIFO (write only)"
        offset::OBPFFIFO => port(3, 2),
        // "Inbound Post FIFO (read only) and Inbound Free FIFO (write only)"
        offset::IBPFFIFO => port(1, 0),
        // "Outbound Free FIFO (read only) and Outbound Post FIFO (write only)"
        offset::OBFPFIFO => port(2, 3),
        offset::DMALBASE => Resource::Dmalbase,
        offset::DMAHBASE => Resource::Dmahbase,
        offset::DMASIZE => Resource::Dmasize,
        offset::DMACTL => Resource::Dmactl,
        offset::ARBUTIL => Resource::ArbitrationFlags,
        offset::HINT => Resource::Interrupts(Side::Host),
        offset::HLDATA => Resource::Mailbox(Side::Host),
        offset::LINT => Resource::Interrupts(Side::Local),
        offset::LHDATA => Resource::Mailbox(Side::Local),
        _ => Resource::Shared(shared_address(offset)?),
    })
}

fn shared_address(offset: u32) -> Option<u32> {
    let address = offset.checked_sub(offset::SHARED)?;
    (address < SHARED_LENGTH && address.is_multiple_of(4)).then_some(address)
}
