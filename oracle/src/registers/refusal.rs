//! The causes of refusal of a register access, each whatever else holds. They are written beside the
//! access and not used by it, so that the one can be compared with the other.

use crate::transfer::Transfer;
use crate::world::World;

use super::map::{offset, REGISTERS};
use super::{RegisterAccess, READ, WRITE};

/// "Refusals: 11 [..] it comes after 2 and before 3." The first whose cause holds is given; 8 and 10
/// cannot arise.
pub const ORDER: [u8; 9] = [1, 2, 11, 3, 4, 5, 6, 7, 9];

/// The ports of each side: the host takes from FIFOs 0 and 3 and puts into 1 and 2.
const PORTS: [[u32; 2]; 2] = [
    [offset::IBFPFIFO, offset::OBPFFIFO],
    [offset::IBPFFIFO, offset::OBFPFIFO],
];

/// What is written by one side only.
const WRITTEN_BY: [[u32; 2]; 2] = [
    [offset::HINT, offset::HLDATA],
    [offset::LINT, offset::LHDATA],
];

impl World {
    /// The first number in order whose cause holds, or 0.
    pub fn register_refusal(&self, access: &RegisterAccess) -> u8 {
        let holds = |number: &u8| self.register_cause(*number, access);
        ORDER.into_iter().find(holds).unwrap_or(0)
    }

    /// Whether the cause with this number holds.
    pub fn register_cause(&self, number: u8, access: &RegisterAccess) -> bool {
        let starts = access.direction == WRITE && access.offset == offset::DMACTL;
        match number {
            1 => self.unfit(),
            2 => access.side > 1,
            3 => access.direction == READ && access.dword != 0,
            4 => access.direction > WRITE,
            5 => wrong_side(access),
            6 => starts && self.card.running.is_some(),
            7 => starts && self.programmed(access).size_zero(),
            9 => starts && self.programmed(access).range_unfit(),
            11 => !modelled(access.offset),
            _ => false,
        }
    }

    /// The transfer that a write of DMACTL asks for: "bits 13:2" of base and size.
    pub fn programmed(&self, access: &RegisterAccess) -> Transfer {
        let dma = &self.card.dma;
        let direction = (access.dword % 2) as u8;
        let field = |number: u32| number % 16_384 / 4 * 4;
        Transfer::new(
            direction,
            field(dma.shared),
            dma.pci / 4 * 4,
            field(dma.size),
        )
    }
}

/// "11, an offset no multiple of 4 or one we do not model"
fn modelled(offset: u32) -> bool {
    let shared = (offset::SHARED..=offset::LAST_SHARED).contains(&offset);
    offset.is_multiple_of(4) && (shared || REGISTERS.contains(&offset))
}

/// A port of the other side; a write to the other side's interrupt register or mailbox.
fn wrong_side(access: &RegisterAccess) -> bool {
    let of_another = |table: &[[u32; 2]; 2]| {
        let owner = table
            .iter()
            .position(|offsets| offsets.contains(&access.offset));
        owner.is_some_and(|owner| usize::from(access.side) != owner)
    };
    let used = access.direction <= WRITE;
    used && of_another(&PORTS) || access.direction == WRITE && of_another(&WRITTEN_BY)
}
