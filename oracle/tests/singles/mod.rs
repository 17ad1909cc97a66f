//! The single accesses that a burst equals.

use oracle::access::Access;
use oracle::bursts::Phase;
use oracle::pins::decode;

/// The access of a phase at a dword: "S = the lanes of the pins", and of a write "B = their dword".
/// Kind 1 is a shared read, kind 2 a shared write.
pub fn single(kind: u8, mode: u8, dword: u32, phase: &Phase) -> Access {
    let decoded = decode(mode, phase.pins as u8, phase.data);
    let b = if kind == 2 { decoded.dword } else { 0 };
    Access::new(kind, 1, decoded.lanes, 4 * dword, b, 0)
}

/// "In mode 0 the dword address advances after a phase with BE[3:2] at 11, in mode 1 after a phase
/// with BE[3] high, in mode 3 after each phase."
pub fn next(mode: u8, dword: u32, phase: &Phase) -> u32 {
    let pin = |number: u32| phase.pins >> number & 1 == 1;
    let advances = match mode {
        0 => pin(3) && pin(2),
        1 => pin(3),
        _ => mode == 3,
    };
    if advances {
        dword + 1
    } else {
        dword
    }
}
