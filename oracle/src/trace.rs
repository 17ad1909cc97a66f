//! The access trace: "Each record has 20 bytes, numbers least byte first."

use crate::access::Access;

/// The bytes of a record.
pub const RECORD_LENGTH: usize = 20;
/// "the two-byte mark 0x42 0x50"
pub const MARK: [u8; 2] = [0x42, 0x50];

/// What the trace reader refuses, and the writer.
pub mod refused {
    pub const SHORT: u8 = 20;
    pub const MARK: u8 = 21;
    pub const NUMBER: u8 = 22;
    pub const ZERO_BYTE: u8 = 23;
    pub const NO_ROOM: u8 = 24;
}

/// "The trace reader answers a record or a refusal: 20 fewer than 20 bytes, 21 wrong mark, 22
/// unexpected record number, 23 byte 7 not zero, in that order." It reads the first 20 bytes.
pub fn read(bytes: &[u8], expected: u16) -> Result<Access, u8> {
    let Some(record) = bytes.first_chunk::<RECORD_LENGTH>() else {
        return Err(refused::SHORT);
    };
    let [m0, m1, n0, n1, kind, side, s, zero, a0, a1, a2, a3, b0, b1, b2, b3, c0, c1, c2, c3] =
        *record;
    if [m0, m1] != MARK {
        return Err(refused::MARK);
    }
    if u16::from_le_bytes([n0, n1]) != expected {
        return Err(refused::NUMBER);
    }
    if zero != 0 {
        return Err(refused::ZERO_BYTE);
    }
    Ok(Access {
        kind,
        side,
        s,
        a: u32::from_le_bytes([a0, a1, a2, a3]),
        b: u32::from_le_bytes([b0, b1, b2, b3]),
        c: u32::from_le_bytes([c0, c1, c2, c3]),
    })
}

/// Whether "a whole record with mark and zero byte stands" at the front. Its number, kind and side
/// are not looked at.
pub fn stands(bytes: &[u8]) -> bool {
    let record = bytes.first_chunk::<RECORD_LENGTH>();
    record.is_some_and(|record| [record[0], record[1]] == MARK && record[7] == 0)
}

/// "after 65,535 the record number starts again at 0"
pub fn next_number(number: u16) -> u16 {
    number.wrapping_add(1)
}

pub fn record(number: u16, access: &Access) -> [u8; RECORD_LENGTH] {
    let mut record = [0; RECORD_LENGTH];
    record[..2].copy_from_slice(&MARK);
    record[2..4].copy_from_slice(&number.to_le_bytes());
    record[4..7].copy_from_slice(&[access.kind, access.side, access.s]);
    record[8..12].copy_from_slice(&access.a.to_le_bytes());
    record[12..16].copy_from_slice(&access.b.to_le_bytes());
    record[16..].copy_from_slice(&access.c.to_le_bytes());
    record
}

/// A record with another number.
pub fn renumbered(number: u16, record: &[u8; RECORD_LENGTH]) -> [u8; RECORD_LENGTH] {
    let mut record = *record;
    record[2..4].copy_from_slice(&number.to_le_bytes());
    record
}

/// "given an access and the expected record number it stores 20 bytes at the start of a lent buffer
/// and answers the next number." "24, fewer than 20 bytes of room, nothing stored"
pub fn write(number: u16, access: &Access, buffer: &mut [u8]) -> Result<u16, u8> {
    let Some(room) = buffer.first_chunk_mut() else {
        return Err(refused::NO_ROOM);
    };
    *room = record(number, access);
    Ok(next_number(number))
}

/// The trace of a list of accesses. "Numbers start at 0."
pub fn trace<'a>(accesses: impl IntoIterator<Item = &'a Access>) -> Vec<u8> {
    numbered(0, accesses)
}

/// The records of a list of accesses, numbered from this number on.
pub fn numbered<'a>(first: u16, accesses: impl IntoIterator<Item = &'a Access>) -> Vec<u8> {
    let mut number = first;
    let mut trace = Vec::new();
    for access in accesses {
        trace.extend(record(number, access));
        number = next_number(number);
    }
    trace
}
