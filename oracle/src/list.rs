//! The text list: "a text list of accesses (kind, side, S, A, B, C in decimal, single spaces, one a
//! line, each ended by a line feed)".

use std::slice::Iter;

use crate::access::Access;
use crate::decimal;

/// The bytes of the longest line: three numbers of three digits, three of ten, and a byte behind
/// each.
pub const LONGEST_LINE: usize = 3 * (3 + 1) + 3 * (10 + 1);

/// "25, a text line not in that form (no leading zeros, numbers that fit)"
pub const REFUSED: u8 = 25;

/// The line of an access, with its line feed.
pub struct Line {
    /// The line stands at the end.
    room: [u8; LONGEST_LINE],
    start: usize,
}

impl Line {
    pub fn bytes(&self) -> &[u8] {
        &self.room[self.start..]
    }
}

pub fn line(access: &Access) -> Line {
    let mut room = [b' '; LONGEST_LINE];
    let mut start = LONGEST_LINE;
    room[start - 1] = b'\n';
    for number in access.numbers().into_iter().rev() {
        start = decimal::store(number, &mut room[..start - 1]);
    }
    Line { room, start }
}

/// The list of these accesses.
pub fn list<'a>(accesses: impl IntoIterator<Item = &'a Access>) -> Vec<u8> {
    let mut list = Vec::new();
    for access in accesses {
        list.extend(line(access).bytes());
    }
    list
}

/// Reads the line at the front: its access, and how many bytes it has. No more than the longest
/// line is looked at.
pub fn read(bytes: &[u8]) -> Result<(Access, usize), u8> {
    let mut rest = bytes.iter();
    match access(&mut rest) {
        Some(access) => Ok((access, bytes.len() - rest.len())),
        None => Err(REFUSED),
    }
}

fn access(rest: &mut Iter<u8>) -> Option<Access> {
    Some(Access {
        kind: byte(rest)?,
        side: byte(rest)?,
        s: byte(rest)?,
        a: number(rest, b' ')?,
        b: number(rest, b' ')?,
        c: number(rest, b'\n')?,
    })
}

fn byte(rest: &mut Iter<u8>) -> Option<u8> {
    u8::try_from(number(rest, b' ')?).ok()
}

/// A number of 32 bits, and the byte behind it. A digit follows a 0 only where a leading zero
/// stands.
fn number(rest: &mut Iter<u8>, after: u8) -> Option<u32> {
    let mut number = digit(*rest.next()?)?;
    loop {
        let byte = *rest.next()?;
        if byte == after {
            return Some(number);
        }
        if number == 0 {
            return None;
        }
        number = number.checked_mul(10)?.checked_add(digit(byte)?)?;
    }
}

fn digit(byte: u8) -> Option<u32> {
    let digit = byte.wrapping_sub(b'0');
    (digit < 10).then_some(digit.into())
}
