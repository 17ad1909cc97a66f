//! The lent list: three numbers of 64 bits an entry.

use super::{entries, Entry};

/// "60 no room in the lent list, given only if the next entry does not fit"
pub const NO_ROOM: u8 = 60;

/// The numbers of an entry.
pub const PLACE: usize = 3;

/// Case, place, and number or length. No case is 0, so a list of zeros says nothing.
pub fn numbers(entry: &Entry) -> [u64; PLACE] {
    match *entry {
        Entry::Kept {
            at,
            number,
            doubtful,
        } => [if doubtful { 2 } else { 1 }, at, number.into()],
        Entry::Skipped { at, length } => [3, at, length],
    }
}

/// Lists the entries of a trace, and answers how many they are. "entries already listed stand. The
/// list's other places stay", and so do one or two numbers behind its last whole place.
pub fn rescue(trace: &[u8], list: &mut [u64]) -> Result<usize, u8> {
    let entries = entries(trace);
    let mut places = list.chunks_exact_mut(PLACE);
    for entry in &entries {
        let Some(place) = places.next() else {
            return Err(NO_ROOM);
        };
        place.copy_from_slice(&numbers(entry));
    }
    Ok(entries.len())
}
