//! Traces that were damaged on the way: bytes overwritten, lost and doubled, and stray marks.

use crate::access::Access;
use crate::arbitrary;
use crate::rng::Rng;
use crate::trace::{numbered, MARK, RECORD_LENGTH};

const SEED: u64 = 1400;

/// In a badly damaged trace half of the sound stretches are shorter than this.
pub const BADLY: u32 = 60;
/// The most bytes that are damaged together, unless many are lost.
const MOST: u32 = 48;
const MANY_LOST: u32 = 400;

/// A badly damaged trace of about so many records.
pub fn long(records: usize) -> Vec<u8> {
    let mut rng = Rng::new(SEED);
    let sound = sound(&mut rng, 0, records);
    damaged(&mut rng, &sound, BADLY)
}

/// So many records of any accesses, numbered from this number on.
pub fn sound(rng: &mut Rng, first: u16, records: usize) -> Vec<u8> {
    let accesses = (0..records).map(|_| arbitrary::varied_access(rng));
    numbered(first, &accesses.collect::<Vec<Access>>())
}

/// The trace with damage of every sort; what is sound between two places is shorter than `gap`, or
/// some eight times as long.
pub fn damaged(rng: &mut Rng, sound: &[u8], gap: u32) -> Vec<u8> {
    let mut damaged = Vec::with_capacity(sound.len() + sound.len() / 8);
    let mut rest = sound;
    loop {
        let gap = rng.pick(&[gap, 8 * gap]);
        let whole = rng.below(gap) as usize;
        if whole >= rest.len() {
            damaged.extend(rest);
            return damaged;
        }
        damaged.extend(&rest[..whole]);
        rest = &rest[whole..];
        // the bytes of the record that the damage begins in
        let begun = (sound.len() - rest.len()) % RECORD_LENGTH;
        let gone = damage(rng, rest, begun, &mut damaged);
        rest = &rest[gone..];
    }
}

/// Adds what damage leaves of the bytes ahead, and gives for how many of them that stands.
fn damage(rng: &mut Rng, ahead: &[u8], begun: usize, damaged: &mut Vec<u8>) -> usize {
    let some = (1 + rng.below(MOST) as usize).min(ahead.len());
    let mut overwrite = |bytes: &[u8]| {
        let length = bytes.len().min(ahead.len());
        damaged.extend(&bytes[..length]);
        length
    };
    match rng.below(10) {
        0 => overwrite(&[rng.byte()]),
        1 => {
            let any: Vec<u8> = (0..some).map(|_| rng.byte()).collect();
            overwrite(&any)
        }
        // erased, or never written
        2 => overwrite(&vec![rng.pick(&[0x00, 0xFF]); some]),
        3 => overwrite(&MARK),
        4 => overwrite(&MARK.repeat(some.div_ceil(2))),
        // a mark with a zero byte behind it, so that a record stands
        5 => overwrite(&[MARK[0], MARK[1], rng.byte(), 0, 1, 0, 0, 0]),
        // a byte of the next record's mark or number, or its zero byte
        6 => {
            let next = RECORD_LENGTH - begun + rng.pick(&[0, 1, 2, 3, 7]);
            if next >= ahead.len() {
                return 0;
            }
            let mut bytes = ahead[..=next].to_vec();
            bytes[next] ^= 1 + rng.byte() % 255;
            overwrite(&bytes)
        }
        7 => some,
        8 => (some + rng.below(MANY_LOST) as usize).min(ahead.len()),
        // doubled: they come again
        _ => {
            damaged.extend(&ahead[..some]);
            0
        }
    }
}
