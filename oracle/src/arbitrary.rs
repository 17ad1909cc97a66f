//! Random records, sound ones and ones of which any part may be unsound; random accesses; and
//! random changes of a list or a trace.

use std::collections::VecDeque;

use crate::access::Access;
use crate::card::{Card, Mailboxes, Pair, FIFOS, FIFO_DEPTH, PAIRS};
use crate::dma::Dma;
use crate::interrupts::{event, Register};
use crate::rng::Rng;
use crate::settings::Settings;
use crate::transfer::{Running, Transfer, SHARED_LENGTH};

/// A sound record with a small window. A further part draws from a generator of its own, or the
/// stored records behind the first one would change: so the DMA registers are as fresh here, and
/// `dma` draws them.
pub fn sound_card(rng: &mut Rng) -> Card {
    let settings = sound_settings(rng);
    Card {
        settings,
        fifos: (0..FIFOS).map(|_| fifo(rng, FIFO_DEPTH)).collect(),
        pairs: (0..PAIRS).map(|_| pair(rng)).collect(),
        mailboxes: Mailboxes {
            hldata: rng.word() >> 16,
            lhdata: rng.word() >> 16,
            written: rng.one_in(2),
        },
        hint: register(rng, event::OF_HOST),
        lint: register(rng, event::OF_LOCAL),
        running: rng.one_in(2).then(|| running(rng, &settings)),
        dma: Dma::default(),
    }
}

/// DMA registers of any bits, those that no register shows too; both sides may own them.
pub fn dma(rng: &mut Rng) -> Dma {
    Dma {
        shared: rng.word(),
        pci: rng.word(),
        size: rng.word(),
        owner: Pair {
            host: rng.one_in(2),
            local: rng.one_in(2),
        },
        inhibit: rng.one_in(2),
        outward: rng.one_in(2),
    }
}

/// A sound record with, often, one part or two replaced by an unsound one.
pub fn card(rng: &mut Rng) -> Card {
    let mut card = sound_card(rng);
    for _ in 0..rng.below(3) {
        spoil(&mut card, rng);
    }
    card
}

/// An access of any six numbers; few of them are in range.
pub fn access(rng: &mut Rng) -> Access {
    Access {
        kind: rng.byte(),
        side: rng.byte(),
        s: rng.byte(),
        a: rng.word(),
        b: rng.word(),
        c: rng.word(),
    }
}

/// An access whose numbers have any number of digits; half of them are 0, as in a capture.
pub fn varied_access(rng: &mut Rng) -> Access {
    let [kind, side, s] = [(); 3].map(|()| varied_number(rng, 8) as u8);
    let [a, b, c] = [(); 3].map(|()| varied_number(rng, 32));
    Access::new(kind, side, s, a, b, c)
}

/// 0, or a number of at most so many bits, of which each count is as likely.
fn varied_number(rng: &mut Rng, bits: u32) -> u32 {
    let lost = 32 - bits + rng.below(bits);
    let number = rng.word() >> lost;
    rng.pick(&[0, number])
}

/// One change: another byte, a bit, a byte more, a byte less, two that change places, or the end
/// that is lost.
pub fn change(rng: &mut Rng, bytes: &mut Vec<u8>) {
    let any = rng.byte();
    let byte = rng.pick(&[b'0', b'1', b'9', b' ', b'\n', b'\r', b'-', 0, any]);
    let at = rng.below(bytes.len() as u32 + 1) as usize;
    if at == bytes.len() {
        bytes.push(byte);
        return;
    }
    match rng.below(6) {
        0 => bytes[at] = byte,
        1 => bytes[at] ^= 1 << rng.below(8),
        2 => bytes.insert(at, byte),
        3 => drop(bytes.remove(at)),
        4 => bytes.swap(at, at.saturating_sub(1)),
        _ => bytes.truncate(at),
    }
}

fn sound_settings(rng: &mut Rng) -> Settings {
    let length = 4 * rng.below(33);
    let hi = 4 * rng.below(length / 4 + 1);
    let lo = 4 * rng.below(hi / 4 + 1);
    let highest = 0u32.wrapping_sub(length.max(4));
    let between = 4 * rng.below(highest / 4);
    let base = rng.pick(&[0, between, highest]);
    Settings::new(base, length, lo, hi)
}

fn fifo(rng: &mut Rng, limit: usize) -> VecDeque<u32> {
    let count = match rng.below(4) {
        0 => 0,
        1 => limit,
        _ => rng.below(limit as u32 + 1) as usize,
    };
    (0..count).map(|_| rng.word()).collect()
}

fn pair(rng: &mut Rng) -> Pair {
    let held_by = rng.below(3);
    Pair {
        host: held_by == 1,
        local: held_by == 2,
    }
}

fn register(rng: &mut Rng, existing: u32) -> Register {
    Register {
        enables: rng.word() & existing,
        status: rng.word() & existing & !event::FOLLOWING,
    }
}

fn running(rng: &mut Rng, settings: &Settings) -> Running {
    let size = 4 + 4 * rng.below(8);
    let near = settings.base.saturating_add(4 * rng.below(36));
    let transfer = Transfer {
        direction: rng.below(2) as u8,
        shared: 4 * rng.below((SHARED_LENGTH - size) / 4 + 1),
        pci: near.min(u32::MAX - size + 1) & !3,
        size,
    };
    Running {
        transfer,
        moved: rng.below(transfer.dwords()),
    }
}

/// Replaces one part of a record by numbers that may not be sound.
fn spoil(card: &mut Card, rng: &mut Rng) {
    match rng.below(9) {
        0 => card.settings.base |= rng.below(4),
        1 => card.settings.hi = card.settings.length.wrapping_sub(4),
        2 => card.fifos[0].extend([1; 20]),
        3 => card.pairs[1].host = true,
        4 => card.mailboxes.hldata = rng.word(),
        5 => card.hint.status = rng.word() >> 22,
        6 => card.lint.enables = rng.word() >> 21,
        7 => card.fifos.truncate(3),
        _ => {
            card.running = Some(Running {
                transfer: Transfer::new(rng.below(3) as u8, rng.word() >> 17, rng.word(), 12),
                moved: rng.below(4),
            });
        }
    }
}
