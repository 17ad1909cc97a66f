//! Laws of document 01, and of document 02, L2, on random records and accesses.

mod worlds;

use std::collections::BTreeSet;

use oracle::access::{kind, Access, Answer};
use oracle::arbitrary;
use oracle::card::Card;
use oracle::dword::{lane_bits, NO_LANES};
use oracle::pins::decode;
use oracle::replay::bench;
use oracle::rng::Rng;
use oracle::source::{source, Memory, Part};
use oracle::transfer::Transfer;
use oracle::world::World;
use worlds::world;

const ROUNDS: usize = 20_000;

/// A random access, the fields mostly small or near the window.
fn access(rng: &mut Rng, card: &Card) -> Access {
    let near = card.settings.base.wrapping_add(4 * rng.below(36));
    Access {
        kind: rng.below(19) as u8,
        side: rng.below(9) as u8 / 4,
        s: rng.pick(&[0, 0, 1, 2, 3, 4, 15, 16]),
        a: field(rng, near),
        b: field(rng, near),
        c: field(rng, near),
    }
}

fn field(rng: &mut Rng, near: u32) -> u32 {
    let word = rng.word();
    rng.pick(&[0, 0, 0, 0, 4, 8, 16_380, 16_384, near, word])
}

/// A card that is drawn with its memories, and an access to it.
fn drawn(rng: &mut Rng, card: fn(&mut Rng) -> Card) -> (World, Access) {
    let card = card(rng);
    let world = world(rng, card);
    let access = access(rng, &world.card);
    (world, access)
}

#[test]
fn a_refusal_changes_nothing() {
    let mut rng = Rng::new(1);
    let mut refused = [0; 11];
    for _ in 0..ROUNDS {
        let (before, access) = drawn(&mut rng, arbitrary::card);
        let mut after = before.clone();
        let answer = after.access(access);
        refused[usize::from(answer.number)] += 1;
        if answer.number != 0 {
            assert_eq!(answer, Answer::refused(answer.number));
            assert_eq!(after, before, "{access:?}");
        }
    }
    assert!(refused.iter().all(|count| *count > 0), "{refused:?}");
}

#[test]
fn a_refusal_is_given_exactly_when_its_cause_is_the_first() {
    let mut rng = Rng::new(2);
    for _ in 0..ROUNDS {
        let (before, access) = drawn(&mut rng, arbitrary::card);
        let first = (1..=10).find(|number| before.cause(*number, &access));
        let answer = before.clone().access(access);
        assert_eq!(answer.number, first.unwrap_or(0), "{access:?}");
    }
}

#[test]
fn a_sound_record_stays_sound() {
    let mut rng = Rng::new(3);
    for _ in 0..ROUNDS {
        let (mut world, access) = drawn(&mut rng, arbitrary::sound_card);
        assert!(world.card.sound());
        world.access(access);
        assert!(world.card.sound(), "{access:?}");
    }
}

#[test]
fn a_line_is_active_when_status_meets_enable() {
    let mut rng = Rng::new(4);
    for _ in 0..1000 {
        let mut world = World::zeroed(arbitrary::sound_card(&mut rng));
        for side in [0, 1] {
            let mut plain = |kind| world.access(Access::new(kind, side, 0, 0, 0, 0)).v;
            let register = plain(kind::INTERRUPT_READ);
            let line = plain(kind::LINE);
            assert_eq!(line, u32::from(register >> 16 & register & 0x3FF != 0));
        }
    }
}

#[test]
fn a_transfer_moves_its_source_within_its_steps() {
    let mut rng = Rng::new(5);
    for _ in 0..1000 {
        let mut world = World::zeroed(arbitrary::sound_card(&mut rng));
        world.card.running = None;
        world.shared.fill_with(|| rng.byte());
        world.window.fill_with(|| rng.byte());
        let settings = world.card.settings;
        let size = 4 + 4 * rng.below(8);
        let pci = settings.base.wrapping_add(4 * rng.below(36));
        let (direction, shared) = (rng.below(2) as u8, 4 * rng.below(4000));
        let transfer = Transfer::new(direction, shared, pci, size);
        let part = source(settings, &world.shared, &world.window, transfer);
        let expected = part.of(&world.shared, &world.window).to_vec();
        let start = Access::new(kind::START, 0, direction, shared, pci, size);
        if world.access(start) != Answer::done(size / 4, 0) {
            assert_eq!(part, Part::REFUSED);
            continue;
        }
        let mut last = 1;
        let mut moved = 0;
        for step in 0..size / 4 {
            let side = (step % 2) as u8;
            let answer = world.access(Access::new(kind::STEP, side, 0, 0, 0, 0));
            assert_eq!(answer.number, 0);
            last = answer.v;
            moved = answer.x;
            if last != 1 {
                break;
            }
        }
        assert_ne!(last, 1);
        assert_eq!(world.card.running, None);
        if last == 2 {
            assert_eq!(moved, size / 4);
            let offset = (pci - settings.base) as usize;
            let in_window = &world.window[offset..offset + size as usize];
            let in_shared = &world.shared[shared as usize..(shared + size) as usize];
            assert_eq!(in_window, in_shared);
            assert_eq!(in_window, expected);
            assert_eq!(part.memory == Memory::Shared, direction == 1);
        }
    }
}

#[test]
fn accepted_puts_are_takes_and_entries_held() {
    let mut rng = Rng::new(6);
    let mut world = World::zeroed(arbitrary::sound_card(&mut rng));
    world.card.reset();
    let mut put = vec![Vec::new(); 4];
    let mut taken = vec![Vec::new(); 4];
    for _ in 0..ROUNDS {
        let fifo = rng.below(4) as u8;
        let entry = rng.word();
        let access = if rng.one_in(2) {
            Access::new(kind::PUT, rng.below(2) as u8, fifo, 0, entry, 0)
        } else {
            Access::new(kind::TAKE, rng.below(2) as u8, fifo, 0, 0, 0)
        };
        let answer = world.access(access);
        if answer.number == 0 && answer.x != 0 {
            if access.kind == kind::PUT {
                put[usize::from(fifo)].push(entry);
            } else {
                taken[usize::from(fifo)].push(answer.v);
            }
        }
    }
    for ((put, taken), held) in put.iter().zip(taken).zip(&world.card.fifos) {
        let out: Vec<u32> = taken.into_iter().chain(held.iter().copied()).collect();
        assert_eq!(*put, out);
    }
}

/// "V of a put is the number of entries held after it, 1 to 32; a lost put answers V 32, X 0. A
/// take answers in X the entries held before it, so X 0 still means empty". The entries held are
/// counted by the answers alone: the accepted puts of a FIFO since the last done reset, less its
/// successful takes.
#[test]
fn puts_and_takes_tell_how_full_a_fifo_is() {
    let mut rng = Rng::new(9);
    let mut world = bench();
    let mut held = [0; 4];
    let mut told = BTreeSet::new();
    for round in 0..ROUNDS {
        let access = fifo_list_access(&mut rng, &world.card, round / 2000 % 2 == 0);
        let answer = world.access(access);
        if answer.number != 0 {
            continue;
        }
        let fifo = usize::from(access.s);
        let succeeded = u32::from(answer.x != 0);
        match access.kind {
            kind::RESET => held = [0; 4],
            kind::PUT => {
                let room = u32::from(held[fifo] < 32);
                held[fifo] += succeeded;
                assert_eq!(answer, Answer::done(held[fifo], room));
                told.insert((kind::PUT, succeeded, answer.v));
            }
            kind::TAKE => {
                assert_eq!(answer.x, held[fifo]);
                assert!(answer.x != 0 || answer.v == u32::MAX);
                held[fifo] -= succeeded;
                told.insert((kind::TAKE, succeeded, answer.x));
            }
            _ => (),
        }
    }
    let mut every = BTreeSet::from([(kind::PUT, 0, 32), (kind::TAKE, 0, 0)]);
    for kind in [kind::PUT, kind::TAKE] {
        every.extend((1..=32).map(|held| (kind, 1, held)));
    }
    assert_eq!(told, every);
}

/// A put or a take, by either side; now and then a reset, one in two of them refused, or anything.
/// Two in three are puts while the FIFOs fill, and takes while they do not.
fn fifo_list_access(rng: &mut Rng, card: &Card, filling: bool) -> Access {
    if rng.one_in(4) {
        return access(rng, card);
    }
    let (side, s) = (rng.below(2) as u8, rng.below(4) as u8);
    if rng.one_in(1000) {
        return Access::new(kind::RESET, side, s / 2, 0, 0, 0);
    }
    if rng.one_in(3) == filling {
        Access::new(kind::TAKE, side, s, 0, 0, 0)
    } else {
        Access::new(kind::PUT, side, s, 0, rng.word(), 0)
    }
}

#[test]
fn a_write_reaches_its_lanes_alone() {
    let mut rng = Rng::new(7);
    let mut world = World::zeroed(arbitrary::sound_card(&mut rng));
    world.shared.fill_with(|| rng.byte());
    for _ in 0..1000 {
        let (a, value) = (4 * rng.below(4096), rng.word());
        let written = rng.below(16) as u8;
        let read = rng.below(16) as u8;
        let shared_read = |world: &mut World, lanes| {
            let read = Access::new(kind::SHARED_READ, 0, lanes, a, 0, 0);
            world.access(read).v
        };
        let old = shared_read(&mut world, 0);
        world.access(Access::new(kind::SHARED_WRITE, 1, written, a, value, 0));
        let bits = lane_bits(written);
        let expected = (value & bits | old & !bits) & lane_bits(read);
        assert_eq!(shared_read(&mut world, read), expected);
    }
}

#[test]
fn decoded_dwords_have_bits_in_their_lanes_alone() {
    for mode in 0..=255 {
        for pins in 0..=255 {
            let decoded = decode(mode, pins, 0xFFFF_FFFF);
            assert_eq!(decoded.dword, lane_bits(decoded.lanes));
            let refused = mode > 3 || pins > 15;
            assert_eq!(decoded.number, if refused { 4 } else { 0 });
            assert!(!refused || decoded.lanes == NO_LANES);
        }
    }
}
