//! Register accesses (document 02, L4): worked cases, and laws on random records and register
//! accesses.

mod worlds;

use oracle::access::{kind, Access, Answer};
use oracle::arbitrary;
use oracle::card::{Card, Pair};
use oracle::registers::map::{offset, resource, DMA_REGISTERS, REGISTERS};
use oracle::registers::refusal::ORDER;
use oracle::registers::{RegisterAccess, READ, WRITE};
use oracle::replay::bench;
use oracle::rng::Rng;
use oracle::world::World;
use worlds::world;

const ROUNDS: usize = 30_000;

const HOST: u8 = 0;
const LOCAL: u8 = 1;

// Worked cases, each from a fresh card with the replay's settings

/// A card that is asked, and answers number, V and X.
struct Asked(World);

impl Asked {
    fn new() -> Asked {
        Asked(bench())
    }

    fn register(&mut self, side: u8, offset: u32, direction: u8, dword: u32) -> [u32; 3] {
        let access = RegisterAccess::new(side, offset, direction, dword);
        self.0.register_access(access).numbers()
    }

    fn read(&mut self, side: u8, offset: u32) -> [u32; 3] {
        self.register(side, offset, READ, 0)
    }

    fn write(&mut self, side: u8, offset: u32, dword: u32) -> [u32; 3] {
        self.register(side, offset, WRITE, dword)
    }

    fn direct(&mut self, kind: u8) -> [u32; 3] {
        self.0.access(Access::new(kind, HOST, 0, 0, 0, 0)).numbers()
    }

    /// V of the four DMA registers.
    fn dma(&mut self) -> [u32; 4] {
        DMA_REGISTERS.map(|offset| {
            let [number, v, x] = self.read(HOST, offset);
            assert_eq!((number, x), (0, 0));
            v
        })
    }
}

#[test]
fn a_transfer_is_programmed_and_started() {
    let mut card = Asked::new();
    assert_eq!(card.write(HOST, 0x04B0, 4), [0, 0, 0]);
    assert_eq!(card.write(HOST, 0x04B4, 0x1000_0000), [0, 0, 0]);
    assert_eq!(card.write(LOCAL, 0x04B8, 8), [0, 0, 0]);
    assert_eq!(card.write(HOST, 0x04BC, 0x100), [0, 2, 0]);
    assert_eq!(card.write(HOST, 0x04BC, 0), [6, 0, 0]);
    assert_eq!(card.direct(kind::STEP), [0, 1, 1]);
    assert_eq!(card.direct(kind::STEP), [0, 2, 2]);
    assert_eq!(card.dma(), [4, 0x1000_0000, 8, 0x100]);
    assert_eq!(card.direct(kind::RESET), [0, 0, 0]);
    assert_eq!(card.dma(), [0, 0, 0, 0]);
}

#[test]
fn starts_are_refused() {
    let mut card = Asked::new();
    assert_eq!(card.write(HOST, 0x04BC, 1), [7, 0, 0]);
    assert_eq!(card.write(HOST, 0x04B8, 16_384), [0, 0, 0]);
    assert_eq!(card.read(HOST, 0x04B8), [0, 0, 0]);
    assert_eq!(card.write(HOST, 0x04BC, 1), [7, 0, 0]);
    assert_eq!(card.write(HOST, 0x04B8, 11), [0, 0, 0]);
    assert_eq!(card.read(HOST, 0x04B8), [0, 8, 0]);
    assert_eq!(card.write(HOST, 0x04B0, 0xFFFF_FFFF), [0, 0, 0]);
    assert_eq!(card.read(HOST, 0x04B0), [0, 16_380, 0]);
    assert_eq!(card.write(HOST, 0x04BC, 1), [9, 0, 0]);
    assert_eq!(card.read(HOST, 0x04BC), [0, 0, 0]);
}

#[test]
fn a_write_claims_and_releases() {
    let mut card = Asked::new();
    assert_eq!(card.write(HOST, 0x04C0, 0x0101_0101), [0, 0x0101_0101, 0]);
    assert_eq!(card.write(LOCAL, 0x04C0, 0x02), [0, 0, 0]);
    assert_eq!(card.read(LOCAL, 0x04C0), [0, 0x0101_0101, 0]);
    assert_eq!(card.write(HOST, 0x04C0, 0x0100_0000), [0, 0x0100_0000, 0]);
    assert_eq!(card.write(LOCAL, 0x04C0, 0xFFFF_FFFF), [0, 0x0002_0202, 0]);
    assert_eq!(card.read(HOST, 0x04C0), [0, 0x0102_0202, 0]);
}

#[test]
fn mailboxes_interrupt_registers_and_ports() {
    let mut card = Asked::new();
    assert_eq!(card.write(LOCAL, 0x04F8, 0x0100_0017), [0, 0, 0]);
    assert_eq!(card.read(HOST, 0x04F8), [0, 23, 24]);
    assert_eq!(card.read(LOCAL, 0x04F8), [0, 23, 0]);
    assert_eq!(card.read(HOST, 0x04E4), [0, 8, 0]);
    assert_eq!(card.read(LOCAL, 0x04E4), [0, 8, 0]);
    assert_eq!(card.write(LOCAL, 0x04E4, 0), [5, 0, 0]);
    assert_eq!(card.read(LOCAL, 0x0040), [5, 0, 0]);
    assert_eq!(card.read(HOST, 0x0048), [5, 0, 0]);
}

#[test]
fn refusals_come_in_order() {
    let mut card = Asked::new();
    for (side, offset, direction, dword, number) in [
        (2, 0x0041, READ, 1, 2),
        (HOST, 0x0041, READ, 1, 11),
        (HOST, 0x0030, READ, 0, 11),
        (HOST, 0x8000, READ, 0, 11),
        (HOST, 0x04BC, READ, 1, 3),
        (LOCAL, 0x0040, READ, 1, 3),
        (LOCAL, 0x0040, 2, 0, 4),
        (HOST, 0x0041, 2, 0, 11),
    ] {
        let answer = card.register(side, offset, direction, dword);
        assert_eq!(answer, [number, 0, 0], "{offset:#06x}");
    }
    assert_eq!(card.0, bench());
}

#[test]
fn thirteen_registers_and_shared_memory_are_modelled() {
    let modelled = |offset: &u32| resource(*offset).is_some();
    let registers: Vec<u32> = (0..0x4000).filter(modelled).collect();
    assert_eq!(registers, REGISTERS);
    let shared: Vec<u32> = (0x4000..0x2_0000).filter(modelled).collect();
    assert!(shared.into_iter().eq((0x4000..0x8000).step_by(4)));
}

// Laws

/// A random register access, the numbers mostly in range.
fn register_access(rng: &mut Rng) -> RegisterAccess {
    let register = rng.pick(&REGISTERS);
    let shared = offset::SHARED + 4 * rng.below(5000);
    let (near, word, bit) = (4 * rng.below(512), rng.word(), 1 << rng.below(32));
    let offset = rng.pick(&[
        register,
        register,
        register,
        offset::DMACTL,
        offset::DMACTL,
        shared,
        near,
        register ^ bit,
        word,
    ]);
    RegisterAccess {
        side: rng.below(9) as u8 / 4,
        offset,
        direction: rng.pick(&[READ, READ, READ, WRITE, WRITE, WRITE, WRITE, 2, 255]),
        dword: rng.pick(&[0, 0, 0, 1, bit, word]),
    }
}

/// DMA registers of any bits, or such that a start may be done.
fn programmed(rng: &mut Rng, mut card: Card) -> Card {
    card.dma = arbitrary::dma(rng);
    if rng.one_in(2) {
        card.dma.shared &= 0xFFFF_C03F;
        card.dma.size &= 0xFFFF_C01F;
    }
    if rng.one_in(4) {
        card.dma.pci |= 0xFFFF_FFE0;
    }
    card
}

fn drawn(rng: &mut Rng, card: fn(&mut Rng) -> Card) -> (World, RegisterAccess) {
    let card = card(rng);
    let card = programmed(rng, card);
    (world(rng, card), register_access(rng))
}

#[test]
fn a_refusal_changes_nothing() {
    let mut rng = Rng::new(41);
    let mut given = [0; 12];
    for _ in 0..ROUNDS {
        let (before, access) = drawn(&mut rng, arbitrary::card);
        let mut after = before.clone();
        let answer = after.register_access(access);
        given[usize::from(answer.number)] += 1;
        if answer.number != 0 {
            assert_eq!(answer, Answer::refused(answer.number));
            assert_eq!(after, before, "{access:?}");
        }
    }
    for (number, count) in given.into_iter().enumerate() {
        let arises = number == 0 || ORDER.contains(&(number as u8));
        assert_eq!(count > 0, arises, "{number}: {count}");
    }
}

/// The causes are written beside the register access, which does not use them.
#[test]
fn a_refusal_is_given_exactly_when_its_cause_is_the_first() {
    let mut rng = Rng::new(42);
    for _ in 0..ROUNDS {
        let (mut world, access) = drawn(&mut rng, arbitrary::card);
        let first = world.register_refusal(&access);
        assert_eq!(world.register_access(access).number, first, "{access:?}");
    }
}

#[test]
fn a_sound_record_stays_sound() {
    let mut rng = Rng::new(43);
    for _ in 0..ROUNDS {
        let (mut world, access) = drawn(&mut rng, arbitrary::sound_card);
        assert!(world.card.sound());
        world.register_access(access);
        assert!(world.card.sound(), "{access:?}");
    }
}

/// "A read there that is no such access answers as the sheet says, changing nothing": all that a
/// read changes is the FIFO that it takes from.
#[test]
fn a_read_changes_nothing_but_a_fifo() {
    let mut rng = Rng::new(44);
    for _ in 0..ROUNDS {
        let (before, access) = drawn(&mut rng, arbitrary::sound_card);
        let access = RegisterAccess {
            direction: READ,
            ..access
        };
        let mut after = before.clone();
        after.register_access(access);
        if access.offset < 0x0400 {
            after.card.fifos = before.card.fifos.clone();
        }
        assert_eq!(after, before, "{access:?}");
    }
}

/// The DMA registers "survive a finished transfer"; and what is not a reset or a write at their
/// offsets leaves them.
#[test]
fn only_their_writes_and_a_reset_change_the_dma_registers() {
    let mut rng = Rng::new(45);
    let (mut steps, mut ended) = (0, 0);
    for round in 0..ROUNDS {
        let (mut world, access) = drawn(&mut rng, arbitrary::sound_card);
        let before = world.card.dma;
        let runs = world.card.running.is_some();
        if round % 2 == 0 {
            let step = Access::new(kind::STEP, rng.below(2) as u8, 0, 0, 0, 0);
            steps += usize::from(world.access(step).number == 0);
            ended += usize::from(runs && world.card.running.is_none());
        } else if !DMA_REGISTERS.contains(&access.offset) {
            world.register_access(access);
        }
        assert_eq!(world.card.dma, before);
    }
    assert!(steps > 1000 && ended > 100, "{steps} {ended}");
}

/// "a kind 14 given directly neither uses nor changes them", nor does any other kind but a reset.
#[test]
fn direct_accesses_do_not_know_the_dma_registers() {
    let mut rng = Rng::new(46);
    for _ in 0..ROUNDS {
        let (mut one, _) = drawn(&mut rng, arbitrary::sound_card);
        let mut other = one.clone();
        other.card.dma = arbitrary::dma(&mut rng);
        let kinds = kind::SHARED_READ..=kind::EXTERNAL_PIN;
        let kind = rng.pick(&kinds.collect::<Vec<u8>>());
        let size = 4 * rng.below(9);
        let access = match kind {
            kind::START => Access::new(kind, HOST, rng.below(2) as u8, 4, 8, size),
            kind::PUT | kind::MAILBOX_WRITE | kind::INTERRUPT_WRITE => {
                Access::new(kind, rng.below(2) as u8, 0, 0, rng.word(), 0)
            }
            _ => Access::new(kind, rng.below(2) as u8, 0, 0, 0, 0),
        };
        let (dma, other_dma) = (one.card.dma, other.card.dma);
        assert_eq!(one.access(access), other.access(access));
        assert_eq!((one.card.dma, other.card.dma), (dma, other_dma));
        other.card.dma = dma;
        assert_eq!(one, other, "{access:?}");
    }
}

/// One write does what four claims and releases do.
#[test]
fn a_write_of_arbutil_is_four_accesses() {
    let mut rng = Rng::new(47);
    for _ in 0..ROUNDS / 10 {
        let mut one = World::zeroed(arbitrary::sound_card(&mut rng));
        let mut four = one.clone();
        let (side, dword) = (rng.below(2) as u8, rng.word());
        let mut v = 0;
        for pair in 0..4 {
            let shift = 8 * u32::from(pair) + u32::from(side);
            let kind = if dword >> shift & 1 == 1 {
                kind::CLAIM
            } else {
                kind::RELEASE
            };
            v += four.access(Access::new(kind, side, pair, 0, 0, 0)).v << shift;
        }
        let write = RegisterAccess::write(side, offset::ARBUTIL, dword);
        assert_eq!(one.register_access(write), Answer::done(v, 0));
        assert_eq!(one, four);
    }
}

/// "Writing to this bit by the PCI bus updates the value if and only if the L bit is not set to '1'.
/// A write to this bit from the local processor never updates this bit", and the same of L.
fn owned(before: Pair, side: u8, dword: u32) -> Pair {
    let by_host = side == HOST && !before.local;
    let by_local = side == LOCAL && !before.host;
    let bit = |at: u32| dword >> at & 1 == 1;
    Pair {
        host: if by_host { bit(8) } else { before.host },
        local: if by_local { bit(9) } else { before.local },
    }
}

/// A start by DMACTL is a start of what the registers show, and stores no more than DMACTL's bits.
#[test]
fn a_write_of_dmactl_is_a_start() {
    let mut rng = Rng::new(48);
    let mut done = 0;
    for _ in 0..ROUNDS / 10 {
        let (mut one, access) = drawn(&mut rng, arbitrary::sound_card);
        one.shared.resize(16_384, 0);
        one.window.resize(one.card.settings.length as usize, 0);
        let side = access.side % 2;
        let mut start = one.clone();
        let write = RegisterAccess::write(side, offset::DMACTL, access.dword);
        let transfer = one.programmed(&write);
        let [direction, shared, pci, size] = transfer.numbers();
        let direct = Access::new(kind::START, side, direction as u8, shared, pci, size);
        let answer = one.register_access(write);
        assert_eq!(answer, start.access(direct));
        if answer.number == 0 {
            done += 1;
            let control = one.register_access(RegisterAccess::read(side, offset::DMACTL));
            assert_eq!(control.v & 3, access.dword & 3);
            let before = start.card.dma.owner;
            assert_eq!(one.card.dma.owner, owned(before, side, access.dword));
            one.card.dma.owner = before;
            one.card.dma.inhibit = start.card.dma.inhibit;
            one.card.dma.outward = start.card.dma.outward;
        }
        assert_eq!(one, start);
    }
    assert!(done > 200, "{done}");
}
