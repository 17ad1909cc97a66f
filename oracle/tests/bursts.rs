//! Bursts (document 02, L10): worked cases, and laws on random records and bursts.

mod singles;
mod worlds;

use std::collections::BTreeSet;

use oracle::access::{kind, Access, Answer};
use oracle::arbitrary;
use oracle::bursts::refusal::{stopped_at, ORDER};
use oracle::bursts::{workload, Burst, Phase};
use oracle::call::{Call, Given};
use oracle::card::Card;
use oracle::narrow_bus;
use oracle::replay::bench;
use oracle::rng::Rng;
use oracle::world::World;
use singles::{next, single};
use worlds::world;

const ROUNDS: usize = 30_000;

const HOST: u8 = 0;
const LOCAL: u8 = 1;
const MODES: [u8; 3] = [0, 1, 3];

/// The last dword of shared memory.
const LAST: u32 = 4095;

fn phases(phases: &[(u32, u32)]) -> Vec<Phase> {
    let phase = |(pins, data): &(u32, u32)| Phase::new(*pins, *data);
    phases.iter().map(phase).collect()
}

// Worked cases, each from a fresh card with the replay's settings between zeroed memories

/// A card that is asked, and answers number, V and X.
struct Asked(World);

impl Asked {
    fn new() -> Asked {
        Asked(bench())
    }

    /// With these dwords of shared memory, from the first on.
    fn with(dwords: &[u32]) -> Asked {
        let mut asked = Asked::new();
        for (dword, at) in dwords.iter().zip((0..).step_by(4)) {
            asked.0.shared[at..at + 4].copy_from_slice(&dword.to_le_bytes());
        }
        asked
    }

    fn write(&mut self, mode: u8, start: u32, list: &[(u32, u32)]) -> [u32; 3] {
        let burst = Burst::new(LOCAL, mode, start, phases(list));
        self.0.burst_write(&burst).numbers()
    }

    fn read<const N: usize>(
        &mut self,
        mode: u8,
        start: u32,
        pins: &[u32],
        mut list: [u32; N],
    ) -> ([u32; 3], [u32; N]) {
        let phases = pins.iter().map(|pins| Phase::new(*pins, 0xFFFF_FFFF));
        let burst = Burst::new(LOCAL, mode, start, phases.collect());
        let answer = self.0.burst_read(&burst, &mut list);
        (answer.numbers(), list)
    }

    fn dword(&mut self, number: u32) -> u32 {
        let read = Access::new(kind::SHARED_READ, HOST, 0, 4 * number, 0, 0);
        self.0.access(read).v
    }
}

#[test]
fn v_of_a_phase_has_its_lanes_in_their_places() {
    let mut card = Asked::with(&[0x0403_0201]);
    assert_eq!(card.read(0, 0, &[0b0100], [9]), ([0, 1, 0], [0x0000_0200]));
    assert_eq!(card.read(1, 0, &[0b1000], [9]), ([0, 1, 0], [0x0403_0000]));
    assert_eq!(card.read(1, 0, &[0b1001], [9]), ([0, 1, 0], [0x0400_0000]));
    assert_eq!(card.read(3, 0, &[0b1010], [9]), ([0, 1, 0], [0x0003_0001]));
}

/// "A read list gets each phase's V; its other places stay."
#[test]
fn other_places_stay() {
    let mut card = Asked::with(&[0x0403_0201, 0x0807_0605]);
    let (answer, list) = card.read(3, 0, &[0, 0], [7, 8, 9, 10]);
    assert_eq!(
        (answer, list),
        ([0, 2, 0], [0x0403_0201, 0x0807_0605, 9, 10])
    );
}

/// "In mode 0 the dword address advances after a phase with BE[3:2] at 11", whatever came before,
/// and whatever BE[1:0] are.
#[test]
fn mode_0_advances_at_11() {
    let mut card = Asked::new();
    let list = [
        (0b0111, 0x22),
        (0b0001, 0x11),
        (0b1011, 0x33),
        (0b0100, 0x2A),
    ];
    assert_eq!(card.write(0, 0, &list), [0, 4, 0]);
    assert_eq!(
        card.write(0, 0, &[(0b1101, 0x44), (0b1110, 0x88)]),
        [0, 2, 0]
    );
    assert_eq!(
        [0, 1].map(|number| card.dword(number)),
        [0x4433_2A11, 0x8800_0000]
    );
}

/// "in mode 1 after a phase with BE[3] high"
#[test]
fn mode_1_advances_after_the_upper_half() {
    let mut card = Asked::new();
    let list = [
        (0b0000, 0x2211),
        (0b0110, 0xEEFF),
        (0b1001, 0x4400),
        (0b1000, 0x8877),
    ];
    assert_eq!(card.write(1, 0, &list), [0, 4, 0]);
    assert_eq!(
        [0, 1].map(|number| card.dword(number)),
        [0x4400_22FF, 0x8877_0000]
    );
}

/// "in mode 3 after each phase"
#[test]
fn mode_3_always_advances() {
    let mut card = Asked::new();
    let list = [(0b0000, 1), (0b1111, 2), (0b1110, 0xFFFF_FF03), (0b0111, 4)];
    assert_eq!(card.write(3, 0, &list), [0, 4, 0]);
    assert_eq!([0, 1, 2, 3].map(|number| card.dword(number)), [1, 0, 3, 0]);
}

/// "A burst may begin in the middle of a dword."
#[test]
fn a_burst_may_begin_at_any_lane() {
    for lane in 0..4 {
        let mut card = Asked::new();
        let bytes = (lane..12).map(|at| (at % 4 * 4, at + 1));
        let list: Vec<(u32, u32)> = bytes.collect();
        assert_eq!(card.write(0, 5, &list), [0, 12 - lane, 0]);
        let whole: Vec<u8> = (0..12)
            .map(|at| if at < lane { 0 } else { at as u8 + 1 })
            .collect();
        assert_eq!(card.0.shared[20..32], whole);
        assert_eq!(card.0.shared[..20], [0; 20]);
        assert_eq!(card.0.shared[32..36], [0; 4]);
    }
}

/// A burst of no phases is done, whatever its start.
#[test]
fn no_phases_are_done() {
    let mut card = Asked::new();
    for mode in MODES {
        for start in [0, LAST, LAST + 1, 1 << 30, u32::MAX] {
            assert_eq!(card.write(mode, start, &[]), [0, 0, 0]);
            assert_eq!(card.read(mode, start, &[], [5]), ([0, 0, 0], [5]));
            assert_eq!(card.read(mode, start, &[], []), ([0, 0, 0], []));
        }
    }
    assert_eq!(card.0, bench());
}

/// "A phase past the last dword stops the burst": the first may be one, and 4 times its number is
/// not cut to 32 bits.
#[test]
fn a_start_past_the_last_dword_stops_at_once() {
    let mut card = Asked::new();
    for mode in MODES {
        for start in [LAST + 1, 1 << 30, (1 << 30) + 1, 1 << 31, u32::MAX] {
            for pins in [0b0000, 0b1100, 0b1111] {
                assert_eq!(card.write(mode, start, &[(pins, 7)]), [13, 0, 0]);
                assert_eq!(card.read(mode, start, &[pins], [5]), ([13, 0, 0], [5]));
            }
        }
    }
    assert_eq!(card.0, bench());
}

/// "the phases before it stand. V is the phases done, X 0."
#[test]
fn the_phases_before_an_overrun_stand() {
    let mut card = Asked::new();
    assert_eq!(
        card.write(3, LAST - 1, &[(0, 1), (0, 2), (0, 3)]),
        [13, 2, 0]
    );
    assert_eq!(
        [LAST - 1, LAST, 0].map(|number| card.dword(number)),
        [1, 2, 0]
    );
    assert_eq!(
        card.read(3, LAST - 1, &[0, 0, 0, 0], [6, 7, 8, 9]),
        ([13, 2, 0], [1, 2, 8, 9])
    );
    assert_eq!(card.write(0, LAST, &[(0b1100, 5), (0b0000, 6)]), [13, 1, 0]);
    assert_eq!(
        card.write(1, LAST, &[(0b0000, 7), (0b1011, 8), (0b0011, 9)]),
        [13, 2, 0]
    );
    assert_eq!(card.dword(LAST), 0x0500_0007);
}

/// An advance behind the last phase is no phase past the last dword.
#[test]
fn an_advance_behind_the_last_phase_is_no_overrun() {
    for mode in MODES {
        let mut card = Asked::new();
        assert_eq!(card.write(mode, LAST, &[(0b1100, 5)]), [0, 1, 0]);
        let (answer, _) = card.read(mode, LAST, &[0b1100], [0]);
        assert_eq!(answer, [0, 1, 0]);
    }
}

/// A phase without lanes reaches no byte, and is a phase like the others: it advances, and past the
/// last dword it stops the burst.
#[test]
fn phases_without_lanes() {
    for (mode, pins) in [(1, [0b1111, 0b1011, 0b1111]), (3, [0b1111; 3])] {
        let mut card = Asked::with(&[u32::MAX; 4]);
        let first = card.0.clone();
        let none = pins.map(|pins| (pins, 0));
        assert_eq!(card.write(mode, 0, &none), [0, 3, 0]);
        assert_eq!(card.read(mode, 0, &pins, [5; 3]), ([0, 3, 0], [0; 3]));
        assert_eq!(card.write(mode, LAST - 1, &none), [13, 2, 0]);
        assert_eq!(
            card.read(mode, LAST, &pins, [5; 3]),
            ([13, 1, 0], [0, 5, 5])
        );
        assert_eq!(card.0, first);
        let behind = [none[0], none[1], (0b1100, 0)];
        assert_eq!(card.write(mode, 0, &behind), [0, 3, 0]);
        let third = [0xFFFF_0000, 0x0000_FFFF][usize::from(mode == 1)];
        assert_eq!(
            [0, 1, 2].map(|number| card.dword(number)),
            [u32::MAX, u32::MAX, third]
        );
    }
    // in mode 1 one with BE[3] low stays where it is
    let mut card = Asked::new();
    assert_eq!(card.write(1, LAST, &[(0b0011, 0), (0b0111, 0)]), [0, 2, 0]);
}

/// "12 [..] more than 65,536 phases": so many are not too many.
#[test]
fn as_many_phases_as_there_may_be() {
    let mut world = bench();
    for (mode, pins) in [(0, 0b1011), (1, 0b0101)] {
        let mut burst = Burst::new(LOCAL, mode, 9, vec![Phase::new(pins, 0x1234); 65_536]);
        let mut list = vec![0; 65_536];
        assert_eq!(world.burst_write(&burst), Answer::done(65_536, 0));
        assert_eq!(world.burst_read(&burst, &mut list), Answer::done(65_536, 0));
        let v = [0x0034_0000, 0x0000_1200][usize::from(mode)];
        assert!(list.iter().all(|place| *place == v));
        burst.phases.push(Phase::new(pins, 0));
        assert_eq!(world.burst_write(&burst), Answer::refused(12));
        list.push(0);
        assert_eq!(world.burst_read(&burst, &mut list), Answer::refused(12));
    }
    let burst = Burst::new(LOCAL, 3, 0, vec![Phase::new(0, 5); 65_536]);
    let stopped = Answer {
        number: 13,
        v: 4096,
        x: 0,
    };
    assert_eq!(world.burst_write(&burst), stopped);
}

/// "in this order": the first that holds, and not the smallest.
#[test]
fn refusals_come_in_order() {
    let world = bench();
    let (right, wrong) = (phases(&[(0, 1), (0, 2)]), phases(&[(0, 1), (16, 2)]));
    for (side, mode, start, phases, places, number) in [
        (2, 2, 0, &wrong, 1, 2),
        (HOST, 2, 0, &wrong, 1, 5),
        (HOST, 0, 0, &wrong, 2, 5),
        (LOCAL, 2, 0, &wrong, 1, 12),
        (LOCAL, 4, 0, &right, 2, 12),
        (LOCAL, 255, 4096, &right, 2, 12),
        (LOCAL, 0, 0, &wrong, 1, 4),
        // behind the overrun, and a list too short for phases that are never reached
        (LOCAL, 3, 4095, &wrong, 2, 4),
        (LOCAL, 3, 4095, &right, 1, 14),
        (LOCAL, 3, 4096, &right, 0, 14),
        (LOCAL, 3, 4096, &right, 2, 13),
        (LOCAL, 3, 4094, &right, 2, 0),
    ] {
        let burst = Burst::new(side, mode, start, phases.clone());
        let mut list = vec![5; places];
        let answer = world.burst_read(&burst, &mut list);
        assert_eq!(answer.number, number, "{burst:?}");
        assert_eq!(world.burst_refusal(&burst, Some(places)), number);
        assert!(number == 0 || list == vec![5; places]);
        let number = if number == 14 { 13 } else { number };
        assert_eq!(world.clone().burst_write(&burst).number, number);
    }
}

/// A burst is no record of a trace: the kinds are the seventeen.
#[test]
fn a_burst_is_no_kind() {
    let mut world = bench();
    for kind in 17..=255 {
        let access = Access::new(kind, LOCAL, 0, 0, 0, 0);
        assert_eq!(world.access(access), Answer::refused(2));
    }
}

#[test]
fn bursts_are_shown_with_their_pins() {
    let burst = Burst::new(1, 0, 0, phases(&[(0b1000, 0x33), (0b1100, 0x44)]));
    let write = Call::BurstWrite(burst);
    assert_eq!(write.to_string(), "write 1 0 0 1000:0x33 1100:0x44");
    let burst = Burst::new(2, 255, 4095, phases(&[(1, 0), (16, u32::MAX)]));
    let read = Call::BurstRead(burst, vec![0; 7]);
    assert_eq!(
        read.to_string(),
        "read 2 255 4095 7 0001:0x0 10000:0xffffffff"
    );
    let none = Call::BurstWrite(Burst::new(1, 3, 5, Vec::new()));
    assert_eq!(none.to_string(), "write 1 3 5");
    let answer = Answer::done(2, 0);
    assert_eq!(Given::from(answer).to_string(), "0 2 0");
    let list = Some(vec![17, 0]);
    assert_eq!(Given { answer, list }.to_string(), "0 2 0 leaving 17 0");
}

/// The lesson: the same dword in four phases, in two and in one.
#[test]
fn narrow_buses_write_the_same_dword() {
    let shown: Vec<String> = narrow_bus()
        .into_iter()
        .map(|(call, given)| format!("{call} = {given}"))
        .collect();
    assert_eq!(
        shown,
        [
            "write 1 0 0 1000:0x33 1100:0x44 0000:0x11 0100:0x22 1000:0x33 1100:0x44 = 0 6 0",
            "1 1 0 0 0 0 = 0 1144193024 0",
            "1 1 0 4 0 0 = 0 1144201745 0",
            "write 1 1 2 1000:0x4433 0000:0x2211 1000:0x4433 = 0 3 0",
            "1 1 0 8 0 0 = 0 1144193024 0",
            "1 1 0 12 0 0 = 0 1144201745 0",
            "write 1 3 4 0011:0x44330000 0000:0x44332211 = 0 2 0",
            "1 1 0 16 0 0 = 0 1144193024 0",
            "1 1 0 20 0 0 = 0 1144201745 0",
            "read 1 0 1 4 0000:0x0 0100:0x0 1000:0x0 1100:0x0 = 0 4 0 leaving 17 8704 3342336 \
             1140850688",
            "read 1 3 1 1 0000:0x0 = 0 1 0 leaving 1144201745",
            "write 1 0 1 0000:0x0 = 0 1 0",
            "1 1 0 4 0 0 = 0 1144201728 0",
            "write 1 3 6 1111:0x55 0000:0x66 = 0 2 0",
            "1 1 0 24 0 0 = 0 0 0",
            "1 1 0 28 0 0 = 0 102 0",
            "write 1 3 4095 0000:0x77 0000:0x88 = 13 1 0",
            "1 1 0 16380 0 0 = 0 119 0",
        ]
    );
}

// Laws

/// A random burst, the numbers mostly in range: a call that writes or reads.
fn burst(rng: &mut Rng) -> Call {
    let mode = rng.pick(&[0, 1, 3]);
    let (near, word) = (rng.below(8), rng.word());
    let start = rng.pick(&[near, near, near, LAST - near, LAST + 1, 1 << 30, word]);
    let most = rng.pick(&[1, 3, 8, 24]);
    let mut phases: Vec<Phase> = (0..rng.below(most))
        .map(|_| Phase::new(rng.below(16), rng.word()))
        .collect();
    if rng.one_in(3) {
        // over the lanes in their order
        for (phase, at) in phases.iter_mut().zip(near..) {
            phase.pins = (at % 4 * 4) & [15, 8, 0, 0][usize::from(mode)];
        }
    }
    if rng.one_in(300) {
        let count = 65_535 + rng.below(3) as usize;
        phases = phases.iter().cycle().take(count).copied().collect();
    }
    if let (true, Some(phase)) = (rng.one_in(6), phases.last_mut()) {
        phase.pins = rng.pick(&[16, 31, 255, 256, word]);
    }
    let count = phases.len();
    let burst = Burst {
        side: rng.pick(&[LOCAL, LOCAL, LOCAL, LOCAL, LOCAL, LOCAL, HOST, 2, 255]),
        mode: rng.pick(&[mode, mode, mode, mode, mode, mode, 2, 4, 255]),
        start,
        phases,
    };
    if rng.one_in(2) {
        return Call::BurstWrite(burst);
    }
    let short = count.saturating_sub(1);
    let places = rng.pick(&[count, count, count + 1, count + 5, short]);
    Call::BurstRead(burst, (0..places).map(|_| rng.word()).collect())
}

/// A burst to a card with random memories.
fn drawn(rng: &mut Rng, card: fn(&mut Rng) -> Card) -> (World, Call) {
    let card = card(rng);
    let mut world = world(rng, card);
    // of the last dwords too
    world
        .shared
        .iter_mut()
        .rev()
        .take(64)
        .for_each(|byte| *byte = rng.byte());
    (world, burst(rng))
}

/// The burst, and the places of its list if it is a read.
fn parts(call: &Call) -> (&Burst, Option<&Vec<u32>>) {
    match call {
        Call::BurstWrite(burst) => (burst, None),
        Call::BurstRead(burst, list) => (burst, Some(list)),
        _ => unreachable!("only bursts are drawn"),
    }
}

/// A burst that is not refused, by its sentences alone: its phases as single accesses, one behind
/// the other, until one is past the last dword.
fn one_by_one(world: &mut World, call: &Call) -> Given {
    let (burst, lent) = parts(call);
    let kind = match lent {
        Some(_) => kind::SHARED_READ,
        None => kind::SHARED_WRITE,
    };
    let mut list = lent.cloned();
    let (mut dword, mut done, mut number) = (burst.start, 0, 0);
    for phase in &burst.phases {
        if dword > LAST {
            number = 13;
            break;
        }
        let answer = world.access(single(kind, burst.mode, dword, phase));
        assert_eq!((answer.number, answer.x), (0, 0));
        match &mut list {
            Some(list) => list[done] = answer.v,
            None => assert_eq!(answer.v, 0),
        }
        dword = next(burst.mode, dword, phase);
        done += 1;
    }
    let v = done as u32;
    let answer = Answer { number, v, x: 0 };
    Given { answer, list }
}

/// "It equals the single accesses done one by one; show this once over all three modes." The record
/// never changes.
#[test]
fn a_burst_is_its_single_accesses() {
    let mut rng = Rng::new(61);
    let mut seen = BTreeSet::new();
    let (mut done, mut phases) = (0, 0);
    for _ in 0..ROUNDS {
        let (mut world, call) = drawn(&mut rng, arbitrary::sound_card);
        let mut other = world.clone();
        let (burst, lent) = parts(&call);
        let card = world.card.clone();
        let given = world.call(&call);
        assert_eq!(world.card, card);
        let Answer { number, v, .. } = given.answer;
        if number != 0 && number != 13 {
            continue;
        }
        assert_eq!(given, one_by_one(&mut other, &call), "{call}");
        assert_eq!(world, other, "{call}");
        seen.insert((burst.mode, lent.is_some(), number, v > 0));
        done += 1;
        phases += v;
    }
    println!("{done} bursts, {phases} single accesses");
    assert_eq!(seen.len(), 3 * 2 * 2 * 2);
    assert!(done > 10_000);
}

/// "all changing nothing", the list included, "13 the overrun, which amends rule 1 and keeps that V".
#[test]
fn a_refusal_changes_nothing() {
    let mut rng = Rng::new(62);
    let mut refused = [0; 15];
    for _ in 0..ROUNDS {
        let (before, call) = drawn(&mut rng, arbitrary::card);
        let mut after = before.clone();
        let given = after.call(&call);
        let number = given.answer.number;
        refused[usize::from(number)] += 1;
        let (burst, lent) = parts(&call);
        assert!(lent.is_some() || number != 14, "{call}");
        assert_eq!(given.answer.x, 0);
        match number {
            0 => assert_eq!(given.answer.v as usize, burst.phases.len()),
            13 => assert_eq!(Some(given.answer.v as usize), stopped_at(burst)),
            _ => {
                assert_eq!(given.answer, Answer::refused(number));
                assert_eq!(given.list.as_ref(), lent);
                assert_eq!(after, before, "{call}");
            }
        }
    }
    for (number, count) in refused.into_iter().enumerate() {
        let arises = number == 0 || ORDER.contains(&(number as u8));
        assert_eq!(count > 0, arises, "{number}: {count}");
    }
}

/// The causes are written beside the bursts, which do not use them. Every two that can hold at once
/// are met: all but "2 side > 1" and "5 side 0".
#[test]
fn a_refusal_is_given_exactly_when_its_cause_is_the_first() {
    let mut rng = Rng::new(63);
    let mut pairs = BTreeSet::new();
    for _ in 0..ROUNDS {
        let (mut world, call) = drawn(&mut rng, arbitrary::card);
        let (burst, lent) = parts(&call);
        let places = lent.map(Vec::len);
        let holds = |number: &u8| world.burst_cause(*number, burst, places);
        let causes: Vec<u8> = ORDER.into_iter().filter(holds).collect();
        assert_eq!(
            world.burst_refusal(burst, places),
            causes.first().copied().unwrap_or(0)
        );
        let number = world.call(&call).answer.number;
        assert_eq!(number, causes.first().copied().unwrap_or(0), "{call}");
        pairs.extend(causes.iter().skip(1).map(|also| (number, *also)));
    }
    let before = |at: usize| ORDER[at + 1..].iter().map(move |also| (ORDER[at], *also));
    let mut all: BTreeSet<(u8, u8)> = (0..ORDER.len()).flat_map(before).collect();
    assert!(all.remove(&(2, 5)));
    assert_eq!(pairs, all);
}

/// What a read gives does not depend on the data of its phases, nor on the other lanes.
#[test]
fn data_of_a_read_do_not_count() {
    let mut rng = Rng::new(64);
    for _ in 0..ROUNDS / 10 {
        let (mut world, call) = drawn(&mut rng, arbitrary::sound_card);
        let mut other = call.clone();
        if let Call::BurstRead(burst, _) = &mut other {
            burst
                .phases
                .iter_mut()
                .for_each(|phase| phase.data = rng.word());
        } else {
            continue;
        }
        assert_eq!(world.call(&call), world.call(&other), "{call}");
    }
}

/// What is written is read back in the same phases, as far as no phase writes over another.
#[test]
fn what_was_written_is_read_back() {
    let mut rng = Rng::new(65);
    for _ in 0..ROUNDS / 10 {
        let mut world = World::zeroed(arbitrary::sound_card(&mut rng));
        let mode = rng.pick(&MODES);
        let (lane, count) = (rng.below(4), 1 + rng.below(20));
        let pins = |i: u32| match mode {
            0 => (lane + i) % 4 * 4,
            1 => (lane + i) % 2 * 8,
            _ => 0,
        };
        let list: Vec<(u32, u32)> = (0..count).map(|i| (pins(i), rng.word())).collect();
        let burst = Burst::new(LOCAL, mode, rng.below(4000), phases(&list));
        assert_eq!(world.burst_write(&burst), Answer::done(count, 0));
        let mut read = vec![0; list.len()];
        assert_eq!(world.burst_read(&burst, &mut read), Answer::done(count, 0));
        for ((pins, data), v) in list.into_iter().zip(read) {
            let carried = match mode {
                0 => (data & 0xFF) << (pins / 4 * 8),
                1 => (data & 0xFFFF) << (pins / 8 * 16),
                _ => data,
            };
            assert_eq!(v, carried);
        }
    }
}

/// What is read is what was written, so that the data alone give the sum.
#[test]
fn the_bench_sums_up_what_it_writes() {
    let mut data: Vec<u32> = (0..4096)
        .map(|i: u32| i.wrapping_mul(2_654_435_761))
        .collect();
    let mut sum: u32 = 0;
    for round in 0..5000 {
        if [0, 1, 2, 100, 4097].contains(&round) {
            assert_eq!(workload::sum(round), sum, "{round}");
        }
        let place = round % 4096;
        sum = sum.wrapping_mul(16_777_619).wrapping_add(data[place]);
        data[place] = sum;
    }
    assert_eq!(workload::sum(5000), sum);
}
