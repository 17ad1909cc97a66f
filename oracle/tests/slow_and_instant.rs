//! Rule 3 over lists of calls: "a slow transfer and an instant one are the same transfer". In the
//! premise "any access to a DMA register counts as a start; a transfer's own start is only the one
//! that starts it" (document 02, L4). "For demand 3 a burst counts as its single accesses, also where
//! 13 stops it" (L10): it keeps its place and its whole answer, the list included.

mod singles;

use std::collections::BTreeSet;
use std::ops::Range;

use oracle::access::{kind, Access, Answer};
use oracle::bursts::{Burst, Phase};
use oracle::call::{Call, Given};
use oracle::card::fresh;
use oracle::dword::lane_bits;
use oracle::registers::map::{offset, DMA_REGISTERS};
use oracle::registers::{RegisterAccess, READ, WRITE};
use oracle::rng::Rng;
use oracle::settings::Settings;
use oracle::transfer::Transfer;
use oracle::world::World;
use singles::{next, single};

const ROUNDS: usize = 20_000;

const HOST: u8 = 0;
const LOCAL: u8 = 1;

const SETTINGS: Settings = Settings::new(0x1000, 64, 40, 48);

// What a call is to the transfers

/// What the definition's run notes beside an answer: the transfer that a write of DMACTL starts
/// stands in the record and not in the call.
#[derive(Clone, Copy, Debug, PartialEq, Eq)]
enum Note {
    Nothing,
    Reset,
    Start(Transfer),
    Step,
}

/// A call with what it got.
#[derive(Clone, Debug, PartialEq, Eq)]
struct Entry {
    call: Call,
    given: Given,
    note: Note,
}

fn perform(world: &mut World, call: Call) -> Entry {
    let before = world.clone();
    let given = world.call(&call);
    let note = match &call {
        _ if given.answer.number != 0 => Note::Nothing,
        Call::Direct(access) => match access.kind {
            kind::RESET => Note::Reset,
            kind::START => Note::Start(access.transfer()),
            kind::STEP => Note::Step,
            _ => Note::Nothing,
        },
        Call::Register(access) if is_dmactl_write(access) => Note::Start(before.programmed(access)),
        Call::Register(_) | Call::BurstWrite(_) | Call::BurstRead(..) => Note::Nothing,
    };
    Entry { call, given, note }
}

fn is_dmactl_write(access: &RegisterAccess) -> bool {
    access.offset == offset::DMACTL && access.direction == WRITE
}

/// The calls in order, "each access gets what the one before it left", and the last world.
fn run(first: &World, calls: impl IntoIterator<Item = Call>) -> (Vec<Entry>, World) {
    let mut world = first.clone();
    let entries = calls.into_iter().map(|call| perform(&mut world, call));
    (entries.collect(), world)
}

/// A transfer in a list: where it was started, and its done steps.
struct Moved {
    transfer: Transfer,
    start: usize,
    steps: Vec<usize>,
    ended: bool,
}

/// "Of the starts done since the last done reset, a done step belongs to the earliest that has no
/// step yet with V 2, 3 or 4."
fn transfers(entries: &[Entry]) -> Vec<Moved> {
    let mut transfers: Vec<Moved> = Vec::new();
    let mut since_reset = 0;
    for (at, entry) in entries.iter().enumerate() {
        match entry.note {
            Note::Nothing => (),
            Note::Reset => since_reset = transfers.len(),
            Note::Start(transfer) => transfers.push(Moved {
                transfer,
                start: at,
                steps: Vec::new(),
                ended: false,
            }),
            Note::Step => {
                let mut running = transfers[since_reset..].iter_mut();
                let earliest = running.find(|transfer| !transfer.ended);
                let owner = earliest.expect("a done step belongs to a start");
                owner.steps.push(at);
                owner.ended = entry.given.answer.v >= 2;
            }
        }
    }
    transfers
}

/// "move each transfer's done steps, in their order, to stand directly after its start; the rest
/// keeps its order": where each entry now stands, by its place before.
fn instant(entries: &[Entry]) -> Vec<usize> {
    let transfers = transfers(entries);
    let steps: BTreeSet<usize> = transfers.iter().flat_map(|t| t.steps.clone()).collect();
    let mut order = Vec::new();
    for at in 0..entries.len() {
        if steps.contains(&at) {
            continue;
        }
        order.push(at);
        let own = transfers.iter().filter(|transfer| transfer.start == at);
        order.extend(own.flat_map(|transfer| transfer.steps.clone()));
    }
    order
}

// The premise

/// What a call in a transfer's span breaks.
#[derive(Clone, Copy, Debug, PartialEq, Eq, PartialOrd, Ord)]
enum Condition {
    Reset,
    Start,
    DmactlWrite,
    /// A read of a DMA register, or a write of a base or the size.
    DmaRegister,
    InterruptRead,
    InterruptWrite,
    /// A read of the other side's interrupt register.
    PlainInterruptRead,
    Line,
    SourceWrite,
    DestinationWrite,
    DestinationRead,
}

/// A part of one of the memories, by shared or PCI addresses.
#[derive(Clone, Copy, Debug, PartialEq, Eq)]
enum Memory {
    Shared,
    Window,
}

/// The bytes that a call reads or writes: of enabled lanes alone.
struct Bytes {
    memory: Memory,
    writes: bool,
    addresses: Vec<u64>,
}

/// The bytes of a done call, and of a burst that 13 stopped.
fn bytes(entry: &Entry) -> Option<Bytes> {
    let phases = entry.given.answer.v as usize;
    let (memory, writes, lanes, address) = match &entry.call {
        Call::Direct(access) => {
            let (memory, writes) = match access.kind {
                kind::SHARED_READ => (Memory::Shared, false),
                kind::SHARED_WRITE => (Memory::Shared, true),
                kind::WINDOW_READ => (Memory::Window, false),
                kind::WINDOW_WRITE => (Memory::Window, true),
                _ => return None,
            };
            (memory, writes, access.s, access.a)
        }
        Call::Register(access) => {
            let address = access.offset.checked_sub(offset::SHARED)?;
            (Memory::Shared, access.direction == WRITE, 0, address)
        }
        Call::BurstWrite(burst) => return Some(burst_bytes(burst, phases, true)),
        Call::BurstRead(burst, _) => return Some(burst_bytes(burst, phases, false)),
    };
    let enabled = |lane: &u64| lane_bits(lanes) >> (8 * lane) & 0xFF != 0;
    let addresses = (0..4).filter(enabled).map(|lane| u64::from(address) + lane);
    Some(Bytes {
        memory,
        writes,
        addresses: addresses.collect(),
    })
}

/// The bytes of so many phases: those that their pins reach, counted without their lanes.
fn burst_bytes(burst: &Burst, phases: usize, writes: bool) -> Bytes {
    let mut addresses = Vec::new();
    let mut dword = burst.start;
    for phase in burst.phases.iter().take(phases) {
        let low = |pin: &u32| phase.pins >> pin & 1 == 0;
        let reached: Vec<u32> = match burst.mode {
            0 => vec![phase.pins / 4],
            1 => [0, 1]
                .into_iter()
                .filter(low)
                .map(|pin| phase.pins / 8 * 2 + pin)
                .collect(),
            _ => (0..4).filter(low).collect(),
        };
        addresses.extend(reached.into_iter().map(|byte| u64::from(4 * dword + byte)));
        dword = next(burst.mode, dword, phase);
    }
    Bytes {
        memory: Memory::Shared,
        writes,
        addresses,
    }
}

/// "a burst counts as its single accesses": those of the phases done, in the place of each burst. One
/// that is refused otherwise has done none, and is no access.
fn flat(entries: &[Entry]) -> Vec<Call> {
    let accesses = |entry: &Entry| match &entry.call {
        Call::BurstWrite(burst) => singles(kind::SHARED_WRITE, burst, &entry.given.answer),
        Call::BurstRead(burst, _) => singles(kind::SHARED_READ, burst, &entry.given.answer),
        call => vec![call.clone()],
    };
    entries.iter().flat_map(accesses).collect()
}

fn singles(kind: u8, burst: &Burst, answer: &Answer) -> Vec<Call> {
    let mut dword = burst.start;
    let access = |phase: &Phase| {
        let access = single(kind, burst.mode, dword, phase);
        dword = next(burst.mode, dword, phase);
        access.into()
    };
    let phases = burst.phases.iter().take(answer.v as usize);
    phases.map(access).collect()
}

/// "A transfer's ranges are C shared bytes from A and C window bytes from PCI address B."
fn range(transfer: &Transfer, memory: Memory) -> Range<u64> {
    let first = u64::from(match memory {
        Memory::Shared => transfer.shared,
        Memory::Window => transfer.pci,
    });
    first..first + u64::from(transfer.size)
}

fn broken_by(entry: &Entry, transfer: &Transfer) -> Option<Condition> {
    let number = entry.given.answer.number;
    match &entry.call {
        // "a start (even a refused one)"
        Call::Direct(access) if access.kind == kind::START => return Some(Condition::Start),
        // "any access to a DMA register counts as a start"
        Call::Register(access) if DMA_REGISTERS.contains(&access.offset) => {
            return Some(if is_dmactl_write(access) {
                Condition::DmactlWrite
            } else {
                Condition::DmaRegister
            });
        }
        // "a burst counts as its single accesses, also where 13 stops it"
        call if is_burst(call) && number == 13 => (),
        _ if number != 0 => return None,
        _ => (),
    }
    match &entry.call {
        Call::Direct(access) => match access.kind {
            kind::RESET => return Some(Condition::Reset),
            kind::INTERRUPT_READ => return Some(Condition::InterruptRead),
            kind::INTERRUPT_WRITE => return Some(Condition::InterruptWrite),
            kind::LINE => return Some(Condition::Line),
            _ => (),
        },
        Call::Register(access) => {
            let own = [offset::HINT, offset::LINT];
            if let Some(side) = own.iter().position(|own| *own == access.offset) {
                let own = usize::from(access.side) == side;
                return Some(match access.direction {
                    WRITE => Condition::InterruptWrite,
                    _ if own => Condition::InterruptRead,
                    _ => Condition::PlainInterruptRead,
                });
            }
        }
        Call::BurstWrite(_) | Call::BurstRead(..) => (),
    }
    let Bytes {
        memory,
        writes,
        addresses,
    } = bytes(entry)?;
    let range = range(transfer, memory);
    addresses.iter().find(|address| range.contains(address))?;
    // direction 1 is from shared memory
    let source = (memory == Memory::Shared) == (transfer.direction == 1);
    match (source, writes) {
        (true, false) => None,
        (true, true) => Some(Condition::SourceWrite),
        (false, true) => Some(Condition::DestinationWrite),
        (false, false) => Some(Condition::DestinationRead),
    }
}

fn is_burst(call: &Call) -> bool {
    matches!(call, Call::BurstWrite(_) | Call::BurstRead(..))
}

/// "For each transfer with a step done, look from its start to the last such step in the list", "its
/// own start and done steps aside": the transfer, with each entry there.
fn spans(entries: &[Entry]) -> Vec<(Transfer, &Entry)> {
    let mut spans = Vec::new();
    for Moved {
        transfer,
        start,
        steps,
        ..
    } in transfers(entries)
    {
        let Some(last) = steps.last() else { continue };
        let others = (start + 1..*last).filter(|at| !steps.contains(at));
        spans.extend(others.map(|at| (transfer, &entries[at])));
    }
    spans
}

/// What the list breaks.
fn broken(entries: &[Entry]) -> BTreeSet<Condition> {
    broken_without(entries, &[])
}

/// What it breaks if bursts that got one of these numbers are not counted.
fn broken_without(entries: &[Entry], numbers: &[u8]) -> BTreeSet<Condition> {
    let left_out = |entry: &Entry| {
        let number = entry.given.answer.number;
        is_burst(&entry.call) && numbers.contains(&number)
    };
    let spans = spans(entries).into_iter();
    let counted = spans.filter(|(_, entry)| !left_out(entry));
    counted
        .filter_map(|(transfer, entry)| broken_by(entry, &transfer))
        .collect()
}

/// Whether the list and the one with its steps moved give the same: every answer, what every call
/// was to the transfers, the record and both memories.
fn same(first: &World, entries: &[Entry], last: &World) -> bool {
    let order = instant(entries);
    let (moved, moved_last) = run(first, calls(entries, &order));
    moved_last == *last && order.iter().map(|at| &entries[*at]).eq(&moved)
}

/// The calls at these places.
fn calls(entries: &[Entry], places: &[usize]) -> Vec<Call> {
    let call = |at: &usize| entries[*at].call.clone();
    places.iter().map(call).collect()
}

// Random lists

fn fresh_world(rng: &mut Rng) -> World {
    let mut world = World::zeroed(fresh(SETTINGS).1);
    for byte in world.shared.iter_mut().take(128) {
        *byte = rng.byte();
    }
    world.window.fill_with(|| rng.byte());
    world
}

fn direct(kind: u8, side: u8, s: u8, a: u32, b: u32, c: u32) -> Call {
    Access::new(kind, side, s, a, b, c).into()
}

fn read(side: u8, offset: u32) -> Call {
    RegisterAccess::read(side, offset).into()
}

fn write(side: u8, offset: u32, dword: u32) -> Call {
    RegisterAccess::write(side, offset, dword).into()
}

fn step(side: u8) -> Call {
    direct(kind::STEP, side, 0, 0, 0, 0)
}

/// A burst over the dwords that transfers turn to, or others. Some are stopped, some refused.
fn burst(rng: &mut Rng) -> Call {
    let (near, last) = (rng.below(24), 4093 + rng.below(4));
    let mode = rng.pick(&[0, 1, 3]);
    let count = rng.below(7);
    let mut phase = || Phase::new(rng.below(16), rng.word());
    let mut phases: Vec<Phase> = (0..count).map(|_| phase()).collect();
    if let (true, Some(phase)) = (rng.one_in(20), phases.last_mut()) {
        phase.pins += 16;
    }
    let mut places = phases.len() + rng.below(3) as usize;
    if rng.one_in(20) {
        places = places.saturating_sub(2);
    }
    let burst = Burst {
        side: if rng.one_in(20) { HOST } else { LOCAL },
        mode: if rng.one_in(20) { 2 } else { mode },
        start: rng.pick(&[near, last]),
        phases,
    };
    if rng.one_in(2) {
        Call::BurstWrite(burst)
    } else {
        Call::BurstRead(burst, vec![0xC0DE_0000; places])
    }
}

/// Calls that no transfer meets, refused ones among them, and memory accesses and bursts, which may
/// meet one.
fn harmless(rng: &mut Rng) -> Call {
    if rng.one_in(3) {
        return burst(rng);
    }
    let (side, word) = (rng.below(2) as u8, rng.word());
    let s = rng.below(4) as u8;
    let port = 0x0040 + 4 * rng.below(4);
    let other = rng.pick(&[offset::ARBUTIL, offset::HLDATA, offset::LHDATA, port]);
    let lanes = rng.below(16) as u8;
    let (shared, pci) = (4 * rng.below(24), SETTINGS.base + 4 * rng.below(16));
    let wrong = rng.pick(&[0x0030, 0x04B1, 0x04E0, 0x2000, 0x8000]);
    let calls = [
        read(side, other),
        write(side, other, word),
        write(side, other, word & 0x0303_0303),
        RegisterAccess::new(side, other, rng.below(3) as u8, word).into(),
        RegisterAccess::new(side, wrong, rng.below(2) as u8, 0).into(),
        RegisterAccess::new(2, offset::HINT, READ, 0).into(),
        write(
            1 - side,
            [offset::HINT, offset::LINT][usize::from(side)],
            word,
        ),
        read(side, offset::SHARED + shared),
        write(side, offset::SHARED + shared, word),
        direct(kind::TAKE, side, s, 0, 0, 0),
        direct(kind::PUT, side, s, 0, word, 0),
        direct(kind::CLAIM, side, s, 0, 0, 0),
        direct(kind::RELEASE, side, s, 0, 0, 0),
        direct(kind::MAILBOX_WRITE, side, 0, 0, word, 0),
        direct(kind::MAILBOX_READ, side, 0, 0, 0, 0),
        direct(kind::SHARED_READ, side, lanes, shared, 0, 0),
        direct(kind::SHARED_WRITE, side, lanes, shared, word, 0),
        direct(kind::WINDOW_READ, HOST, lanes, pci, 0, 0),
        direct(kind::WINDOW_WRITE, HOST, lanes, pci, word, 0),
        direct(kind::EXTERNAL_PIN, side, 0, 0, 0, 0),
        direct(kind::STEP, side, 1, 0, 0, 0),
        direct(kind::LINE, side, 1, 0, 0, 0),
    ];
    rng.pick(&calls)
}

/// Calls that a span must not have.
fn harmful(rng: &mut Rng) -> Call {
    let (side, word) = (rng.below(2) as u8, rng.word());
    let interrupts = rng.pick(&[offset::HINT, offset::LINT]);
    let dma = rng.pick(&DMA_REGISTERS);
    let calls = [
        direct(kind::RESET, side, 0, 0, 0, 0),
        direct(kind::INTERRUPT_READ, side, 0, 0, 0, 0),
        direct(kind::INTERRUPT_WRITE, side, 0, 0, word, 0),
        direct(kind::LINE, side, 0, 0, 0, 0),
        direct(kind::START, side, 0, 0, SETTINGS.base, 4),
        read(side, interrupts),
        write(side, interrupts, word),
        read(side, dma),
        write(side, dma, word),
        write(side, offset::DMACTL, rng.below(4)),
    ];
    rng.pick(&calls)
}

/// A few transfers, started by kind 14 or by DMACTL, with calls before, between and behind the steps;
/// one call in so many is of those that a span must not have.
fn list(rng: &mut Rng) -> Vec<Call> {
    let mut calls = Vec::new();
    let harm = rng.pick(&[1000, 1000, 40, 12]);
    let between = |rng: &mut Rng, calls: &mut Vec<Call>, most| {
        for _ in 0..rng.below(most) {
            let call = if rng.one_in(harm) {
                harmful(rng)
            } else {
                harmless(rng)
            };
            calls.push(call);
        }
    };
    for _ in 0..1 + rng.below(3) {
        between(rng, &mut calls, 4);
        let (side, direction) = (rng.below(2) as u8, rng.below(2));
        let size = 4 + 4 * rng.below(3);
        let shared = rng.pick(&[0, 16, 64, 16_384 - size]);
        let pci = SETTINGS.base.wrapping_add(4 * rng.below(17)) - 4;
        if rng.one_in(3) {
            calls.push(direct(
                kind::START,
                side,
                direction as u8,
                shared,
                pci,
                size,
            ));
        } else {
            let mut program = vec![
                write(side, offset::DMALBASE, shared),
                write(1 - side, offset::DMAHBASE, pci),
                write(side, offset::DMASIZE, size),
            ];
            // what was programmed before may serve again
            program.retain(|_| !rng.one_in(8));
            calls.extend(program);
            let control = direction | rng.pick(&[0, 0x102, 0x202]);
            calls.push(write(side, offset::DMACTL, control));
        }
        for _ in 0..rng.below(5) {
            between(rng, &mut calls, 3);
            calls.push(step(rng.below(2) as u8));
        }
    }
    between(rng, &mut calls, 4);
    calls
}

/// How a burst in a span ended: done or stopped, with some phases done.
fn bursts_in_spans(entries: &[Entry]) -> BTreeSet<u8> {
    let spans = spans(entries).into_iter();
    let bursts = spans.filter(|(_, entry)| is_burst(&entry.call) && entry.given.answer.v > 0);
    bursts.map(|(_, entry)| entry.given.answer.number).collect()
}

#[test]
fn moved_steps_change_nothing() {
    let mut rng = Rng::new(51);
    let (mut premise, mut moved, mut by_registers, mut spared) = (0, 0, 0, 0);
    let (mut around, mut around_done, mut around_stopped) = (0, 0, 0);
    // of these the premise is broken by bursts alone, or by stopped ones, and the claim is false
    let (mut by_bursts, mut by_stopped) = (0, 0);
    for _ in 0..ROUNDS {
        let first = fresh_world(&mut rng);
        let (entries, last) = run(&first, list(&mut rng));
        let broken = broken(&entries);
        let really = !instant(&entries).into_iter().eq(0..entries.len());
        if broken.is_empty() {
            premise += 1;
            moved += usize::from(really);
            let started_by_register = |transfer: &Moved| {
                let call = &entries[transfer.start].call;
                !transfer.steps.is_empty() && matches!(call, Call::Register(_))
            };
            let transfers = transfers(&entries);
            by_registers += usize::from(really && transfers.iter().any(started_by_register));
            let bursts = bursts_in_spans(&entries);
            around += usize::from(!bursts.is_empty());
            around_done += usize::from(bursts.contains(&0));
            around_stopped += usize::from(bursts.contains(&13));
        } else if broken == BTreeSet::from([Condition::DmaRegister]) {
            // the user's words ask for it, and no list needs it
            spared += usize::from(really);
        } else {
            if broken_without(&entries, &[0, 13]).is_empty() {
                by_bursts += usize::from(!same(&first, &entries, &last));
            }
            if broken_without(&entries, &[13]).is_empty() {
                by_stopped += usize::from(!same(&first, &entries, &last));
            }
            continue;
        }
        assert!(same(&first, &entries, &last), "{entries:#?}");
    }
    println!("{premise} lists, {moved} with moved steps, {by_registers} of them by registers");
    println!("{spared} with moved steps that meet a DMA register only");
    println!("{around} with phases done in a span,");
    println!("{around_done} of them of a done burst, {around_stopped} of a stopped one");
    println!("{by_bursts} more break the premise by bursts alone, and the claim is false;");
    println!("{by_stopped} of them by stopped bursts alone");
    assert!(premise > 10_000 && moved > 5_000 && by_registers > 5_000 && spared > 100);
    assert!(around_done > 2_500 && around_stopped > 500);
    assert!(by_bursts > 200 && by_stopped > 50);
}

/// The list with the single accesses in the places of the bursts meets the premise exactly if the
/// list does: a burst reaches what its single accesses reach. It leaves the same, every other call
/// gets the same, and a list that was read has the V of the single accesses.
#[test]
fn a_list_meets_the_premise_as_its_single_accesses_do() {
    let mut rng = Rng::new(53);
    let (mut met, mut broken_by_bursts) = (0, 0);
    for _ in 0..ROUNDS {
        let first = fresh_world(&mut rng);
        let (entries, last) = run(&first, list(&mut rng));
        let (flat, flat_last) = run(&first, flat(&entries));
        let (conditions, flat_conditions) = (broken(&entries), broken(&flat));
        assert_eq!(conditions, flat_conditions, "{entries:#?}");
        met += usize::from(conditions.is_empty());
        let without = broken_without(&entries, &[0, 13]);
        broken_by_bursts += usize::from(without.len() < conditions.len());
        assert_eq!(flat_last, last);
        let mut rest = flat.into_iter();
        for entry in &entries {
            let phases = entry.given.answer.v as usize;
            match &entry.call {
                Call::BurstWrite(_) => {
                    let mut singles = rest.by_ref().take(phases);
                    assert!(singles.all(|single| single.given == Answer::done(0, 0).into()));
                }
                Call::BurstRead(_, lent) => {
                    let singles = rest.by_ref().take(phases);
                    let read: Vec<u32> = singles.map(|single| single.given.answer.v).collect();
                    let left = [&read[..], &lent[phases..]].concat();
                    assert_eq!(entry.given.list, Some(left));
                }
                _ => assert_eq!(Some(entry), rest.next().as_ref()),
            }
        }
        assert_eq!(rest.next(), None);
    }
    println!("{met} lists meet the premise, {broken_by_bursts} break more by their bursts");
    assert!(met > 10_000 && broken_by_bursts > 500);
}

// A list for each of some conditions: it breaks no other one, and the claim is false of it.

/// A transfer of so many dwords, from the first ones of either memory.
fn programmed(dwords: u32) -> Vec<Call> {
    vec![
        write(HOST, offset::DMALBASE, 0),
        write(HOST, offset::DMAHBASE, SETTINGS.base),
        write(HOST, offset::DMASIZE, 4 * dwords),
    ]
}

/// Gives what the calls get, in their order: first as the list has it, then with the steps moved.
#[track_caller]
fn needed(condition: Condition, list: Vec<Call>) -> [Vec<Given>; 2] {
    let first = fresh_world(&mut Rng::new(52));
    let (entries, last) = run(&first, list);
    assert_eq!(broken(&entries), BTreeSet::from([condition]));
    assert!(!same(&first, &entries, &last));
    let order = instant(&entries);
    let (moved, _) = run(&first, calls(&entries, &order));
    let mut moved: Vec<(usize, Given)> = order
        .into_iter()
        .zip(moved.into_iter().map(|entry| entry.given))
        .collect();
    moved.sort_by_key(|(at, _)| *at);
    let slow = entries.into_iter().map(|entry| entry.given);
    [
        slow.collect(),
        moved.into_iter().map(|(_, given)| given).collect(),
    ]
}

/// Refused with 6 where the transfer is slow, done where it is instant.
#[test]
fn a_dmactl_write_is_needed() {
    let mut calls = programmed(1);
    calls.push(write(HOST, offset::DMACTL, 1));
    calls.push(write(LOCAL, offset::DMACTL, 1));
    calls.push(step(HOST));
    needed(Condition::DmactlWrite, calls);
}

/// The other side's register shows event 5 only behind the last step.
#[test]
fn a_plain_read_of_an_interrupt_register_is_needed() {
    for (side, register) in [(LOCAL, offset::HINT), (HOST, offset::LINT)] {
        let mut calls = programmed(1);
        calls.push(write(HOST, offset::DMACTL, 0));
        calls.push(read(side, register));
        calls.push(step(HOST));
        needed(Condition::PlainInterruptRead, calls);
    }
}

/// What is written into the source is moved by the slow transfer alone.
#[test]
fn a_shared_memory_write_by_offset_is_needed() {
    let mut calls = programmed(2);
    calls.push(write(HOST, offset::DMACTL, 1));
    calls.push(step(HOST));
    calls.push(write(LOCAL, offset::SHARED + 4, 0xC0DE_C0DE));
    calls.push(step(LOCAL));
    needed(Condition::SourceWrite, calls);
}

/// The last two dwords go to the window. A burst that 13 stops changes the second one before it is
/// moved, and what the host then reads in the window.
#[test]
fn a_stopped_burst_is_needed() {
    let phases = vec![Phase::new(0b0000, 0xC0DE_C0DE), Phase::new(0b0000, 1)];
    let stopped = Burst::new(LOCAL, 3, 4095, phases);
    let calls = vec![
        direct(kind::START, HOST, 1, 16_376, SETTINGS.base, 8),
        step(HOST),
        Call::BurstWrite(stopped),
        step(LOCAL),
        direct(kind::WINDOW_READ, HOST, 0, SETTINGS.base + 4, 0, 0),
    ];
    let [slow, instant] = needed(Condition::SourceWrite, calls);
    let stopped = Answer {
        number: 13,
        v: 1,
        x: 0,
    };
    assert_eq!(slow[2], stopped.into());
    assert_eq!(slow[..4], instant[..4]);
    assert_eq!(slow[4], Answer::done(0xC0DE_C0DE, 0).into());
    assert_eq!(instant[4], Answer::done(0, 0).into());
}

/// What a burst reads of the destination changes nothing but its list.
#[test]
fn a_burst_read_is_needed() {
    for (start, number) in [(4094, 0), (4095, 13)] {
        let phases = vec![Phase::new(0b0000, 0); 2];
        let burst = Burst::new(LOCAL, 3, start, phases);
        let calls = vec![
            direct(kind::START, HOST, 0, 16_376, SETTINGS.base, 8),
            step(HOST),
            Call::BurstRead(burst, vec![7; 2]),
            step(LOCAL),
        ];
        let [slow, instant] = needed(Condition::DestinationRead, calls);
        assert_eq!(slow[2].answer.number, number);
        assert_eq!(slow[2].answer, instant[2].answer);
        assert_ne!(slow[2].list, instant[2].list);
    }
}

/// A burst over the source that is refused otherwise is no access.
#[test]
fn a_refused_burst_breaks_nothing() {
    let right = Burst::new(LOCAL, 3, 0, vec![Phase::new(0b0000, 5); 2]);
    let refused = [
        (
            2,
            Burst {
                side: 2,
                ..right.clone()
            },
        ),
        (
            5,
            Burst {
                side: HOST,
                ..right.clone()
            },
        ),
        (
            12,
            Burst {
                mode: 2,
                ..right.clone()
            },
        ),
        (
            4,
            Burst {
                phases: vec![Phase::new(16, 5)],
                ..right.clone()
            },
        ),
        (
            13,
            Burst {
                start: 4096,
                ..right
            },
        ),
    ];
    for (number, burst) in refused {
        let mut calls = programmed(2);
        calls.push(write(HOST, offset::DMACTL, 1));
        calls.push(Call::BurstWrite(burst));
        calls.extend([step(HOST), step(LOCAL)]);
        let first = fresh_world(&mut Rng::new(54));
        let (entries, last) = run(&first, calls);
        assert_eq!(entries[4].given, Answer::refused(number).into());
        assert_eq!(broken(&entries), BTreeSet::new());
        assert!(same(&first, &entries, &last));
    }
}
