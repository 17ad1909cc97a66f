//! Why an event bit reads as it does: the corners of L7, and what holds of every trace, tried on many
//! by the registers alone.

use oracle::access::{kind, Access};
use oracle::card::FIFO_DEPTH;
use oracle::replay::bench;
use oracle::rng::Rng;
use oracle::trace::trace;
use oracle::why::shorthand::{self, mail, put, take, write};
use oracle::why::shorthand::{ABOVE, BELOW, COPIED, IN_ABORT_RANGE, LINE, PIN, RESET, RING, STEP};
use oracle::why::{asked, eventful, is_reserved, lines, places, why, Holding, Told, Why};
use oracle::why::{MOST_BYTES, MOST_RECORDS, USAGE};
use oracle::world::World;

const TRACES: u64 = 1500;

const HOST: u32 = 0;
const LOCAL: u32 = 1;

/// A put by the wrong side.
const REFUSED: Access = Access::new(kind::PUT, 1, 1, 0, 5, 0);

/// A transfer of one dword.
fn start(offset: u32) -> Access {
    shorthand::start(offset, 1)
}

fn of(accesses: &[Access], side: u32, position: u32) -> Told {
    why(&trace(accesses), side, position)
}

fn held(entries: &[(u32, usize)]) -> Told {
    let holding = |&(entry, record)| Holding { entry, record };
    Ok(Why::Held(entries.iter().map(holding).collect()))
}

fn never() -> Told {
    Ok(Why::Never)
}

fn cleared(record: usize) -> Told {
    Ok(Why::Cleared(record))
}

fn set(record: usize) -> Told {
    Ok(Why::Set(record))
}

/// Side and position of every question that is not refused.
fn questions() -> impl Iterator<Item = (u32, u32)> {
    let all = [HOST, LOCAL].into_iter();
    let all = all.flat_map(|side| (0..10).map(move |position| (side, position)));
    all.filter(|(side, position)| !is_reserved(*side, *position))
}

// The corners of L7, by their numbers

#[test]
fn the_earliest_record_that_raised_it_does_not_move() {
    assert_eq!(of(&[PIN, PIN], HOST, 4), set(0));
    assert_eq!(of(&[PIN, write(0, 16), LINE, PIN, PIN], HOST, 4), set(3));
    assert_eq!(of(&[PIN, PIN, RESET, PIN, PIN], HOST, 4), set(3));
}

#[test]
fn a_reset_behind_a_clear_clears_nothing() {
    assert_eq!(of(&[PIN, write(0, 16), RESET], HOST, 4), cleared(1));
    assert_eq!(of(&[PIN, RESET, write(0, 16)], HOST, 4), cleared(1));
    assert_eq!(of(&[PIN, RESET, RESET], HOST, 4), cleared(1));
    assert_eq!(of(&[RESET], HOST, 4), never());
}

#[test]
fn a_write_of_1_to_a_clear_bit_clears_nothing() {
    assert_eq!(of(&[write(0, 16)], HOST, 4), never());
    assert_eq!(of(&[PIN, write(0, 16), write(0, 16)], HOST, 4), cleared(1));
}

#[test]
fn a_write_by_the_other_side_or_of_0_clears_nothing() {
    for value in [0, 0xFFFF_FFEF, 16 << 16] {
        assert_eq!(of(&[PIN, write(0, value)], HOST, 4), set(0));
    }
    assert_eq!(of(&[PIN, write(1, u32::MAX)], HOST, 4), set(0));
    // raised in both, and cleared in one
    let complete = [start(COPIED), STEP, write(1, 32)];
    assert_eq!(of(&complete, HOST, 5), set(1));
    assert_eq!(of(&complete, LOCAL, 5), cleared(2));
}

#[test]
fn positions_6_and_7_are_explained_by_the_entries() {
    for (fifo, position) in [(1, 6), (3, 7)] {
        let two = [put(fifo, 0), put(fifo, 7)];
        assert_eq!(of(&two, HOST, position), held(&[(0, 0), (7, 1)]));
        // the oldest did not raise the bit
        let [first, second] = two;
        let taken = [first, second, take(fifo)];
        assert_eq!(of(&taken, HOST, position), held(&[(7, 1)]));
        let emptied = [first, take(fifo), RESET];
        assert_eq!(of(&emptied, LOCAL, position), cleared(1));
        let reset = [first, RESET, take(fifo)];
        assert_eq!(of(&reset, LOCAL, position), cleared(1));
        let again = [first, take(fifo), second, take(fifo), first];
        assert_eq!(of(&again, HOST, position), held(&[(0, 4)]));
        // a write does not clear it
        let written = [first, write(0, u32::MAX), write(1, u32::MAX)];
        assert_eq!(of(&written, LOCAL, position), held(&[(0, 0)]));
    }
}

#[test]
fn lost_puts_and_takes_from_empty_are_not_listed() {
    let mut accesses: Vec<Access> = (0..34).map(|entry| put(1, entry)).collect();
    let all: Vec<(u32, usize)> = (0..32).map(|i| (i, i as usize)).collect();
    assert_eq!(of(&accesses, LOCAL, 6), held(&all));
    // the first of both that are lost
    for side in [HOST, LOCAL] {
        assert_eq!(of(&accesses, side, 1), set(32));
        assert_eq!(of(&accesses, side, 0), never());
    }
    // and behind a take there is room again
    accesses.extend([take(1), put(1, 99)]);
    let last = [&all[1..], &[(99, 35)]].concat();
    assert_eq!(of(&accesses, HOST, 6), held(&last));
    assert_eq!(of(&[take(1), RESET], LOCAL, 6), never());
    assert_eq!(
        of(&[put(1, 0), take(1), take(1), RESET], LOCAL, 6),
        cleared(1)
    );
}

#[test]
fn local_puts_raise_event_0() {
    for fifo in [0, 3] {
        let accesses = vec![put(fifo, 0); 33];
        for side in [HOST, LOCAL] {
            assert_eq!(of(&accesses, side, 0), set(32));
            assert_eq!(of(&accesses, side, 1), never());
        }
    }
}

#[test]
fn positions_6_and_7_are_the_same_on_both_sides() {
    for accesses in some_traces().step_by(10) {
        for position in [6, 7] {
            let trace = trace(&accesses);
            assert_eq!(why(&trace, HOST, position), why(&trace, LOCAL, position));
        }
    }
}

#[test]
fn reserved_positions_are_refused() {
    for (side, position, told) in [
        (HOST, 2, Err(42)),
        (LOCAL, 2, Err(42)),
        (LOCAL, 4, Err(42)),
        (HOST, 4, never()),
        (HOST, 9, never()),
        (HOST, 10, Err(42)),
    ] {
        assert_eq!(of(&[], side, position), told);
    }
}

#[test]
fn too_long_comes_before_what_the_reader_refuses() {
    let most = trace(&vec![LINE; MOST_RECORDS]);
    assert_eq!(most.len(), MOST_BYTES);
    assert_eq!(why(&most, HOST, 4), never());
    for more in 1..=20 {
        let long = [&most[..], &vec![0; more]].concat();
        assert_eq!(why(&long, HOST, 4), Err(41));
    }
    assert_eq!(why(&trace(&vec![PIN; 4097]), HOST, 4), Err(41));
    // a bad record in it
    assert_eq!(why(&vec![0; MOST_BYTES + 20], HOST, 4), Err(41));
    assert_eq!(why(&vec![0; MOST_BYTES], HOST, 4), Err(40));
}

#[test]
fn enables_and_the_line_play_no_role() {
    assert_eq!(of(&[PIN, LINE], HOST, 4), set(0));
    assert_eq!(of(&[write(0, 16 << 16), PIN, LINE], HOST, 4), set(1));
    // both at once: the enable stays and the status goes
    assert_eq!(of(&[PIN, write(0, 16 << 16 | 16)], HOST, 4), cleared(1));
}

#[test]
fn refused_accesses_count_and_do_nothing() {
    assert_eq!(of(&[REFUSED, REFUSED, PIN], HOST, 4), set(2));
    assert_eq!(of(&[REFUSED], LOCAL, 6), never());
    let refused = [
        Access { side: 0, ..PIN },
        Access { side: 2, ..RESET },
        Access {
            a: 1,
            ..write(0, 16)
        },
        Access {
            c: 1,
            ..mail(1, RING)
        },
    ];
    for access in refused {
        assert_eq!(of(&[access], HOST, 4), never());
        assert_eq!(of(&[PIN, access], HOST, 4), set(0));
        assert_eq!(of(&[access], HOST, 3), never());
    }
}

#[test]
fn record_0_is_not_never() {
    assert_eq!(of(&[PIN], HOST, 4), set(0));
    assert_eq!(of(&[], HOST, 4), never());
    assert_eq!(lines(&set(0)), "set by record 0\n");
    assert_eq!(lines(&never()), "never raised\n");
}

#[test]
fn the_last_record_may_be_the_one() {
    let mut accesses = vec![LINE; MOST_RECORDS];
    accesses[MOST_RECORDS - 1] = PIN;
    assert_eq!(of(&accesses, HOST, 4), set(4095));
}

// What raises each position

#[test]
fn mailbox_writes_raise_event_3_for_the_other_side() {
    for (writer, other) in [(0, LOCAL), (1, HOST)] {
        let own = 1 - other;
        let rings = [mail(writer, 0xFFFF), mail(writer, RING)];
        assert_eq!(of(&rings, other, 3), set(1));
        assert_eq!(of(&rings, own, 3), never());
        let without = [mail(writer, !(RING))];
        assert_eq!(of(&without, other, 3), never());
        // bit 24 clear clears nothing
        let behind = [rings[1], without[0]];
        assert_eq!(of(&behind, other, 3), set(0));
    }
}

#[test]
fn the_last_step_raises_its_event_in_both() {
    for (start, position) in [
        (start(COPIED), 5),
        (start(IN_ABORT_RANGE), 8),
        (start(BELOW), 9),
        (start(ABOVE), 9),
    ] {
        for side in [HOST, LOCAL] {
            for other in [5, 8, 9] {
                let told = if other == position { set(1) } else { never() };
                assert_eq!(of(&[start, STEP], side, other), told);
            }
        }
    }
    // one dword is copied, and the next lies in the abort range
    let to_the_range = shorthand::start(IN_ABORT_RANGE - 4, 2);
    assert_eq!(of(&[to_the_range, STEP], LOCAL, 8), never());
    assert_eq!(of(&[to_the_range, STEP, STEP, STEP], LOCAL, 8), set(2));
}

// Refusals

/// Side, position, length and reader, each refused or not.
#[test]
fn the_first_cause_in_order_is_given() {
    let sound = trace(&[PIN]);
    let unread = [&sound[..], b"B"].concat();
    let long = trace(&vec![PIN; 4097]);
    let both = vec![0; MOST_BYTES + 1];
    for (side, position) in [(2, 0), (2, 2), (u32::MAX, 10), (256, 4)] {
        for trace in [&sound, &unread, &long, &both] {
            assert_eq!(why(trace, side, position), Err(43));
        }
    }
    for (side, position) in [(0, 2), (1, 2), (1, 4), (0, 10), (1, 256), (0, u32::MAX)] {
        for trace in [&sound, &unread, &long, &both] {
            assert_eq!(why(trace, side, position), Err(42));
        }
    }
    for (side, position) in questions() {
        assert!(why(&sound, side, position).is_ok());
        assert_eq!(why(&unread, side, position), Err(40));
        assert_eq!(why(&long, side, position), Err(41));
        assert_eq!(why(&both, side, position), Err(41));
    }
}

#[test]
fn what_the_reader_refuses_anywhere_is_refused() {
    let sound = trace(&[PIN; 4]);
    for record in 0..4 {
        for at in [0, 1, 2, 3, 7] {
            let mut spoilt = sound.clone();
            spoilt[20 * record + at] ^= 1;
            assert_eq!(why(&spoilt, HOST, 4), Err(40));
        }
    }
    for length in 0..=sound.len() {
        let told = if length % 20 == 0 { Ok(()) } else { Err(40) };
        assert_eq!(why(&sound[..length], HOST, 4).map(drop), told);
    }
}

// What holds of every trace, by the registers alone

/// Traces from none to two hundred records.
fn some_traces() -> impl Iterator<Item = Vec<Access>> {
    (0..TRACES).map(|place| {
        let mut rng = Rng::after(730, place << 32);
        let most = rng.pick(&[8, 40, 200]);
        let count = rng.below(most + 1) as usize;
        eventful::accesses(&mut rng, count)
    })
}

/// Both registers as kind 11 reads them before the first record and behind each, which records are
/// puts that were kept, and the card at the end.
struct Run {
    registers: Vec<[u32; 2]>,
    kept: Vec<bool>,
    last: World,
}

fn registers(world: &mut World) -> [u32; 2] {
    [0, 1].map(|side| {
        let read = Access::new(kind::INTERRUPT_READ, side, 0, 0, 0, 0);
        world.access(read).v
    })
}

fn run(accesses: &[Access]) -> Run {
    let mut last = bench();
    let mut all = vec![registers(&mut last)];
    let mut kept = Vec::new();
    for access in accesses {
        let answer = last.access(*access);
        kept.push(access.kind == kind::PUT && answer.number == 0 && answer.x != 0);
        all.push(registers(&mut last));
    }
    Run {
        registers: all,
        kept,
        last,
    }
}

/// T7.1 to T7.3: the answer by the bits behind each record, and the entries by the last puts kept.
fn by_registers(accesses: &[Access], run: &Run, side: u32, position: u32) -> Why {
    let registers = run.registers.iter();
    let bits: Vec<u32> = registers
        .map(|both| both[side as usize] >> position & 1)
        .collect();
    let n = accesses.len();
    if bits[n] == 1 {
        return match position {
            6 => by_puts(accesses, run, 1),
            7 => by_puts(accesses, run, 3),
            _ => Why::Set((0..n).rfind(|i| bits[*i] == 0).expect("a fresh card has 0")),
        };
    }
    match (0..n).rfind(|i| bits[*i] == 1 && bits[*i + 1] == 0) {
        Some(i) => Why::Cleared(i),
        None => Why::Never,
    }
}

/// The last puts that a FIFO kept, as many as it holds.
fn by_puts(accesses: &[Access], run: &Run, fifo: u8) -> Why {
    let held = &run.last.card.fifos[usize::from(fifo)];
    let puts = (0..accesses.len()).filter(|i| run.kept[*i] && accesses[*i].s == fifo);
    let puts: Vec<usize> = puts.collect();
    let last = &puts[puts.len() - held.len()..];
    let holding = |(entry, record): (&u32, &usize)| {
        assert_eq!(accesses[*record].b, *entry);
        Holding {
            entry: *entry,
            record: *record,
        }
    };
    Why::Held(held.iter().zip(last).map(holding).collect())
}

#[test]
fn the_answer_is_a_function_of_the_registers() {
    let mut counts = [[[0; 4]; 10]; 2];
    for accesses in some_traces() {
        let run = run(&accesses);
        let bytes = trace(&accesses);
        for (side, position) in questions() {
            let told = why(&bytes, side, position).expect("no refusal");
            assert_eq!(told, by_registers(&accesses, &run, side, position));
            let case = match told {
                Why::Never => 0,
                Why::Cleared(_) => 1,
                Why::Set(_) => 2,
                Why::Held(_) => 3,
            };
            counts[side as usize][position as usize][case] += 1;
        }
    }
    for (side, position) in questions() {
        let [never, cleared, set, held] = counts[side as usize][position as usize];
        assert!(never > 50 && cleared > 50, "{side} {position}: {counts:?}");
        let follows = position == 6 || position == 7;
        assert!(if follows { held } else { set } > 50, "{side} {position}");
    }
}

#[test]
fn every_kind_is_done_and_refused_in_the_traces() {
    let mut done = [0; 17];
    let mut refused = 0;
    for accesses in some_traces() {
        let mut world = bench();
        for access in accesses {
            if world.access(access).number == 0 {
                done[usize::from(access.kind)] += 1;
            } else {
                refused += 1;
            }
        }
    }
    assert!(done.iter().all(|count| *count > 50), "{done:?}");
    assert!(refused > 1000);
}

// What the program writes

#[test]
fn the_lines_are_the_answer() {
    assert_eq!(lines(&cleared(17)), "cleared by record 17\n");
    assert_eq!(lines(&set(4)), "set by record 4\n");
    assert_eq!(lines(&Err(42)), "why 42\n");
    let two = held(&[(7, 3), (0, 4095)]);
    let expected = "set: 2 held\nentry 7 put by record 3\nentry 0 put by record 4095\n";
    assert_eq!(lines(&two), expected);
}

#[test]
fn places_behind_the_entries_are_0() {
    for told in [never(), cleared(17), set(4), Err(42)] {
        assert_eq!(places(&told), [[0; FIFO_DEPTH]; 2]);
    }
    let [entries, records] = places(&held(&[(7, 3), (0, 9)]));
    assert_eq!(
        (entries[..3].to_vec(), records[..3].to_vec()),
        (vec![7, 0, 0], vec![3, 9, 0])
    );
}

#[test]
fn side_and_position_are_decimals_of_any_length() {
    let trace = trace(&[PIN]);
    let huge = "9".repeat(5000);
    for (side, position, line) in [
        ("0", "4", "set by record 0\n"),
        ("1", "4", "why 42\n"),
        ("0", "4294967300", "why 42\n"),
        ("4294967296", "4", "why 43\n"),
        ("0", &huge, "why 42\n"),
        (&huge, "4", "why 43\n"),
        (&huge, &huge, "why 43\n"),
    ] {
        let told = asked(&trace, side.as_bytes(), position.as_bytes());
        assert_eq!(lines(&told.expect("two decimals")), line);
    }
    for text in ["", "00", "04", "+4", " 4", "4 ", "4\n", "0x4"] {
        assert_eq!(asked(&trace, b"0", text.as_bytes()), None);
        assert_eq!(asked(&trace, text.as_bytes(), b"4"), None);
        // before any refusal
        assert_eq!(asked(b"x", text.as_bytes(), b"99"), None);
        assert_eq!(asked(b"x", b"99", text.as_bytes()), None);
    }
    assert!(USAGE.ends_with('\n'));
}
