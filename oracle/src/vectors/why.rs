//! Questions why an event bit reads as it does, on short traces.

use crate::access::Access;
use crate::decimal::decimal;
use crate::drive::sides::{HOST, LOCAL};
use crate::trace;
use crate::why::shorthand::{mail, put, start, take, write};
use crate::why::shorthand::{ABOVE, BELOW, COPIED, IN_ABORT_RANGE, LINE, PIN, RESET, RING, STEP};
use crate::why::{why, Holding, Told, Why, MOST_BYTES};

use super::text;

/// How many cases stand in one equation: a long one takes much memory to check.
const PORTION: usize = 10;
/// The most accesses of a case, and of one in which a FIFO overflows.
const MOST_ACCESSES: usize = 12;
const MOST_PUTS: usize = 34;

/// What the equations unfold, beside their own list.
const UNFOLDED: &str =
    "why history accesses_from written read_record replay replay_records access \
                        bench sound fresh_card read_dword write_dword";

/// What stands behind the records of the accesses.
enum Behind {
    Bytes(Vec<u8>),
    Zeros(usize),
}

impl Behind {
    fn bytes(&self) -> Vec<u8> {
        match self {
            Behind::Bytes(bytes) => bytes.clone(),
            Behind::Zeros(count) => vec![0; *count],
        }
    }

    fn text(&self) -> String {
        match self {
            Behind::Bytes(bytes) => text::bracketed(bytes, u8::to_string),
            Behind::Zeros(count) => format!("(replicate {count} 0)"),
        }
    }
}

#[derive(Default)]
struct Cases(Vec<String>);

impl Cases {
    /// A question of a trace of these accesses.
    fn ask(&mut self, accesses: &[Access], side: u8, position: u32) {
        assert!(accesses.len() <= MOST_ACCESSES);
        self.add(accesses, &Behind::Bytes(Vec::new()), side.into(), position);
    }

    /// The same question by both sides.
    fn both(&mut self, accesses: &[Access], position: u32) {
        for side in [HOST, LOCAL] {
            self.ask(accesses, side, position);
        }
    }

    fn add(&mut self, accesses: &[Access], behind: &Behind, side: u32, position: u32) {
        let mut bytes = trace::trace(accesses);
        bytes.extend(behind.bytes());
        let told = told(&why(&bytes, side, position));
        let accesses = text::bracketed(accesses, |access| {
            format!("q {}", decimal(access.numbers()))
        });
        let behind = behind.text();
        self.0.push(format!(
            "why_case {accesses} {behind} {side} {position} ({told})"
        ));
    }
}

fn told(told: &Told) -> String {
    let holding = |holding: &Holding| format!("holding {} {}", holding.entry, holding.record);
    match told {
        Ok(Why::Never) => "because never".to_string(),
        Ok(Why::Cleared(record)) => format!("because (cleared_by {record})"),
        Ok(Why::Set(record)) => format!("because (set_by {record})"),
        Ok(Why::Held(held)) => format!("because (held {})", text::bracketed(held, holding)),
        Err(refusal) => format!("refused {refusal}"),
    }
}

fn refusals(cases: &mut Cases) {
    let none = || Behind::Bytes(Vec::new());
    let odd = || Behind::Bytes(vec![0x42]);
    let long = || Behind::Zeros(MOST_BYTES + 1);
    // each alone; so many zeros are no records either
    cases.add(&[], &none(), 2, 0);
    cases.add(&[], &none(), 256, 4);
    for (side, position) in [(0, 2), (1, 2), (1, 4), (0, 10), (1, 260)] {
        cases.add(&[], &none(), side, position);
    }
    cases.add(&[], &long(), 0, 9);
    cases.add(&[], &Behind::Zeros(MOST_BYTES), 0, 9);
    cases.add(&[], &odd(), 1, 0);
    // and two at once
    cases.add(&[], &none(), 2, 2);
    cases.add(&[], &long(), 2, 0);
    cases.add(&[], &odd(), 2, 0);
    cases.add(&[], &long(), 1, 4);
    cases.add(&[], &odd(), 0, 10);
    // behind a record: bytes left over, a number that is not expected, a byte 7 that is not zero
    cases.add(&[PIN], &odd(), 0, 4);
    let again = trace::record(0, &PIN);
    cases.add(&[PIN], &Behind::Bytes(again.to_vec()), 0, 4);
    let mut spoilt = trace::record(1, &PIN);
    spoilt[7] = 1;
    cases.add(&[PIN], &Behind::Bytes(spoilt.to_vec()), 0, 4);
}

/// Position 4, which one access raises and one clears.
fn external_signal(cases: &mut Cases) {
    let clear = write(HOST, 16);
    for accesses in [
        &[][..],
        &[PIN],
        &[PIN, PIN],
        &[PIN, clear],
        &[PIN, RESET],
        &[PIN, clear, PIN, PIN],
        &[PIN, clear, RESET],
        &[PIN, RESET, clear],
        &[clear],
        &[RESET],
        &[PIN, write(HOST, 0)],
        &[PIN, write(HOST, !16)],
        &[PIN, write(LOCAL, u32::MAX)],
        // the enable, and both at once
        &[PIN, write(HOST, 16 << 16), LINE],
        &[PIN, write(HOST, 16 << 16 | 16)],
        // refused, and counted
        &[Access { side: HOST, ..PIN }, PIN],
        &[PIN, Access { side: 2, ..RESET }],
        &[PIN, Access { c: 1, ..clear }],
    ] {
        cases.ask(accesses, HOST, 4);
    }
}

fn mailboxes(cases: &mut Cases) {
    for side in [HOST, LOCAL] {
        cases.both(&[mail(side, RING)], 3);
    }
    cases.ask(&[mail(LOCAL, !RING)], HOST, 3);
    cases.ask(&[mail(LOCAL, RING), mail(LOCAL, 7)], HOST, 3);
    let rung = [mail(HOST, RING), mail(LOCAL, RING), write(LOCAL, 8)];
    cases.both(&rung, 3);
}

fn transfers(cases: &mut Cases) {
    cases.both(&[start(COPIED, 1), STEP, write(LOCAL, 32)], 5);
    cases.ask(&[start(COPIED, 2), STEP], LOCAL, 5);
    cases.both(&[start(IN_ABORT_RANGE, 1), STEP, write(HOST, 256)], 8);
    let to_range = [start(IN_ABORT_RANGE - 4, 2), STEP, STEP, STEP];
    cases.ask(&to_range, HOST, 8);
    cases.both(&[start(BELOW, 1), STEP], 9);
    let again = [start(ABOVE, 1), STEP, RESET, start(ABOVE, 1), STEP, RESET];
    cases.ask(&again, LOCAL, 9);
    cases.ask(&again[..5], HOST, 9);
}

/// A FIFO that is full, and a put more.
fn overflows(cases: &mut Cases) {
    let full = |fifo| -> Vec<Access> { (0..33).map(|entry| put(fifo, entry)).collect() };
    let none = Behind::Bytes(Vec::new());
    let lost = full(3);
    let cleared = [full(1), vec![write(LOCAL, 2)]].concat();
    assert!(cleared.len() <= MOST_PUTS);
    cases.add(&lost, &none, 0, 0);
    cases.add(&cleared, &none, 1, 1);
    cases.ask(&[put(1, 0)], HOST, 1);
    cases.ask(&[put(3, 0)], LOCAL, 0);
}

/// Positions 6 and 7.
fn entries(cases: &mut Cases) {
    cases.both(&[put(1, 0)], 6);
    cases.both(&[put(3, u32::MAX)], 7);
    for (fifo, position) in [(1, 6), (3, 7)] {
        let [first, second, out] = [put(fifo, 0), put(fifo, 7), take(fifo)];
        for accesses in [
            &[first, second, out][..],
            &[first, out, out, RESET],
            &[first, second, RESET, out],
            &[out, RESET],
        ] {
            cases.ask(accesses, LOCAL, position);
        }
    }
    cases.ask(&[put(1, 5), take(1), put(1, 6)], HOST, 6);
    cases.ask(&[put(3, 0), write(HOST, u32::MAX)], HOST, 7);
    // other FIFOs
    cases.ask(&[put(0, 1), put(2, 2), put(3, 3)], LOCAL, 6);
    cases.ask(&[put(1, 9), put(3, 8), RESET, put(1, 7)], HOST, 7);
    // by the wrong side, from the wrong side, and a take from another FIFO
    let by_other = Access {
        side: LOCAL,
        ..put(1, 4)
    };
    let refused = Access {
        side: HOST,
        ..take(1)
    };
    let some = [
        by_other,
        put(1, 3),
        refused,
        put(1, 0),
        take(2),
        put(1, 3),
        take(1),
        LINE,
        put(1, 0),
    ];
    cases.ask(&some, LOCAL, 6);
}

pub fn text() -> String {
    let mut cases = Cases::default();
    for add in [
        refusals,
        external_signal,
        mailboxes,
        transfers,
        overflows,
        entries,
    ] {
        add(&mut cases);
    }
    let mut portions = text::portions(PORTION, "whys", "WhyCase", "WhysAgree", UNFOLDED, &cases.0);
    let what = "-- accesses, the bytes behind them, side, position; the answer\n";
    portions[0].insert_str(0, what);
    text::file("questions of L7 and their answers", &portions.join("\n"))
}
