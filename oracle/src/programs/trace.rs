//! Records for the trace reader, whole, short and wrong ones; and room for the writer.
//!
//! stdin: cases of 60 bytes: a record number (2 bytes, least byte first), a length (the same), an
//! access (kind, side, S, a zero byte, A, B, C), and 40 bytes that begin with so many in question.
//! stdout: for each two lines. The reader, on those bytes with that number expected: 0 and the
//! access's six fields, or the refusal's number; then the number after the expected one. The writer,
//! given the number, the access and a buffer of those bytes: 0 and the next number, or the
//! refusal's; then the bytes of the buffer.

use std::collections::BTreeSet;

use crate::access::Access;
use crate::arbitrary;
use crate::decimal::{decimal, line};
use crate::rng::Rng;
use crate::trace::{next_number, read, record, refused, write, RECORD_LENGTH};

use super::{change_bits, Program};

const SEED: u64 = 300;
/// Of what is written, which draws apart from what is read.
const WRITES_SEED: u64 = 301;
/// The most bytes that a case is about.
const ROOM: usize = 40;

/// Numbers at their borders: of a byte, of a bit, of both bytes.
const NUMBERS: [u16; 10] = [0, 1, 127, 128, 255, 256, 257, 0x1234, 65_534, 65_535];

/// An access of which every byte differs from the others.
const EVERY_BYTE: Access = Access::new(9, 7, 5, 0x1413_1211, 0x2423_2221, 0x3433_3231);

const HIGHEST: Access = Access::new(255, 255, 255, u32::MAX, u32::MAX, u32::MAX);

struct Case {
    number: u16,
    access: Access,
    bytes: Vec<u8>,
}

impl Case {
    fn read(&self) -> Result<Access, u8> {
        read(&self.bytes, self.number)
    }

    /// The writer's answer, and the buffer afterwards.
    fn write(&self) -> (Result<u16, u8>, Vec<u8>) {
        let mut buffer = self.bytes.clone();
        let answer = write(self.number, &self.access, &mut buffer);
        (answer, buffer)
    }
}

#[derive(Default)]
struct Cases(Vec<Case>);

impl Cases {
    /// What is read. An access of this place alone is written there.
    fn add(&mut self, expected: u16, bytes: &[u8]) {
        // six numbers to an access
        let mut rng = Rng::after(WRITES_SEED, 6 * self.0.len() as u64);
        self.add_write(expected, arbitrary::access(&mut rng), bytes);
    }

    fn add_write(&mut self, number: u16, access: Access, bytes: &[u8]) {
        assert!(bytes.len() <= ROOM);
        self.0.push(Case {
            number,
            access,
            bytes: bytes.to_vec(),
        });
    }

    /// A whole record with some bytes changed by their bits.
    fn changed(&mut self, expected: u16, changes: &[(usize, u8)]) {
        let mut bytes = record(expected, &EVERY_BYTE);
        change_bits(&mut bytes, changes);
        self.add(expected, &bytes);
    }

    fn count(&self, is_one: impl Fn(&Case) -> bool) -> usize {
        self.0.iter().filter(|case| is_one(case)).count()
    }
}

fn cases() -> Cases {
    let mut cases = Cases::default();
    whole(&mut cases);
    lengths(&mut cases);
    wrong_bytes(&mut cases);
    numbers(&mut cases);
    several_faults(&mut cases);
    random(&mut cases);
    writes(&mut cases);
    assert_reads(&cases);
    assert_writes(&cases);
    cases
}

fn assert_reads(cases: &Cases) {
    for (number, least) in [
        (0, 100),
        (refused::SHORT, 100),
        (refused::MARK, 60),
        (refused::NUMBER, 60),
        (refused::ZERO_BYTE, 20),
    ] {
        let count = cases.count(|case| case.read().err().unwrap_or(0) == number);
        assert!(count >= least, "{number}");
    }
}

/// Every length is written to, every number of the list is written, and every byte of a record but
/// the mark and the zero byte is stored as 0 and as 255. All that is stored differs from what stood
/// there, somewhere.
fn assert_writes(cases: &Cases) {
    let mut lengths = BTreeSet::new();
    let mut numbers = BTreeSet::new();
    let mut stored = BTreeSet::new();
    let mut changed = BTreeSet::new();
    for case in &cases.0 {
        lengths.insert(case.bytes.len());
        if let (Ok(_), buffer) = case.write() {
            numbers.insert(case.number);
            for at in 0..RECORD_LENGTH {
                stored.insert((at, buffer[at]));
                if buffer[at] != case.bytes[at] {
                    changed.insert(at);
                }
            }
        }
    }
    assert!(lengths.into_iter().eq(0..=ROOM));
    assert!(NUMBERS.iter().all(|number| numbers.contains(number)));
    for at in (2..RECORD_LENGTH).filter(|at| *at != 7) {
        assert!(stored.contains(&(at, 0)) && stored.contains(&(at, 255)));
    }
    assert!(changed.into_iter().eq(0..RECORD_LENGTH));
    let refused = cases.count(|case| case.write().0 == Err(refused::NO_ROOM));
    assert!(refused >= 150);
    assert!(cases.0.len() - refused >= 400);
}

/// Whole records, the fields at their borders and each byte alone.
fn whole(cases: &mut Cases) {
    for number in NUMBERS {
        cases.add(number, &record(number, &EVERY_BYTE));
        cases.add(number, &record(number, &Access::default()));
    }
    cases.add(3, &record(3, &HIGHEST));
    for at in (4..RECORD_LENGTH).filter(|at| *at != 7) {
        for value in [1, 128, 255] {
            let mut bytes = record(0, &Access::default());
            bytes[at] = value;
            cases.add(0, &bytes);
        }
    }
}

/// Every length to 40, of a record and of one with each fault.
fn lengths(cases: &mut Cases) {
    for (expected, at, bits) in [(6, 0, 0), (6, 0, 1), (6, 2, 3), (6, 7, 1)] {
        let mut bytes = [0xEE; ROOM];
        bytes[..RECORD_LENGTH].copy_from_slice(&record(expected, &EVERY_BYTE));
        bytes[at] ^= bits;
        for length in 0..=ROOM {
            cases.add(expected, &bytes[..length]);
        }
    }
    for length in 0..RECORD_LENGTH {
        cases.add(0, &vec![0; length]);
    }
}

/// Each bit of the mark, the number and the zero byte alone, and each of these bytes turned round.
fn wrong_bytes(cases: &mut Cases) {
    for at in [0, 1, 2, 3, 7] {
        for bits in (0..8).map(|bit| 1 << bit).chain([255]) {
            cases.changed(0x1234, &[(at, bits)]);
        }
    }
    let mut swapped = record(0, &EVERY_BYTE);
    swapped.swap(0, 1);
    cases.add(0, &swapped);
    for (at, value) in [(0, 0), (1, 0), (0, 0x50), (1, 0x42)] {
        let mut bytes = record(0, &EVERY_BYTE);
        bytes[at] = value;
        cases.add(0, &bytes);
    }
}

/// Every number of the list against every other.
fn numbers(cases: &mut Cases) {
    for expected in NUMBERS {
        for number in NUMBERS {
            cases.add(expected, &record(number, &EVERY_BYTE));
        }
    }
    cases.add(0x1234, &record(0x3412, &EVERY_BYTE));
}

fn several_faults(cases: &mut Cases) {
    for mark in [0, 1] {
        for number in [2, 3] {
            cases.changed(77, &[(mark, 1), (number, 1)]);
            cases.changed(77, &[(mark, 1), (number, 1), (7, 1)]);
        }
        cases.changed(77, &[(mark, 128), (7, 128)]);
    }
    cases.changed(77, &[(0, 1), (1, 1)]);
    cases.changed(77, &[(2, 1), (7, 1)]);
    cases.changed(77, &[(3, 1), (7, 1)]);
    cases.changed(77, &[(2, 1), (3, 1), (7, 1)]);
}

/// Whole records, one in three with random bytes in places. They draw one behind the other, so
/// further ones go to the end.
fn random(cases: &mut Cases) {
    let mut rng = Rng::new(SEED);
    for _ in 0..90 {
        let number = rng.word() as u16;
        let access = arbitrary::access(&mut rng);
        let mut bytes = record(number, &access);
        if rng.one_in(3) {
            for _ in 0..2 {
                bytes[rng.below(8) as usize] = rng.byte();
            }
        }
        cases.add(number, &bytes);
    }
}

/// Every length to 40, over bytes that differ from what is stored; every number; and accesses at
/// their borders, over the record of another access.
fn writes(cases: &mut Cases) {
    let mut rng = Rng::after(WRITES_SEED, 1 << 32);
    let counting: Vec<u8> = (101..).take(ROOM).collect();
    for length in 0..=ROOM {
        for bytes in [&[0; ROOM], &[255; ROOM], &counting[..]] {
            let number = rng.pick(&NUMBERS);
            cases.add_write(number, arbitrary::access(&mut rng), &bytes[..length]);
        }
    }
    for number in NUMBERS {
        for length in [19, 20, 21, 40] {
            cases.add_write(number, EVERY_BYTE, &counting[..length]);
        }
    }
    for access in borders() {
        let number = rng.pick(&NUMBERS);
        let bytes = record(number, &arbitrary::access(&mut rng));
        cases.add_write(number, access, &bytes);
    }
}

/// The lowest and the highest access, and each byte alone at its borders.
fn borders() -> Vec<Access> {
    let mut accesses = vec![Access::default(), HIGHEST];
    for value in [1, 127, 128, 255] {
        accesses.push(Access::new(value, 0, 0, 0, 0, 0));
        accesses.push(Access::new(0, value, 0, 0, 0, 0));
        accesses.push(Access::new(0, 0, value, 0, 0, 0));
        for shift in [0, 8, 16, 24] {
            let word = u32::from(value) << shift;
            accesses.push(Access::new(0, 0, 0, word, 0, 0));
            accesses.push(Access::new(0, 0, 0, 0, word, 0));
            accesses.push(Access::new(0, 0, 0, 0, 0, word));
        }
    }
    accesses
}

fn read_line(case: &Case) -> String {
    let next = next_number(case.number);
    match case.read() {
        Ok(access) => format!("0 {} {next}\n", decimal(access.numbers())),
        Err(number) => format!("{number} {next}\n"),
    }
}

fn write_line(case: &Case) -> String {
    let (answer, buffer) = case.write();
    let mut numbers = match answer {
        Ok(next) => vec![0, next.into()],
        Err(number) => vec![number.into()],
    };
    numbers.extend(buffer.into_iter().map(u32::from));
    line(numbers)
}

pub fn program() -> Program {
    let mut stdin = Vec::new();
    let mut stdout = String::new();
    for case in cases().0 {
        let Case {
            number,
            access,
            bytes,
        } = &case;
        stdin.extend(number.to_le_bytes());
        stdin.extend((bytes.len() as u16).to_le_bytes());
        stdin.extend([access.kind, access.side, access.s, 0]);
        stdin.extend(
            [access.a, access.b, access.c]
                .map(u32::to_le_bytes)
                .concat(),
        );
        stdin.extend(bytes);
        stdin.resize(stdin.len() + ROOM - bytes.len(), 0xEE);
        stdout += &read_line(&case);
        stdout += &write_line(&case);
    }
    Program {
        name: "trace_test",
        stdin,
        stdout: stdout.into_bytes(),
    }
}
