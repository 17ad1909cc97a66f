//! The trace reader, and the replay on document 01's whole case and on damaged traces.

use oracle::access::{kind, Access};
use oracle::arbitrary;
use oracle::replay::{self, WHOLE_CASE};
use oracle::rng::Rng;
use oracle::trace::{next_number, read, record, trace};

fn text(trace: &[u8]) -> String {
    String::from_utf8(replay::text(trace)).unwrap()
}

#[test]
fn whole_case() {
    let bytes = [
        0x42, 0x50, 0, 0, 9, 1, 0, 0, 0, 0, 0, 0, 0, 0, 0, 1, 0, 0, 0, 0, //
        0x42, 0x50, 1, 0, 10, 0, 0, 0, 0, 0, 0, 0, 0, 0, 0, 0, 0, 0, 0, 0, //
        0x42, 0x50, 2, 0, 15, 0, 0, 0, 0, 0, 0, 0, 0, 0, 0, 0, 0, 0, 0, 0,
    ];
    assert_eq!(trace(&WHOLE_CASE), bytes);
    assert_eq!(text(&bytes), "0 0 0 0\n1 0 0 1\n2 10 0 0\nend 3\n");
}

#[test]
fn empty_input() {
    assert_eq!(text(&[]), "end 0\n");
}

#[test]
fn bytes_left_over() {
    let trace = trace(&WHOLE_CASE);
    for length in 1..20 {
        assert_eq!(text(&trace[..length]), "log 20 at 0\n");
        assert_eq!(text(&vec![0; length]), "log 20 at 0\n");
        let two = text(&trace[..40 + length]);
        assert_eq!(two, "0 0 0 0\n1 0 0 1\nlog 20 at 2\n");
    }
}

#[test]
fn refusals_stop_the_replay() {
    for (at, line) in [
        (20, "log 21 at 1\n"),
        (21, "log 21 at 1\n"),
        (22, "log 22 at 1\n"),
        (23, "log 22 at 1\n"),
        (27, "log 23 at 1\n"),
    ] {
        let mut trace = trace(&WHOLE_CASE);
        trace[at] ^= 1;
        assert_eq!(text(&trace), format!("0 0 0 0\n{line}"));
    }
}

#[test]
fn the_record_number_wraps_and_the_count_does_not() {
    let reads = vec![Access::new(kind::LINE, 0, 0, 0, 0, 0); 65_538];
    let mut trace = trace(&reads);
    let whole = text(&trace);
    assert!(whole.ends_with("65534 0 0 0\n65535 0 0 0\n0 0 0 0\n1 0 0 0\nend 65538\n"));
    trace[65_537 * 20 + 7] = 1;
    assert!(text(&trace).ends_with("65535 0 0 0\n0 0 0 0\nlog 23 at 65537\n"));
}

#[test]
fn refusals_come_in_order() {
    let good = record(0x1234, &WHOLE_CASE[0]);
    let with = |changes: &[usize]| {
        let mut bytes = good;
        changes.iter().for_each(|at| bytes[*at] ^= 1);
        bytes
    };
    assert_eq!(read(&good, 0x1234), Ok(WHOLE_CASE[0]));
    for (changes, number) in [
        (&[0][..], 21),
        (&[1], 21),
        (&[2], 22),
        (&[3], 22),
        (&[7], 23),
        (&[0, 2, 7], 21),
        (&[1, 7], 21),
        (&[2, 7], 22),
        (&[3, 7], 22),
    ] {
        let bytes = with(changes);
        assert_eq!(read(&bytes, 0x1234), Err(number), "{changes:?}");
        for length in 0..20 {
            assert_eq!(read(&bytes[..length], 0x1234), Err(20));
        }
    }
    assert_eq!(read(&good, 0x3412), Err(22));
    assert_eq!(read(&good, 0x1235), Err(22));
}

#[test]
fn a_record_is_read_back() {
    let mut rng = Rng::new(8);
    for _ in 0..1000 {
        let number = rng.word() as u16;
        let access = arbitrary::access(&mut rng);
        let mut bytes = record(number, &access).to_vec();
        assert_eq!(read(&bytes, number), Ok(access));
        bytes.extend([0xEE; 7]);
        assert_eq!(read(&bytes, number), Ok(access));
        assert_eq!(read(&bytes, next_number(number)), Err(22));
    }
    assert_eq!(next_number(65_535), 0);
}
