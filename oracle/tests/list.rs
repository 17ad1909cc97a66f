//! The corners of the text list and of the two programs: what goes in, and every byte that comes
//! out.

use std::io;

use oracle::access::Access;
use oracle::convert::{list_of, to_trace, trace_of};
use oracle::list::{line, list, read};
use oracle::trace::trace;

const ZEROS: &[u8] = b"0 0 0 0 0 0\n";
const ZEROS_RECORD: [u8; 20] = [
    0x42, 0x50, 0, 0, 0, 0, 0, 0, 0, 0, 0, 0, 0, 0, 0, 0, 0, 0, 0, 0,
];

const LONGEST: &[u8] = b"255 255 255 4294967295 4294967295 4294967295\n";
const LONGEST_RECORD: [u8; 20] = [
    0x42, 0x50, 0, 0, 255, 255, 255, 0, 255, 255, 255, 255, 255, 255, 255, 255, 255, 255, 255, 255,
];

/// What is written of a list, and nothing is refused.
#[track_caller]
fn gives_trace(list: &[u8], trace: &[u8]) {
    let (written, turned) = trace_of(list);
    assert_eq!(written, trace);
    assert_eq!(turned.accesses, trace.len() as u64 / 20);
    assert_eq!(turned.refusal, None);
}

/// A list that is refused behind so many lines.
#[track_caller]
fn is_refused(list: &[u8], behind: u64) {
    let (written, turned) = trace_of(list);
    let records = 20 * behind as usize;
    let last = format!("text 25 at {}\n", behind + 1);
    assert_eq!(written[records..], *last.as_bytes());
    assert_eq!((turned.accesses, turned.refusal), (behind, Some(25)));
}

/// A line is refused wherever it stands: alone, behind a line, and before one.
#[track_caller]
fn is_no_line(bytes: &[u8]) {
    assert_eq!(read(bytes), Err(25));
    is_refused(bytes, 0);
    is_refused(&[bytes, ZEROS].concat(), 0);
    is_refused(&[ZEROS, bytes].concat(), 1);
    is_refused(&[LONGEST, ZEROS, bytes, LONGEST].concat(), 2);
}

fn zeros_but(field: usize, word: &str) -> Vec<u8> {
    let mut words = ["0"; 6];
    words[field] = word;
    (words.join(" ") + "\n").into_bytes()
}

#[test]
fn a_line_is_six_numbers() {
    let access = Access::new(14, 0, 1, 16_380, 268_435_456, 4);
    assert_eq!(line(&access).bytes(), b"14 0 1 16380 268435456 4\n");
    assert_eq!(read(b"14 0 1 16380 268435456 4\n"), Ok((access, 25)));
    assert_eq!(read(b"14 0 1 16380 268435456 4\nx"), Ok((access, 25)));
    assert_eq!(list(&[access; 2]).len(), 50);
    gives_trace(
        b"14 0 1 16380 268435456 4\n",
        &[
            0x42, 0x50, 0, 0, 14, 0, 1, 0, 0xFC, 0x3F, 0, 0, 0, 0, 0, 0x10, 4, 0, 0, 0,
        ],
    );
}

#[test]
fn any_access_is_turned() {
    gives_trace(
        b"200 7 255 0 0 0\n",
        &[
            0x42, 0x50, 0, 0, 200, 7, 255, 0, 0, 0, 0, 0, 0, 0, 0, 0, 0, 0, 0, 0,
        ],
    );
    gives_trace(ZEROS, &ZEROS_RECORD);
    gives_trace(LONGEST, &LONGEST_RECORD);
    assert_eq!(list_of(&ZEROS_RECORD).0, ZEROS);
    assert_eq!(list_of(&LONGEST_RECORD).0, LONGEST);
    assert_eq!(LONGEST.len(), 45);
}

#[test]
fn the_record_number_wraps() {
    let lines = ZEROS.repeat(65_538);
    let (written, _) = trace_of(&lines);
    assert_eq!(written[20 * 65_535..][..4], [0x42, 0x50, 255, 255]);
    assert_eq!(written[20 * 65_536..][..4], [0x42, 0x50, 0, 0]);
    assert_eq!(written[20 * 65_537..][..4], [0x42, 0x50, 1, 0]);
    assert_eq!(list_of(&written).0, lines);
}

#[test]
fn the_last_line_needs_its_line_feed() {
    let (written, _) = trace_of(b"0 0 0 0 0 0");
    assert_eq!(written, b"text 25 at 1\n");
    for length in 1..ZEROS.len() {
        is_refused(&ZEROS[..length], 0);
        is_refused(&[ZEROS, &ZEROS[..length]].concat(), 1);
    }
    for length in 1..LONGEST.len() {
        is_refused(&LONGEST[..length], 0);
        is_refused(&[LONGEST, &LONGEST[..length]].concat(), 1);
    }
}

#[test]
fn a_carriage_return_is_refused() {
    is_no_line(b"0 0 0 0 0 0\r\n");
    is_no_line(b"0 0 0 0 0 0\r");
    is_no_line(b"\r\n");
}

#[test]
fn of_nothing_comes_nothing() {
    gives_trace(b"", b"");
    let (written, turned) = list_of(b"");
    assert_eq!(written, b"");
    assert_eq!((turned.accesses, turned.refusal), (0, None));
}

#[test]
fn an_empty_line_is_refused() {
    let (written, _) = trace_of(b"\n");
    assert_eq!(written, b"text 25 at 1\n");
    is_no_line(b"\n");
    is_no_line(b"\n\n");
    is_refused(b"0 0 0 0 0 0\n\n", 1);
}

#[test]
fn other_forms_are_refused() {
    for line in [
        &b"+0 0 0 0 0 0\n"[..],
        b"0 0 0 0 0 +1\n",
        b"-0 0 0 0 0 0\n",
        b"0 0 0 -1 0 0\n",
        b"0\t0 0 0 0 0\n",
        b"0 0 0 0 0\t0\n",
        b"0 0 0 0 0 0\t\n",
        b"0  0 0 0 0 0\n",
        b"0 0 0 0 0  0\n",
        b" 0 0 0 0 0 0\n",
        b"0 0 0 0 0 0 \n",
        b"0 0 0 0 0 0 0\n",
        b"0 0 0 0 0\n",
        b"0 0 0 0 0 \n",
        b"0\n0 0 0 0 0\n",
        b"0,0,0,0,0,0\n",
        b"0, 0, 0, 0, 0, 0\n",
        b"0 0 0 1,000 0 0\n",
        b"0 0 0 1_000 0 0\n",
        b"0 0 0 1.0 0 0\n",
        b"0 0 0 1e3 0 0\n",
        b"0 0 0 0x10 0 0\n",
        b"0 0 0 10h 0 0\n",
        b"0 0 0 ff 0 0\n",
        b"\xEF\xBB\xBF0 0 0 0 0 0\n",
        b"\x000 0 0 0 0 0\n",
        b"0\x000 0 0 0 0\n",
        b"0 0 0 0 0 0\0",
        b"0 0 0 0 0 0\0\n",
        b"0\xA00 0 0 0 0\n",
        b"0 0 0 0 0 0\x0B\n",
        b"0 0 0 0 0 0\x0C",
        b"0 0 0 0 0 0\x85",
        "٠ 0 0 0 0 0\n".as_bytes(),
        "0 0 0 0 0 ０\n".as_bytes(),
        b"x\n",
        b"# 0 0 0 0 0 0\n",
        b"end 3\n",
    ] {
        is_no_line(line);
    }
}

#[test]
fn every_wrong_byte_in_every_place_is_refused() {
    let good = b"1 2 3 4 5 6\n";
    for at in 0..good.len() {
        for byte in 0..=255 {
            let mut line = good.to_vec();
            line[at] = byte;
            let is_digit = byte.is_ascii_digit() && at % 2 == 0;
            match read(&line) {
                Ok(_) => assert!(is_digit || byte == good[at]),
                Err(number) => {
                    assert_eq!(number, 25);
                    assert!(!is_digit && byte != good[at], "{byte} at {at}");
                }
            }
        }
    }
}

#[test]
fn no_leading_zeros() {
    for field in 0..6 {
        assert!(read(&zeros_but(field, "0")).is_ok());
        assert!(read(&zeros_but(field, "10")).is_ok());
        for word in ["00", "01", "010", "0255", "0000000000", "04294967295"] {
            is_no_line(&zeros_but(field, word));
        }
        is_no_line(&zeros_but(field, &"0".repeat(5000)));
    }
}

#[test]
fn numbers_that_fit() {
    for (fields, most, further) in [
        (
            0..3,
            255,
            &["260", "999", "1000", "65536", "4294967296", "4294967297"][..],
        ),
        (
            3..6,
            u32::MAX,
            &["4294967300", "5000000000", "9999999999", "42949672950"],
        ),
    ] {
        for field in fields {
            for fits in [0, 1, 9, 10, 99, 100, 254, most - 1, most] {
                let bytes = zeros_but(field, &fits.to_string());
                let (access, length) = read(&bytes).expect("a line");
                assert_eq!(access.numbers()[field], fits);
                assert_eq!(length, bytes.len());
            }
            let past = u64::from(most) + 1;
            is_no_line(&zeros_but(field, &past.to_string()));
            is_no_line(&zeros_but(field, &(past + 1).to_string()));
            for word in further {
                is_no_line(&zeros_but(field, word));
            }
            // 0 or 1, counted in 64 bits or in 128
            is_no_line(&zeros_but(field, "18446744073709551616"));
            is_no_line(&zeros_but(field, "18446744073709551617"));
            let in_128 = "340282366920938463463374607431768211456";
            is_no_line(&zeros_but(field, in_128));
            is_no_line(&zeros_but(field, &"9".repeat(5000)));
        }
    }
}

#[test]
fn the_refusal_stands_behind_the_records() {
    assert_eq!(trace_of(b"x\n").0, b"text 25 at 1\n");
    let (written, _) = trace_of(b"0 0 0 0 0 0\n255 255 255 4294967295 4294967295 4294967295\nx\n");
    let second = trace(&[Access::default(), read(LONGEST).unwrap().0]);
    assert_eq!(written[..40], second);
    assert_eq!(written[..20], ZEROS_RECORD);
    assert_eq!(written[40..], *b"text 25 at 3\n");
}

#[test]
fn lines_count_from_1_and_records_from_0() {
    assert_eq!(trace_of(b"x").0, b"text 25 at 1\n");
    assert_eq!(list_of(b"x").0, b"log 20 at 0\n");
    assert_eq!(trace_of(b"0 0 0 0 0 0\nx").0[20..], *b"text 25 at 2\n");
    let (written, turned) = list_of(&[ZEROS_RECORD, ZEROS_RECORD].concat());
    assert_eq!(written, b"0 0 0 0 0 0\nlog 22 at 1\n");
    assert_eq!((turned.accesses, turned.refusal), (1, Some(22)));
}

#[test]
fn the_line_number_does_not_wrap() {
    let mut lines = ZEROS.repeat(70_000);
    lines.extend(b"x\n");
    is_refused(&lines, 70_000);
    let mut records = trace(&vec![Access::default(); 70_001]);
    records[20 * 70_000] ^= 1;
    assert!(list_of(&records).0.ends_with(b"\nlog 21 at 70000\n"));
}

#[test]
fn nothing_is_looked_at_behind_a_refused_line() {
    for behind in [&b""[..], ZEROS, b"\n", b"x", b"text 25 at 1\n"] {
        let list = [ZEROS, b"x\n", behind].concat();
        assert_eq!(trace_of(&list).0[20..], *b"text 25 at 2\n");
        let trace = [&ZEROS_RECORD, &[0; 20][..], behind].concat();
        assert_eq!(list_of(&trace).0, b"0 0 0 0 0 0\nlog 21 at 1\n");
    }
}

#[test]
fn bytes_left_over() {
    for length in 1..20 {
        let left = &ZEROS_RECORD[..length];
        assert_eq!(list_of(left).0, b"log 20 at 0\n");
        let trace = [&ZEROS_RECORD, left].concat();
        assert_eq!(list_of(&trace).0, b"0 0 0 0 0 0\nlog 20 at 1\n");
        assert_eq!(list_of(&vec![0; length]).0, b"log 20 at 0\n");
    }
}

#[test]
fn a_refused_output_is_refused() {
    let (refused, _) = trace_of(b"0 0 0 0 0 0\nx\n");
    assert_eq!(list_of(&refused).0, b"0 0 0 0 0 0\nlog 20 at 1\n");
    assert_eq!(list_of(b"text 25 at 9999999\n").0, b"log 20 at 0\n");
    assert_eq!(list_of(b"text 25 at 10000000\n").0, b"log 21 at 0\n");
    for number in 20..=23 {
        is_no_line(format!("log {number} at 0\n").as_bytes());
    }
    let (refused, _) = list_of(&[&ZEROS_RECORD[..], b"BP"].concat());
    assert_eq!(refused, b"0 0 0 0 0 0\nlog 20 at 1\n");
    is_refused(&refused, 1);
}

#[test]
fn lines_of_46_bytes_are_refused() {
    let (good, _) = LONGEST.split_at(44);
    for end in [&b"0\n"[..], b" \n", b"\r\n", b"\0\n", b"9", b" 0"] {
        is_no_line(&[good, end].concat());
    }
    for at in [1, 5, 9, 13, 24, 35] {
        let mut longer = LONGEST.to_vec();
        longer.insert(at, b'5');
        assert_eq!(longer.len(), 46);
        is_no_line(&longer);
    }
}

#[test]
fn an_endless_line_is_refused() {
    for byte in [b'0', b'1', b' ', b'x', b'\n', 0] {
        let mut written = Vec::new();
        let turned = to_trace(io::repeat(byte), &mut written).expect("memory is written");
        assert_eq!(written, b"text 25 at 1\n");
        assert_eq!(turned.refusal, Some(25));
    }
}
