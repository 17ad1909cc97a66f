//! Lists and traces there and back, random ones and changed ones. What is expected of a program is
//! said here once more, word by word and not byte by byte.

use std::io::{self, Read};

use oracle::access::Access;
use oracle::arbitrary;
use oracle::convert::{list_of, to_text, to_trace, trace_of, Turned};
use oracle::list::{line, list};
use oracle::rng::Rng;
use oracle::trace::{read, record, trace};
use oracle::{long_list, long_trace, FEWEST_RECORDS};

const ROUNDS: usize = 20_000;

// What is expected

/// A word that is a number as it would be written.
fn number<T: std::str::FromStr + ToString>(word: &str) -> Option<T> {
    let number: T = word.parse().ok()?;
    (number.to_string() == word).then_some(number)
}

/// The access of a line without its line feed.
fn access(line: &[u8]) -> Option<Access> {
    let line = std::str::from_utf8(line).ok()?;
    let words: Vec<&str> = line.split(' ').collect();
    let [kind, side, s, a, b, c] = words[..] else {
        return None;
    };
    Some(Access {
        kind: number(kind)?,
        side: number(side)?,
        s: number(s)?,
        a: number(a)?,
        b: number(b)?,
        c: number(c)?,
    })
}

/// The accesses of a list up to its end or its first line that is none, and what is left.
fn listed(mut list: &[u8]) -> (Vec<Access>, &[u8]) {
    let mut accesses = Vec::new();
    while let Some(end) = list.iter().position(|byte| *byte == b'\n') {
        let Some(access) = access(&list[..end]) else {
            break;
        };
        accesses.push(access);
        list = &list[end + 1..];
    }
    (accesses, list)
}

/// The accesses of a trace up to its end or its first bytes that are no record with its number,
/// and what is left.
fn traced(mut trace: &[u8]) -> (Vec<Access>, &[u8]) {
    let mut accesses = Vec::new();
    while trace.len() >= 20 {
        let (bytes, rest) = trace.split_at(20);
        let word = |at: usize| u32::from_le_bytes(bytes[at..at + 4].try_into().unwrap());
        let access = Access::new(bytes[4], bytes[5], bytes[6], word(8), word(12), word(16));
        if record(accesses.len() as u16, &access) != bytes {
            break;
        }
        accesses.push(access);
        trace = rest;
    }
    (accesses, trace)
}

/// A list is turned whole where it is one, and then its trace gives it back; else to the line that
/// is refused, and no further, and what is written is no trace.
#[track_caller]
fn turns_list(bytes: &[u8]) -> bool {
    let (accesses, left) = listed(bytes);
    let whole = left.is_empty();
    assert_eq!(bytes, [&list(&accesses), left].concat());

    let count = accesses.len() as u64;
    let (refusal, refused_back) = if whole {
        (None, None)
    } else {
        (Some(25), Some(20))
    };
    let (mut there, mut back) = (trace(&accesses), list(&accesses));
    if !whole {
        there.extend(format!("text 25 at {}\n", count + 1).bytes());
        back.extend(format!("log 20 at {count}\n").bytes());
    }
    assert_eq!(trace_of(bytes), (there.clone(), turned(count, refusal)));
    assert_eq!(list_of(&there), (back, turned(count, refused_back)));
    whole
}

/// A trace is turned whole where it is one, and then its list gives it back; else to the record
/// that is refused, and no further, and what is written is no list.
#[track_caller]
fn turns_trace(bytes: &[u8]) -> bool {
    let (accesses, left) = traced(bytes);
    let whole = left.is_empty();
    assert_eq!(bytes, [&trace(&accesses), left].concat());

    let count = accesses.len() as u64;
    let refusal = read(left, count as u16).err().filter(|_| !whole);
    let (mut there, mut back) = (list(&accesses), trace(&accesses));
    if !whole {
        let refusal = refusal.expect("no record");
        there.extend(format!("log {refusal} at {count}\n").bytes());
        back.extend(format!("text 25 at {}\n", count + 1).bytes());
    }
    assert_eq!(list_of(bytes), (there.clone(), turned(count, refusal)));
    let refused_back = refusal.map(|_| 25);
    assert_eq!(trace_of(&there), (back, turned(count, refused_back)));
    whole
}

fn turned(accesses: u64, refusal: Option<u8>) -> Turned {
    Turned { accesses, refusal }
}

// Random lists and traces

/// A few accesses, some with numbers of few digits.
fn few(rng: &mut Rng) -> Vec<Access> {
    let count = rng.below(6);
    let any = rng.pick(&[arbitrary::access, arbitrary::varied_access]);
    (0..count).map(|_| any(rng)).collect()
}

fn changed(rng: &mut Rng, mut bytes: Vec<u8>) -> Vec<u8> {
    for _ in 0..=rng.below(3) {
        arbitrary::change(rng, &mut bytes);
    }
    bytes
}

/// Both outcomes are among those of a property.
fn both(mut outcome: impl FnMut(usize) -> bool) {
    let whole = (0..ROUNDS).filter(|round| outcome(*round)).count();
    assert!((100..=ROUNDS - 100).contains(&whole), "{whole}");
}

#[test]
fn accesses_come_back_from_a_list_and_from_a_trace() {
    let mut rng = Rng::new(30);
    for _ in 0..ROUNDS {
        let accesses = few(&mut rng);
        let (list, trace) = (list(&accesses), trace(&accesses));
        assert_eq!(listed(&list), (accesses.clone(), &[][..]));
        assert_eq!(trace_of(&list).0, trace);
        assert!(turns_list(&list) && turns_trace(&trace));
    }
}

#[test]
fn a_changed_list_is_turned_to_the_change() {
    let mut rng = Rng::new(31);
    both(|_| {
        let list = list(&few(&mut rng));
        turns_list(&changed(&mut rng, list))
    });
}

#[test]
fn a_changed_trace_is_turned_to_the_change() {
    let mut rng = Rng::new(32);
    both(|_| {
        let trace = trace(&few(&mut rng));
        turns_trace(&changed(&mut rng, trace))
    });
}

/// Words of a list in any order: one or two digits, spaces, line feeds.
#[test]
fn a_text_of_the_right_bytes_is_turned_to_its_first_wrong_line() {
    let mut rng = Rng::new(33);
    both(|round| {
        let mut text = Vec::new();
        for _ in 0..=round % 3 {
            for field in 0..5 + rng.below(9) / 4 {
                text.extend(rng.pick(&[&b"0"[..], b"7", b"9", b"12", b"30", b"99"]));
                text.push(if field < 5 || rng.one_in(9) {
                    b' '
                } else {
                    b'\n'
                });
            }
        }
        turns_list(&text)
    });
}

#[test]
fn any_bytes_are_turned_to_the_first_wrong_one() {
    let mut rng = Rng::new(34);
    for _ in 0..ROUNDS {
        let length = rng.below(60);
        let bytes: Vec<u8> = (0..length).map(|_| rng.byte()).collect();
        turns_list(&bytes);
        turns_trace(&bytes);
        let letters: Vec<u8> = bytes
            .iter()
            .map(|byte| b"0159 \n"[*byte as usize % 6])
            .collect();
        turns_list(&letters);
    }
}

#[test]
fn a_line_has_no_other_line_at_its_front() {
    let mut rng = Rng::new(35);
    for _ in 0..ROUNDS {
        let access = arbitrary::varied_access(&mut rng);
        let line = line(&access);
        let (last, front) = line.bytes().split_last().expect("a line is not empty");
        assert_eq!(*last, b'\n');
        assert!(!front.contains(&b'\n'));
        assert!((12..=45).contains(&line.bytes().len()));
    }
}

#[test]
fn a_long_trace_comes_back() {
    let (list, trace) = (long_list(FEWEST_RECORDS), long_trace(FEWEST_RECORDS));
    assert_eq!(list_of(&trace).0, list);
    assert!(turns_list(&list) && turns_trace(&trace));
}

// In portions

/// Gives at most so many bytes at a time.
struct Portions<'a> {
    left: &'a [u8],
    portion: usize,
}

impl Read for Portions<'_> {
    fn read(&mut self, room: &mut [u8]) -> io::Result<usize> {
        let most = self.portion.min(room.len());
        self.left.read(&mut room[..most])
    }
}

#[track_caller]
fn portions_are_not_seen(list: &[u8], trace: &[u8], portion: usize) {
    let by = |left| Portions { left, portion };
    let mut written = Vec::new();
    let turned = to_trace(by(list), &mut written).expect("memory is read and written");
    assert_eq!((written, turned), trace_of(list), "{portion}");
    let mut written = Vec::new();
    let turned = to_text(by(trace), &mut written).expect("memory is read and written");
    assert_eq!((written, turned), list_of(trace), "{portion}");
}

#[test]
fn a_list_or_a_trace_may_come_in_any_portions() {
    let mut rng = Rng::new(36);
    let longest = Access::new(255, 255, 255, u32::MAX, u32::MAX, u32::MAX);
    let mut accesses = vec![longest, Access::default(), longest];
    accesses.extend(few(&mut rng));
    let (list, trace) = (list(&accesses), trace(&accesses));
    for portion in 1..=list.len() + 1 {
        portions_are_not_seen(&list, &trace, portion);
        for _ in 0..20 {
            let list = changed(&mut rng, list.clone());
            let trace = changed(&mut rng, trace.clone());
            portions_are_not_seen(&list, &trace, portion);
        }
    }
}

#[test]
fn a_line_may_lie_across_the_end_of_a_piece() {
    // so much is read at a time
    let piece = 1 << 16;
    let mut rng = Rng::new(37);
    let any = |_| arbitrary::varied_access(&mut rng);
    let accesses: Vec<Access> = (0..4000).map(any).collect();
    for from in 0..100 {
        // each piece ends in another place of a line
        assert!(turns_list(&list(&accesses[from..])));
    }
    let (list, trace) = (list(&accesses), trace(&accesses));
    for end in piece - 50..=piece + 50 {
        turns_list(&list[..end]);
        turns_trace(&trace[..end]);
    }
    for portion in [1, 2, 3, 4093, piece - 1, piece, piece + 1] {
        portions_are_not_seen(&list, &trace, portion);
    }
}
