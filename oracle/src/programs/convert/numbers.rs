//! Numbers at the limits of each field, with leading zeros, and of any number of digits.

use super::{Cases, LONGEST, SHORTEST};

/// Words that are taken in a field of a byte; those of the second list in one of 32 bits alone.
const BYTES: [&str; 12] = [
    "0", "1", "9", "10", "19", "99", "100", "127", "128", "199", "254", "255",
];
const WORDS: [&str; 15] = [
    "256",
    "257",
    "260",
    "300",
    "999",
    "1000",
    "2550",
    "65535",
    "65536",
    "16777216",
    "999999999",
    "1000000000",
    "2147483648",
    "4294967294",
    "4294967295",
];

/// Words that are taken in no field: one past the limit and further, what is 0, 1 or the limit when
/// it is counted in 32, 64 or 128 bits, and leading zeros.
const NOWHERE: [&str; 28] = [
    "4294967296",
    "4294967297",
    "4294967300",
    "4294967305",
    "4294967551",
    "4300000000",
    "5000000000",
    "8589934592",
    "9999999999",
    "10000000000",
    "42949672950",
    "42949672960",
    "18446744069414584320",
    "18446744073709551615",
    "18446744073709551616",
    "18446744073709551617",
    "184467440737095516160",
    "340282366920938463463374607431768211456",
    "00",
    "01",
    "010",
    "001",
    "0255",
    "0256",
    "0000000000",
    "00000000001",
    "04294967295",
    "",
];

pub fn add(cases: &mut Cases) {
    for field in 0..6 {
        for word in BYTES {
            taken(cases, field, word);
        }
        for word in WORDS {
            if field < 3 {
                refused(cases, field, word);
            } else {
                taken(cases, field, word);
            }
        }
        for word in NOWHERE {
            refused(cases, field, word);
        }
        for digits in [11, 12, 19, 20, 21, 39, 40, 44, 45, 46, 100, 3000] {
            for digit in ["0", "1", "9"] {
                refused(cases, field, &digit.repeat(digits));
            }
        }
        one_digit_more(cases, field);
    }
}

/// The line with this word in a field, beside zeros.
fn line(field: usize, word: &str) -> Vec<u8> {
    let mut words = ["0"; 6];
    words[field] = word;
    (words.join(" ") + "\n").into_bytes()
}

fn taken(cases: &mut Cases, field: usize, word: &str) {
    cases.taken(&[&line(field, word)]);
    cases.taken(&[SHORTEST, &line(field, word), LONGEST]);
}

fn refused(cases: &mut Cases, field: usize, word: &str) {
    cases.refused(0, &[&line(field, word)]);
    cases.refused(1, &[LONGEST, &line(field, word), SHORTEST]);
}

/// The longest line with a digit more in one field has 46 bytes, and is none.
fn one_digit_more(cases: &mut Cases, field: usize) {
    let text = String::from_utf8_lossy(LONGEST);
    let mut words: Vec<String> = text.split_whitespace().map(str::to_string).collect();
    for digit in ["0", "5"] {
        words[field] += digit;
        let line = words.join(" ") + "\n";
        assert_eq!(line.len(), LONGEST.len() + 1);
        cases.refused(0, &[line.as_bytes()]);
        cases.refused(2, &[SHORTEST, LONGEST, line.as_bytes(), SHORTEST]);
        words[field].pop();
    }
}
