//! Lines that are not in the form, wherever they stand, and a byte that is changed, added or lost
//! in any place.

use super::{Cases, LONGEST, MIDDLE, SHORTEST};

/// Lines with something wrong. Most are a good line but for that.
const WRONG: &[&[u8]] = &[
    // other lines
    b"\n",
    b" \n",
    b"x\n",
    b"# 0 0 0 0 0 0\n",
    b"end 3\n",
    b"log 20 at 0\n",
    b"text 25 at 1\n",
    b"BP\0\0\0\0\0\0\0\0\0\0\0\0\0\0\0\0\0\0",
    // other ends
    b"0 0 0 0 0 0\r\n",
    b"0 0 0 0 0 0\r",
    b"0 0 0 0 0 0\0\n",
    b"0 0 0 0 0 0\x0B\n",
    b"0 0 0 0 0 0\x0C\n",
    b"0 0 0 0 0 0;\n",
    // other things between the numbers
    b" 0 0 0 0 0 0\n",
    b"0 0 0 0 0 0 \n",
    b"0  0 0 0 0 0\n",
    b"0 0 0 0 0  0\n",
    b"0\t0 0 0 0 0\n",
    b"0 0 0 0 0\t0\n",
    b"0\xC2\xA00 0 0 0 0\n",
    b"0,0,0,0,0,0\n",
    b"0, 0, 0, 0, 0, 0\n",
    b"0\n0 0 0 0 0\n",
    b"0 0 0 0 0\n0\n",
    // too few numbers, or too many
    b"0\n",
    b"0 0 0 0 0\n",
    b"0 0 0 0 0 \n",
    b" 0 0 0 0 0\n",
    b"0 0 0 0 0 0 0\n",
    b"0 0 0 0 0 0 x\n",
    // other numbers
    b"+0 0 0 0 0 0\n",
    b"0 0 0 0 0 +1\n",
    b"-0 0 0 0 0 0\n",
    b"0 0 0 -1 0 0\n",
    b"0x0 0 0 0 0 0\n",
    b"0 0 0 0xFF 0 0\n",
    b"0 0 0 ff 0 0\n",
    b"0 0 0 10h 0 0\n",
    b"0 0 0 1,000 0 0\n",
    b"0 0 0 1_000 0 0\n",
    b"0 0 0 1.0 0 0\n",
    b"0 0 0 1e3 0 0\n",
    b"\xD9\xA0 0 0 0 0 0\n",
    b"0 0 0 0 0 \xEF\xBC\x91\n",
    // a mark of the text's encoding, and NUL
    b"\xEF\xBB\xBF0 0 0 0 0 0\n",
    b"\x000 0 0 0 0 0\n",
    b"0\x000 0 0 0 0\n",
];

/// A line in which any byte may stand in these places: digits, a space, the line feed.
const CHANGED: &[u8] = b"10 2 30 4 50 6\n";
const CHANGED_PLACES: [usize; 5] = [0, 1, 2, 13, 14];

pub fn add(cases: &mut Cases) {
    good(cases);
    for line in WRONG {
        wrong(cases, line);
    }
    for at in CHANGED_PLACES {
        for byte in 0..=255 {
            let mut line = CHANGED.to_vec();
            line[at] = byte;
            cases.list(&[&line, SHORTEST]);
        }
    }
    more_and_fewer_bytes(cases);
}

fn good(cases: &mut Cases) {
    cases.taken(&[]);
    let lines = [SHORTEST, MIDDLE, LONGEST, b"200 7 255 0 0 0\n"];
    for line in lines {
        cases.taken(&[line]);
        for second in lines {
            cases.taken(&[line, second]);
        }
    }
    for count in 3..=12 {
        cases.taken(&vec![MIDDLE; count]);
    }
}

/// Alone, before good lines, among them and behind them; and at the end of the input, also without
/// its last byte. What stands behind it is not looked at.
fn wrong(cases: &mut Cases, line: &[u8]) {
    cases.refused(0, &[line]);
    cases.refused(0, &[line, SHORTEST]);
    cases.refused(1, &[LONGEST, line]);
    cases.refused(1, &[MIDDLE, line, MIDDLE, line]);
    cases.refused(5, &[SHORTEST, MIDDLE, LONGEST, SHORTEST, MIDDLE, line]);
    let cut = &line[..line.len() - 1];
    if !cut.is_empty() {
        cases.refused(0, &[cut]);
        cases.refused(2, &[MIDDLE, SHORTEST, cut]);
    }
}

fn more_and_fewer_bytes(cases: &mut Cases) {
    let list = [MIDDLE, LONGEST, SHORTEST].concat();
    for at in 0..=list.len() {
        let (before, after) = list.split_at(at);
        for byte in [b" ", b"0", b"7", b"\n"] {
            cases.list(&[before, byte, after]);
        }
        if let Some((_, after)) = after.split_first() {
            cases.list(&[before, after]);
        }
    }
}
