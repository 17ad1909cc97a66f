//! Sides and positions as they are written: decimals of any length, and texts that are none.

use crate::access::Access;
use crate::drive::sides::{HOST, LOCAL};
use crate::trace::trace;
use crate::why::shorthand::{mail, put, start, write, COPIED, PIN, RING, STEP};

use super::{Cases, Question};

/// The digits of the longest texts.
const MANY: usize = 5000;

/// Decimals above every side and position. Of many the low bits are those of one that there is.
fn large() -> Vec<String> {
    let mut large: Vec<String> = [
        255,
        256,
        257,
        260,
        65_535,
        65_536,
        65_537,
        65_536 + 5,
        4_294_967_295,
        4_294_967_296,
        4_294_967_297,
        4_294_967_296 + 5,
        18_446_744_073_709_551_615,
        18_446_744_073_709_551_616,
        18_446_744_073_709_551_617,
        18_446_744_073_709_551_616_u128 + 5,
        u128::MAX,
    ]
    .map(|number: u128| number.to_string())
    .to_vec();
    // 2 to the 128, and five more
    large.push("340282366920938463463374607431768211456".to_string());
    large.push("340282366920938463463374607431768211461".to_string());
    large.push("1234567890".repeat(4));
    large.push(format!("1{}", "0".repeat(39)));
    large
}

const NO_DECIMALS: [&str; 27] = [
    "", "00", "05", "01", "000", "010", "+5", "+0", "-0", "-5", "-", "+", " 5", "5 ", "5\n", "\n5",
    "\n", "5\0", "0x5", "5a", "a5", "a", "1.0", "1e0", "/", ":", "٣",
];

/// Something has happened at each of these positions.
fn some() -> Vec<Access> {
    vec![
        put(1, 0),
        put(3, 5),
        PIN,
        mail(HOST, RING),
        mail(LOCAL, RING),
        start(COPIED, 1),
        STEP,
        write(LOCAL, 8),
    ]
}

pub fn add(cases: &mut Cases) {
    let some = trace(&some());
    cases.add(some.clone(), numbers());
    cases.add(some.clone(), no_decimals());
    cases.add(some, longest());
    // no decimal comes before every refusal
    let unread = b"no record".to_vec();
    let texts = ["00", "", "4 "].into_iter();
    let questions = texts.flat_map(|text| {
        [
            Question::new(0, text),
            Question::new(text, 4),
            Question::new(2, text),
            Question::new(text, 99),
            Question::new(text, text),
        ]
    });
    cases.add(unread, questions.collect());
}

fn numbers() -> Vec<Question> {
    let mut questions = Vec::new();
    for side in [0, 1] {
        questions.extend((0..=12).map(|position| Question::new(side, position)));
        let large = large().into_iter();
        questions.extend(large.map(|position| Question::new(side, position)));
    }
    let sides = (2..=12).map(|side| side.to_string()).chain(large());
    for side in sides {
        questions.push(Question::new(&side, 4));
        questions.push(Question::new(&side, 2));
        questions.push(Question::new(&side, &side));
    }
    questions
}

fn no_decimals() -> Vec<Question> {
    let mut questions = Vec::new();
    for text in NO_DECIMALS {
        questions.extend([
            Question::new(0, text),
            Question::new(1, text),
            Question::new(text, 4),
            Question::new(2, text),
            Question::new(text, 10),
            Question::new(text, text),
        ]);
    }
    // no text of characters
    for bytes in [&[0xFF][..], &[b'4', 0x80], &[0xD9]] {
        questions.push(Question {
            side: b"0".to_vec(),
            position: bytes.to_vec(),
        });
    }
    questions
}

fn longest() -> Vec<Question> {
    let nines = "9".repeat(MANY);
    let zeros = "0".repeat(MANY);
    let last = format!("{}x", "1".repeat(MANY));
    vec![
        Question::new(0, &nines),
        Question::new(&nines, 4),
        Question::new(0, &zeros),
        Question::new(&last, 4),
    ]
}
