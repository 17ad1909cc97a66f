//! What the program reads itself: one question of a long trace.

use crate::access::{kind, Access};
use crate::rng::Rng;
use crate::stored::Stored;
use crate::trace::trace;
use crate::why::{asked, eventful, lines, Why};

use super::super::Program;

const NAME: &str = "why_program";
const SEED: u64 = 720;
const RECORDS: usize = 4000;
/// In the last records little is taken, so that the entries held were put in many places.
const LAST: usize = 400;

/// "inbound post not empty", asked by the local side.
const SIDE: &str = "1";
const POSITION: &str = "6";

fn accesses() -> Vec<Access> {
    let mut rng = Rng::new(SEED);
    let mut accesses = eventful::accesses(&mut rng, RECORDS - LAST);
    while accesses.len() < RECORDS {
        let more = eventful::accesses(&mut rng, 1);
        let is_kept = match more[0].kind {
            kind::RESET => false,
            kind::PUT => !rng.one_in(3),
            kind::TAKE => rng.one_in(4),
            _ => true,
        };
        accesses.extend(more.iter().filter(|_| is_kept));
    }
    accesses
}

pub fn program() -> Program {
    let stdin = trace(&accesses());
    let told = asked(&stdin, SIDE.as_bytes(), POSITION.as_bytes()).expect("two decimals");
    let Ok(Why::Held(held)) = &told else {
        panic!("nothing is held");
    };
    assert!((20..32).contains(&held.len()), "{} held", held.len());
    assert!(held.iter().any(|holding| holding.entry == 0));
    Program {
        name: NAME,
        stdout: lines(&told).into_bytes(),
        stdin,
    }
}

/// A line an argument.
pub fn args() -> Stored {
    let args = format!("{SIDE}\n{POSITION}\n");
    Stored::new(format!("{NAME}/args"), args.into_bytes())
}
