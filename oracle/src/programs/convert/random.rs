//! Random lists and traces, most of them changed somewhere.

use crate::access::Access;
use crate::arbitrary;
use crate::list::list;
use crate::rng::Rng;
use crate::trace::trace;

use super::Cases;

const SEED: u64 = 800;
const LISTS: u64 = 500;
const TRACES: u64 = 250;
const TEXTS: u64 = 200;

pub fn add(cases: &mut Cases) {
    for place in 0..LISTS {
        let mut rng = of(1, place);
        let list = list(&few(&mut rng));
        cases.list(&[&changed(&mut rng, list)]);
    }
    for place in 0..TRACES {
        let mut rng = of(2, place);
        let trace = trace(&few(&mut rng));
        cases.trace(&[&changed(&mut rng, trace)]);
    }
    for place in 0..TEXTS {
        cases.list(&[&text(&mut of(3, place))]);
    }
}

/// A generator for this place alone.
fn of(kind: u64, place: u64) -> Rng {
    Rng::after(SEED + kind, place << 32)
}

fn few(rng: &mut Rng) -> Vec<Access> {
    let any = rng.pick(&[arbitrary::access, arbitrary::varied_access]);
    let count = 1 + rng.below(7);
    (0..count).map(|_| any(rng)).collect()
}

/// One in four is left as it is.
fn changed(rng: &mut Rng, mut bytes: Vec<u8>) -> Vec<u8> {
    for _ in 0..rng.below(4) {
        arbitrary::change(rng, &mut bytes);
    }
    bytes
}

/// Numbers of few digits, about six to a line.
fn text(rng: &mut Rng) -> Vec<u8> {
    let mut text = Vec::new();
    for _ in 0..1 + rng.below(4) {
        let fields = rng.pick(&[6, 6, 6, 6, 6, 5, 7]);
        for field in 1..=fields {
            let word = rng.pick(&["0", "1", "07", "12", "99", "255", "256", "300", "0", "5"]);
            text.extend(word.bytes());
            text.push(if field < fields { b' ' } else { b'\n' });
        }
    }
    text
}
