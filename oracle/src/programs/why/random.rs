//! Random traces in which much happens to the event bits.

use crate::rng::Rng;
use crate::why::eventful;

use super::{every, Cases};

const SEED: u64 = 700;
const TRACES: u64 = 45;

pub fn add(cases: &mut Cases) {
    for place in 0..TRACES {
        // a generator for this place alone
        let mut rng = Rng::after(SEED, place << 32);
        let count = 10 + rng.below(191) as usize;
        cases.ask(&eventful::accesses(&mut rng, count), every());
    }
}
