//! Random traces with random damage.

use crate::rescue::damage;
use crate::rng::Rng;

use super::{Cases, How, LONGEST_LIST};

const SEED: u64 = 1410;
const TRACES: u64 = 150;
/// The records of a longer trace.
const RECORDS: usize = 500;

pub fn add(cases: &mut Cases) {
    for place in 0..TRACES {
        // a generator for this place alone
        let mut rng = Rng::after(SEED, place << 32);
        let first = rng.pick(&[0, 0, 1, 254, 65_533]);
        let records = 1 + rng.below(6) as usize;
        let sound = damage::sound(&mut rng, first, records);
        let gap = 10 + rng.below(40);
        cases.every_way(&[&damage::damaged(&mut rng, &sound, gap)]);
    }
    let mut rng = Rng::new(SEED + 1);
    let sound = damage::sound(&mut rng, 65_300, RECORDS);
    let trace = damage::damaged(&mut rng, &sound, damage::BADLY);
    cases.add(How::Lines, 4093, &trace);
    cases.add(How::Trace, 977, &trace);
    cases.add(How::List, LONGEST_LIST, &trace);
}
