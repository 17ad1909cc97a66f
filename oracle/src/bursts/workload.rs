//! The bursts that the bench times: all of shared memory, written and read back.

use crate::replay::bench;

use super::{Burst, Phase, LAST_DWORD};

const PHASES: u32 = LAST_DWORD + 1;
/// Of phase i the data are i times this.
const DATA: u32 = 2_654_435_761;
/// What the sum is multiplied by, as a digest is.
const SUM: u32 = 16_777_619;

/// From a fresh card with the replay's settings between zeroed memories: in each round a burst write
/// and a burst read of 4,096 phases in mode 3, from dword 0. The sum takes up one place of the list
/// that was read, and becomes the data of that phase.
pub fn sum(rounds: usize) -> u32 {
    let mut world = bench();
    let phases = (0..PHASES).map(|i| Phase::new(0, i.wrapping_mul(DATA)));
    let mut burst = Burst::new(1, 3, 0, phases.collect());
    let mut list = vec![0; burst.phases.len()];
    let mut sum: u32 = 0;
    for round in 0..rounds {
        world.burst_write(&burst);
        world.burst_read(&burst, &mut list);
        let place = round % list.len();
        sum = sum.wrapping_mul(SUM).wrapping_add(list[place]);
        burst.phases[place].data = sum;
    }
    sum
}
