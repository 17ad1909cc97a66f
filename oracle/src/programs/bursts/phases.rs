//! Bursts by their phases: every pins, walks over the lanes, overruns, phases without lanes, starts,
//! lists, and as many phases as there may be.

use crate::bursts::{Phase, LAST_DWORD, MOST_PHASES};
use crate::drive::plans::{BASE_ZERO, MIDDLE, NO_ABORT, SMALL};
use crate::settings::Settings;
use crate::transfer::SHARED_LENGTH;

use super::asked::{local, phases, read, repeated, walk, write, MODES};
use super::case::Asked;
use super::cases::Adding;

/// Data with all bits, with none, and with bytes that differ from each other.
const DATA: [u32; 4] = [u32::MAX, 0, 0x1234_5678, 0xA1B2_C3D4];

pub fn add(adding: &mut Adding) {
    every_pins(adding);
    two_pins(adding);
    walks(adding);
    overruns(adding);
    without_lanes(adding);
    starts(adding);
    places(adding);
    many_phases(adding);
}

/// Each pins by itself, with different data, read and written.
fn every_pins(adding: &mut Adding) {
    adding.section("every pins");
    for mode in MODES {
        let mut asked = Vec::new();
        for pins in 0..16 {
            for data in DATA {
                asked.push(write(mode, pins, &[Phase::new(pins, data)]));
            }
            asked.push(read(mode, pins, &[Phase::new(pins, u32::MAX)], 1));
            asked.push(write(mode, LAST_DWORD, &[Phase::new(pins, 0x0F1E_2D3C)]));
        }
        adding.add_fresh(MIDDLE, &asked);
    }
}

/// Every two pins: where the second phase goes tells whether the first one advanced. The reads have
/// one of them between all others.
fn two_pins(adding: &mut Adding) {
    adding.section("two pins");
    for mode in MODES {
        let mut asked = Vec::new();
        for first in 0..16 {
            for second in 0..16 {
                asked.push(write(mode, 2 * first, &phases([first, second])));
            }
            let between = (0..16).flat_map(|second| [first, second]);
            asked.push(read(mode, 8, &phases(between), 2));
        }
        adding.add_fresh(SMALL, &asked);
    }
}

/// Bursts that begin at each lane, read back in every mode.
fn walks(adding: &mut Adding) {
    adding.section("walks");
    for mode in MODES {
        let mut asked = Vec::new();
        for lane in 0..4 {
            for (start, count) in [(0, 9), (1000, 6), (LAST_DWORD - 10, 11)] {
                asked.push(write(mode, start, &walk(mode, lane, count)));
                for read_mode in MODES {
                    asked.push(read(read_mode, start, &walk(read_mode, lane, 8), 0));
                }
            }
        }
        adding.add_fresh(NO_ABORT, &asked);
    }
}

/// Bursts that are stopped after each number of phases.
fn overruns(adding: &mut Adding) {
    adding.section("overruns");
    for mode in MODES {
        let mut asked = Vec::new();
        for lane in 0..4 {
            for back in 0..4 {
                let start = LAST_DWORD + 1 - back;
                let phases = walk(mode, lane, 16);
                asked.push(write(mode, start, &phases));
                asked.push(read(mode, start, &phases, usize::from(mode)));
                // to the very end, and one phase further
                let fitting = match mode {
                    0 => 4 * back - lane.min(4 * back),
                    1 => 2 * back - (lane / 2).min(2 * back),
                    _ => back,
                };
                for count in [fitting, fitting + 1] {
                    asked.push(write(mode, start, &walk(mode, lane, count)));
                    asked.push(read(mode, start, &walk(mode, lane, count), 0));
                }
            }
        }
        adding.add_fresh(BASE_ZERO, &asked);
    }
}

/// Phases that have no lanes: first, in the middle, last, and past the last dword.
fn without_lanes(adding: &mut Adding) {
    adding.section("without lanes");
    let mut asked = Vec::new();
    for (mode, pins) in [
        (1, [0b0011, 0b0000, 0b0011, 0b1100, 0b0111, 0b1111]),
        (1, [0b1011, 0b1011, 0b0010, 0b1001, 0b1111, 0b0000]),
        (3, [0b1111, 0b1111, 0b0000, 0b1111, 0b0110, 0b1111]),
    ] {
        let stays = pins.map(|pins| pins & 0b0111);
        for start in (LAST_DWORD - 6..=LAST_DWORD + 1).chain([0, u32::MAX]) {
            asked.push(write(mode, start, &phases(pins)));
            asked.push(read(mode, start, &phases(pins), 3));
        }
        asked.push(write(mode, LAST_DWORD, &phases(stays)));
        asked.push(read(mode, LAST_DWORD, &phases(stays), 0));
        asked.push(write(mode, LAST_DWORD + 1, &phases([0b1111])));
        asked.push(read(mode, LAST_DWORD + 1, &phases([0b0011]), 0));
    }
    adding.add_fresh(MIDDLE, &asked);
}

/// No phases at all and a single one, from starts that are and from starts that are no dword.
fn starts(adding: &mut Adding) {
    adding.section("starts");
    let numbers = [
        0,
        1,
        LAST_DWORD,
        LAST_DWORD + 1,
        8192,
        65_536,
        1 << 30,
        (1 << 30) + 5,
        1 << 31,
        u32::MAX,
    ];
    for mode in MODES {
        let mut asked = Vec::new();
        for start in numbers {
            for pins in [vec![], vec![0b0000], vec![0b1100]] {
                asked.push(write(mode, start, &phases(pins.clone())));
                asked.push(read(mode, start, &phases(pins.clone()), 0));
                asked.push(read(mode, start, &phases(pins), 2));
            }
        }
        adding.add_fresh(SMALL, &asked);
    }
}

/// Lists that are too short by one, exact, and longer; also for phases that are never reached.
fn places(adding: &mut Adding) {
    adding.section("places");
    let mut asked = Vec::new();
    for mode in MODES {
        for start in [7, LAST_DWORD - 1, LAST_DWORD + 1] {
            let stored = local(mode, start, &walk(mode, 1, 12));
            for places in [0, 1, 11, 12, 13, 63, 64, 65, 300] {
                asked.push(Asked::Read(stored.clone(), places));
            }
        }
        asked.push(Asked::Read(local(mode, 0, &[]), 0));
        asked.push(Asked::Read(local(mode, 0, &[]), 65));
        asked.push(read(mode, 20, &walk(mode, 0, 70), 0));
        asked.push(read(mode, 20, &walk(mode, 3, 90), 10));
    }
    adding.add_fresh(MIDDLE, &asked);
}

/// "more than 65,536 phases", over a single dword, over a few, and from the first dword to the last.
fn many_phases(adding: &mut Adding) {
    adding.section("many phases");
    let most = MOST_PHASES;
    let whole = [SHARED_LENGTH, SHARED_LENGTH / 2, SHARED_LENGTH / 4];
    for (mode, whole) in MODES.into_iter().zip(whole.map(|count| count as usize)) {
        let over = walk(mode, 0, 12);
        let mut asked = Vec::new();
        for count in [whole, whole + 1, most, most + 1, 65_600] {
            let stored = repeated(mode, 0, &over, count);
            asked.push(Asked::Write(stored.clone()));
            for places in [count - 1, count, 65_600] {
                asked.push(Asked::Read(stored.clone(), places));
            }
        }
        if mode != 3 {
            // BE[3] low: all in one dword
            let inside = phases([0b0000, 0b0101, 0b0011, 0b0110, 0b0100, 0b0111, 0b0010]);
            for count in [most, most + 1] {
                let stored = repeated(mode, 1234, &inside, count);
                asked.push(Asked::Write(stored.clone()));
                asked.push(Asked::Read(stored, count));
            }
        }
        let few = [walk(mode, 0, 1), vec![Phase::new(0, 7); 40]].concat();
        let stored = repeated(mode, LAST_DWORD - 2, &few, most);
        asked.push(Asked::Write(stored.clone()));
        asked.push(Asked::Read(stored, most));
        adding.add_fresh(Settings::REPLAY, &asked);
    }
}
