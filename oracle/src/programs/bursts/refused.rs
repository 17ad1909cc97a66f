//! Each cause of refusal of a burst in several forms, and every two of them that can hold at once.

use crate::bursts::{Burst, Phase, LAST_DWORD, MOST_PHASES};
use crate::drive::plans::SMALL;
use crate::drive::sides::{HOST, LOCAL};

use super::asked::{read, walk, write, MODES};
use super::case::{Asked, Repeated};
use super::cases::Adding;

/// A burst, and how many places more than phases there are in the list of a read.
struct Draft {
    stored: Repeated,
    more: isize,
}

/// Gives a draft a cause of refusal.
type Spoil = fn(&mut Draft);

/// The causes by their numbers, each in the forms that it has.
const CAUSES: [(u8, &[Spoil]); 6] = [
    (
        2,
        &[|d| d.stored.burst.side = 2, |d| d.stored.burst.side = 255],
    ),
    (5, &[|d| d.stored.burst.side = HOST]),
    (
        12,
        &[
            |d| d.stored.burst.mode = 2,
            |d| d.stored.burst.mode = 4,
            |d| d.stored.burst.mode = 255,
            |d| d.stored.phases = MOST_PHASES + 1,
        ],
    ),
    (
        4,
        &[
            |d| d.stored.burst.phases[0].pins = 16,
            |d| d.stored.burst.phases[2].pins = 255,
            |d| d.stored.burst.phases[4].pins = u32::MAX,
        ],
    ),
    (14, &[|d| d.more = -1, |d| d.more = isize::MIN]),
    (
        13,
        &[
            |d| d.stored.burst.start = LAST_DWORD,
            |d| d.stored.burst.start = LAST_DWORD + 1,
            |d| d.stored.burst.start = 1 << 30,
        ],
    ),
];

pub fn add(adding: &mut Adding) {
    adding.section("refusals");
    adding.add_fresh(SMALL, &every());
    adding.add_fresh(SMALL, &pins_behind_an_overrun());
}

fn pins_behind_an_overrun() -> Vec<Asked> {
    let mut asked = Vec::new();
    for mode in MODES {
        for wrong in [16, 17, 28, 255, 256, 65_536, 1 << 31, u32::MAX] {
            let mut phases = walk(mode, 3, 9);
            phases[8].pins = wrong;
            asked.push(write(mode, LAST_DWORD, &phases));
            asked.push(read(mode, LAST_DWORD + 1, &phases, 0));
            asked.push(read(mode, 50, &phases, 0));
        }
    }
    asked
}

/// Each cause alone, then every two.
fn every() -> Vec<Asked> {
    let forms: Vec<(u8, Spoil)> = CAUSES
        .into_iter()
        .flat_map(|(number, forms)| forms.iter().map(move |form| (number, *form)))
        .collect();
    let mut asked = alone();
    for (at, first) in forms.iter().enumerate() {
        for second in &forms[at + 1..] {
            let numbers = [first.0, second.0];
            // two forms of one cause, or two sides at once
            if numbers[0] == numbers[1] || numbers == [2, 5] {
                continue;
            }
            asked.extend(drawn(asked.len(), &[first.1, second.1]));
        }
    }
    asked
}

/// Each cause alone, and none.
pub fn alone() -> Vec<Asked> {
    let mut asked = drawn(0, &[]);
    for (_, forms) in CAUSES {
        for form in forms {
            asked.extend(drawn(asked.len(), &[*form]));
        }
    }
    asked
}

/// A write and a read with these causes. The mode goes by the place, and the pins advance in each.
fn drawn(place: usize, causes: &[Spoil]) -> Vec<Asked> {
    let mode = MODES[place / 2 % 3];
    let phases = (0..5).map(|i| Phase::new(0b1100, 0x0102_0408 << i));
    let burst = Burst::new(LOCAL, mode, 100, phases.collect());
    let mut draft = Draft {
        stored: Repeated::whole(burst),
        more: 0,
    };
    causes.iter().for_each(|spoil| spoil(&mut draft));
    let Draft { stored, more } = draft;
    let places = stored.phases.saturating_add_signed(more);
    vec![Asked::Write(stored.clone()), Asked::Read(stored, places)]
}
