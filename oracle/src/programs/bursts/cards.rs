//! Bursts by what they meet: records, memories and settings of all sorts.

use crate::arbitrary;
use crate::bursts::LAST_DWORD;
use crate::card::{Card, FIFOS, PAIRS};
use crate::drive::plans::{found, First, NO_ABORT, SMALL};
use crate::rng::Rng;
use crate::settings::{Settings, LENGTH_LIMIT};
use crate::transfer::SHARED_LENGTH;
use crate::vectors::{fresh as settings_cases, sound};

use super::super::device::LARGEST;
use super::asked::{read, walk, write, MODES};
use super::case::Asked;
use super::cases::Adding;
use super::refused;

const SEED: u64 = 700;
/// Of the unsound records of the vectors one in so many is used.
const ONE_RECORD_IN: usize = 5;
/// Sound records.
const SOUND: usize = 6;

pub fn add(adding: &mut Adding) {
    records(adding);
    lengths(adding);
    settings(adding);
}

/// A write and a read in each mode, and two that are refused.
fn probe() -> Vec<Asked> {
    let mut asked = Vec::new();
    for mode in MODES {
        asked.push(write(mode, 3, &walk(mode, 2, 3)));
        asked.push(read(mode, 3, &walk(mode, 2, 3), 1));
    }
    asked.push(write(3, LAST_DWORD, &walk(3, 0, 2)));
    asked.push(read(2, 0, &walk(3, 0, 1), 0));
    asked
}

/// Unsound records, one with every cause behind it, and sound ones that are not fresh.
fn records(adding: &mut Adding) {
    adding.section("records");
    let (mut unsound, mut sound): (Vec<Card>, Vec<Card>) = (Vec::new(), vec![found()]);
    for section in sound::sections() {
        for (card, is_sound) in section.cases {
            if card.fifos.len() == FIFOS && card.pairs.len() == PAIRS && !is_sound {
                unsound.push(card);
            }
        }
    }
    let mut rng = Rng::new(SEED);
    sound.extend((0..SOUND).map(|_| arbitrary::sound_card(&mut rng)));
    let some: Vec<Card> = unsound.into_iter().step_by(ONE_RECORD_IN).collect();
    assert!(some.len() >= 16, "{}", some.len());
    for (at, mut card) in some.into_iter().chain(sound).enumerate() {
        card.dma = arbitrary::dma(&mut rng);
        let asked = if at == 0 { refused::alone() } else { probe() };
        let length = card.settings.length.min(LENGTH_LIMIT);
        let memories = adding.cases.memories(SHARED_LENGTH, length);
        adding.add(&First::Record(card), &memories, &asked);
    }
}

/// Memories of wrong lengths.
fn lengths(adding: &mut Adding) {
    adding.section("lengths");
    for (settings, shared, window) in [
        (SMALL, 0, SMALL.length),
        (SMALL, 4, SMALL.length),
        (SMALL, SHARED_LENGTH - 4, SMALL.length),
        (SMALL, SHARED_LENGTH - 1, SMALL.length),
        (SMALL, SHARED_LENGTH + 1, SMALL.length),
        (SMALL, SHARED_LENGTH + 4, SMALL.length),
        (SMALL, 65_536, SMALL.length),
        (SMALL, SHARED_LENGTH, 0),
        (SMALL, SHARED_LENGTH, SMALL.length - 4),
        (SMALL, SHARED_LENGTH, SMALL.length - 1),
        (SMALL, SHARED_LENGTH, SMALL.length + 1),
        (SMALL, SHARED_LENGTH, SMALL.length + 4),
        (SMALL, SMALL.length, SHARED_LENGTH),
        (Settings::ZERO, SHARED_LENGTH, 4),
        (LARGEST, SHARED_LENGTH, 32_768),
    ] {
        let memories = adding.cases.memories(shared, window);
        adding.add(&First::Fresh(settings), &memories, &probe());
    }
    let memories = adding.cases.memories(SHARED_LENGTH - 4, SMALL.length);
    adding.add(&First::Fresh(SMALL), &memories, &refused::alone());
}

/// Settings that pass and settings that fail, with the window of the card that they give and with
/// one of the length that they ask for.
fn settings(adding: &mut Adding) {
    adding.section("settings");
    for settings in [Settings::ZERO, Settings::REPLAY, LARGEST, NO_ABORT] {
        adding.add_fresh(settings, &probe());
    }
    let failing = settings_cases::CASES
        .into_iter()
        .filter(|(_, passes)| !passes);
    for (settings, _) in failing.step_by(4) {
        for length in [0, settings.length.min(LENGTH_LIMIT)] {
            let memories = adding.cases.memories(SHARED_LENGTH, length);
            adding.add(&First::Fresh(settings), &memories, &probe());
        }
    }
}
