//! Records, and whether they are sound: each rule alone, at its border.

use std::collections::VecDeque;

use crate::arbitrary;
use crate::card::{fresh, Card, Pair};
use crate::interrupts::Register;
use crate::rng::Rng;
use crate::settings::Settings;
use crate::transfer::{Running, Transfer};

use super::{fresh as settings_cases, text};

const SETTINGS: Settings = Settings::new(4096, 64, 16, 32);
const SEED: u64 = 100;
const RANDOM_SOUND: usize = 12;
const RANDOM: usize = 16;

/// So many numbers of the seed stand before those of the `random` section.
const BEFORE_RANDOM: u64 = 1022;

/// Records with what is expected of them.
#[derive(Default)]
struct Cases(Vec<(Card, bool)>);

/// Adds the records of a section.
type Add = fn(&mut Cases);

/// Records of one subject. Further ones go to the end of a section, or into a new section: what
/// is drawn for the others stays.
pub struct Section {
    pub name: &'static str,
    pub cases: Vec<(Card, bool)>,
}

/// A fresh card with one change, after which it is sound or not.
pub fn changed(settings: Settings, sound: bool, change: impl FnOnce(&mut Card)) -> Card {
    let (_, mut card) = fresh(settings);
    change(&mut card);
    assert_eq!(card.sound(), sound, "{card:?}");
    card
}

impl Cases {
    fn add(&mut self, sound: bool, change: impl FnOnce(&mut Card)) {
        self.0.push((changed(SETTINGS, sound, change), sound));
    }

    fn add_running(&mut self, sound: bool, transfer: Transfer, moved: u32) {
        self.add(sound, |card| {
            card.running = Some(Running { transfer, moved })
        });
    }
}

/// Records, and whether they are sound.
pub fn sections() -> Vec<Section> {
    let sections: [(&str, Add); 8] = [
        ("settings", settings),
        ("fifos", fifos),
        ("pairs", pairs),
        ("mailboxes", mailboxes),
        ("registers", registers),
        ("transfers", transfers),
        ("random sound", random_sound),
        ("random", random),
    ];
    sections.map(section).into_iter().collect()
}

fn section((name, add): (&'static str, Add)) -> Section {
    let mut cases = Cases::default();
    add(&mut cases);
    let cases = cases.0;
    Section { name, cases }
}

fn settings(cases: &mut Cases) {
    cases.add(true, |_| ());
    for (settings, passes) in settings_cases::CASES {
        cases.add(passes, |card| card.settings = settings);
    }
}

fn fifos(cases: &mut Cases) {
    for fifo in 0..4 {
        for (count, sound) in [(31, true), (32, true), (33, false)] {
            cases.add(sound, |card| card.fifos[fifo] = (0..count).collect());
        }
    }
    cases.add(true, |card| {
        card.fifos.fill(VecDeque::from([u32::MAX; 32]));
    });
    cases.add(false, |card| card.fifos.clear());
    cases.add(false, |card| card.fifos.truncate(3));
    cases.add(false, |card| card.fifos.push(VecDeque::new()));
    cases.add(false, |card| card.fifos.push(VecDeque::from([5])));
}

fn pairs(cases: &mut Cases) {
    for pair in 0..4 {
        for (host, local) in [(true, false), (false, true), (true, true)] {
            cases.add(!(host && local), |card| {
                card.pairs[pair] = Pair { host, local };
            });
        }
    }
    cases.add(false, |card| card.pairs.clear());
    cases.add(false, |card| card.pairs.truncate(3));
    cases.add(false, |card| card.pairs.push(Pair::default()));
}

fn mailboxes(cases: &mut Cases) {
    for (data, sound) in [(65_535, true), (65_536, false), (u32::MAX, false)] {
        cases.add(sound, |card| card.mailboxes.hldata = data);
        cases.add(sound, |card| card.mailboxes.lhdata = data);
        cases.add(sound, |card| {
            card.mailboxes.lhdata = data;
            card.mailboxes.written = true;
        });
    }
    cases.add(true, |card| card.mailboxes.written = true);
}

/// Each status bit and each enable bit alone, on each side.
fn registers(cases: &mut Cases) {
    for bit in (0..=10).chain([16, 31]) {
        let reserved = bit == 2 || bit > 9;
        let follows = bit == 6 || bit == 7;
        let status = Register {
            enables: 0,
            status: 1 << bit,
        };
        let enables = Register {
            enables: 1 << bit,
            status: 0,
        };
        cases.add(!reserved && !follows, |card| card.hint = status);
        cases.add(!reserved && !follows && bit != 4, |card| card.lint = status);
        cases.add(!reserved, |card| card.hint = enables);
        cases.add(!reserved && bit != 4, |card| card.lint = enables);
    }
    let every = |enables, status| Register { enables, status };
    cases.add(true, |card| card.hint = every(0x3FB, 0x33B));
    cases.add(true, |card| card.lint = every(0x3EB, 0x32B));
    cases.add(false, |card| card.lint = every(0x3FB, 0x32B));
    cases.add(false, |card| card.lint = every(0x3EB, 0x33B));
}

/// Each start check at its border, and the dwords moved.
fn transfers(cases: &mut Cases) {
    let base = SETTINGS.base;
    for (sound, direction, shared, pci, size) in [
        (true, 0, 0, base, 4),
        (true, 1, 0, base, 4),
        (false, 2, 0, base, 4),
        (false, 255, 0, base, 4),
        (false, 0, 0, base, 0),
        (false, 0, 0, base, 3),
        (false, 0, 0, base, 5),
        (false, 1, 0, base, 6),
        (true, 0, 0, base, 16_384),
        (false, 0, 0, base, 16_388),
        (false, 1, 0, base, 4_294_967_292),
        (false, 0, 4, base, 16_384),
        (true, 1, 16_380, base, 4),
        (false, 1, 16_384, base, 4),
        (false, 1, 16_380, base, 8),
        (false, 0, 4_294_967_292, base, 4),
        (false, 0, 1, base, 4),
        (false, 0, 2, base, 4),
        (false, 0, 0, base + 1, 4),
        (false, 1, 0, base + 3, 4),
        (true, 1, 0, 0, 4),
        (true, 0, 8, base + 16, 16),
        (true, 1, 8, base + 64, 16),
        (true, 0, 0, 4_294_967_292, 4),
        (false, 0, 0, 4_294_967_292, 8),
        (true, 0, 0, 4_294_950_912, 16_384),
        (false, 0, 0, 4_294_950_916, 16_384),
    ] {
        cases.add_running(sound, Transfer::new(direction, shared, pci, size), 0);
    }
    for (size, moved, sound) in [
        (4, 0, true),
        (4, 1, false),
        (8, 1, true),
        (8, 2, false),
        (8, 3, false),
        (16_384, 4095, true),
        (16_384, 4096, false),
        (16_384, u32::MAX, false),
    ] {
        cases.add_running(sound, Transfer::new(1, 0, base, size), moved);
    }
}

fn random_sound(cases: &mut Cases) {
    let mut rng = Rng::new(SEED);
    for _ in 0..RANDOM_SOUND {
        let card = arbitrary::sound_card(&mut rng);
        assert!(card.sound(), "{card:?}");
        cases.0.push((card, true));
    }
}

fn random(cases: &mut Cases) {
    let mut rng = Rng::after(SEED, BEFORE_RANDOM);
    for _ in 0..RANDOM {
        let card = arbitrary::card(&mut rng);
        let sound = card.sound();
        cases.0.push((card, sound));
    }
}

fn case((card, sound): &(Card, bool)) -> String {
    format!("sound_case {} {sound}", text::card(card))
}

pub fn text() -> String {
    let sections = sections();
    let cases: Vec<String> = sections
        .iter()
        .flat_map(|section| section.cases.iter().map(case))
        .collect();
    assert!(cases.len() >= 60);
    let definitions = text::agreement("SoundCase", "SoundnessAgrees", "cases sound", cases);
    text::file("records, and whether they are sound", &definitions)
}
