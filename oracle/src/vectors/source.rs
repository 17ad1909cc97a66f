//! Requests for a transfer's source.

use crate::drive::plans::BASE_ZERO;
use crate::settings::Settings;
use crate::source::{source, Memory, Part};
use crate::transfer::{Transfer, SHARED_LENGTH};

use super::text;

/// A request, of memories of these lengths.
pub struct Case {
    pub settings: Settings,
    pub shared_length: u32,
    pub window_length: u32,
    pub transfer: Transfer,
}

const WINDOW: Settings = Settings::new(268_435_456, 256, 64, 128);
const TOP: Settings = Settings::new(4_294_967_168, 128, 0, 32);
const NO_WINDOW: Settings = Settings::new(4096, 0, 0, 0);
const WHOLE: Settings = Settings::new(65_536, 16_384, 0, 0);

#[derive(Default)]
struct Cases(Vec<Case>);

impl Cases {
    fn add(&mut self, settings: Settings, direction: u8, shared: u32, pci: u32, size: u32) {
        let transfer = Transfer::new(direction, shared, pci, size);
        self.with_lengths(settings, SHARED_LENGTH, settings.length, transfer);
    }

    fn with_lengths(&mut self, settings: Settings, shared: u32, window: u32, transfer: Transfer) {
        self.0.push(Case {
            settings,
            shared_length: shared,
            window_length: window,
            transfer,
        });
    }
}

/// Adds the requests of a direction.
type OfDirection = fn(&mut Cases, u8);

/// Requests of one subject. Further ones go to the end of a section, or into a new section: what
/// is drawn for the others stays.
pub struct Section {
    pub name: String,
    pub cases: Vec<Case>,
}

pub fn sections() -> Vec<Section> {
    let of_each_direction: [(&str, OfDirection); 4] = [
        ("sizes", sizes),
        ("addresses", addresses),
        ("windows", windows),
        ("causes of 1", causes_of_1),
    ];
    let mut sections = Vec::new();
    for direction in [0, 1] {
        for (name, add) in of_each_direction {
            let name = format!("{name}, direction {direction}");
            sections.push(section(name, |cases| add(cases, direction)));
        }
    }
    sections.push(section("directions".to_string(), directions));
    sections.push(section("two at once".to_string(), two_at_once));
    sections
}

fn section(name: String, add: impl FnOnce(&mut Cases)) -> Section {
    let mut cases = Cases::default();
    add(&mut cases);
    let cases = cases.0;
    Section { name, cases }
}

fn sizes(cases: &mut Cases, direction: u8) {
    let base = WINDOW.base;
    for size in [
        0,
        1,
        2,
        3,
        4,
        5,
        8,
        16_384,
        16_385,
        16_388,
        u32::MAX - 3,
        u32::MAX,
    ] {
        cases.add(WINDOW, direction, 0, base, size);
    }
    cases.add(WHOLE, direction, 0, WHOLE.base, 16_384);
    cases.add(WHOLE, direction, 0, WHOLE.base, 16_388);
    cases.add(WHOLE, direction, 4, WHOLE.base, 16_384);
    cases.add(WHOLE, direction, 0, WHOLE.base + 4, 16_384);
}

fn addresses(cases: &mut Cases, direction: u8) {
    let base = WINDOW.base;
    for low in [1, 2, 3] {
        cases.add(WINDOW, direction, low, base, 8);
        cases.add(WINDOW, direction, 0, base + low, 8);
    }
    for shared in [16_372, 16_376, 16_380, 16_384, u32::MAX - 3] {
        cases.add(WINDOW, direction, shared, base + 12, 8);
    }
    for pci in [4_294_967_284, 4_294_967_288, 4_294_967_292] {
        cases.add(WINDOW, direction, 20, pci, 8);
        cases.add(TOP, direction, 20, pci, 8);
    }
}

fn windows(cases: &mut Cases, direction: u8) {
    let base = WINDOW.base;
    for (pci, size) in [
        (base, 256),
        (base, 260),
        (base - 4, 8),
        (base - 4, 4),
        (base - 256, 256),
        (base + 4, 252),
        (base + 4, 256),
        (base + 248, 8),
        (base + 252, 8),
        (base + 252, 4),
        (base + 256, 4),
        // in, across and around the abort range
        (base + 64, 64),
        (base + 60, 8),
        (base + 124, 8),
        (base, 4),
        (0, 4),
    ] {
        cases.add(WINDOW, direction, 40, pci, size);
    }
    for (pci, size) in [(TOP.base, 128), (TOP.base - 4, 128), (TOP.base + 4, 128)] {
        cases.add(TOP, direction, 16_256, pci, size);
    }
    for (pci, size) in [(0, 64), (0, 68), (60, 4), (60, 8), (64, 4)] {
        cases.add(BASE_ZERO, direction, 4, pci, size);
    }
    cases.add(NO_WINDOW, direction, 0, NO_WINDOW.base, 4);
    cases.add(Settings::ZERO, direction, 0, 0, 4);
}

/// Settings that fail, and memories of a wrong length.
fn causes_of_1(cases: &mut Cases, direction: u8) {
    for settings in [
        Settings::new(2, 64, 0, 0),
        Settings::new(0, 62, 0, 0),
        Settings::new(0, 64, 2, 4),
        Settings::new(0, 64, 4, 6),
        Settings::new(0, 64, 8, 4),
        Settings::new(0, 64, 0, 68),
        Settings::new(4_294_967_292, 64, 0, 0),
    ] {
        cases.add(settings, direction, 0, settings.base & !3, 4);
    }
    let transfer = Transfer::new(direction, 0, WINDOW.base, 4);
    for shared in [0, 16_380, 16_383, 16_385, 16_388] {
        cases.with_lengths(WINDOW, shared, 256, transfer);
    }
    for window in [0, 252, 255, 257, 260] {
        cases.with_lengths(WINDOW, 16_384, window, transfer);
    }
}

fn directions(cases: &mut Cases) {
    for direction in [2, 3, 255] {
        cases.add(WINDOW, direction, 0, WINDOW.base, 4);
        cases.add(WINDOW, direction, 16_380, WINDOW.base + 252, 4);
    }
}

fn two_at_once(cases: &mut Cases) {
    let base = WINDOW.base;
    cases.add(WINDOW, 2, 0, base, 0);
    cases.add(WINDOW, 2, 1, base, 6);
    cases.add(WINDOW, 0, 1, base, 0);
    cases.add(WINDOW, 1, 16_388, base, 0);
    cases.add(WINDOW, 0, 0, base - 4, 3);
    cases.add(WINDOW, 1, 2, base, 16_388);
    cases.add(WINDOW, 0, 16_384, base + 256, 4);
    cases.add(Settings::new(2, 64, 0, 0), 2, 1, 1, 1);
    cases.with_lengths(WINDOW, 16_380, 252, Transfer::new(0, 16_380, base, 4));
    cases.with_lengths(WINDOW, 0, 256, Transfer::new(2, 0, base, 0));
}

fn line(case: &Case) -> String {
    let Case {
        settings,
        shared_length,
        window_length,
        transfer,
    } = case;
    let shared = vec![0; *shared_length as usize];
    let window = vec![0; *window_length as usize];
    let Part {
        memory,
        offset,
        count,
    } = source(*settings, &shared, &window, *transfer);
    let memory = match memory {
        Memory::Shared => "shared_memory",
        Memory::Window => "window_memory",
    };
    let (settings, request) = (text::settings(settings), text::request(transfer));
    format!(
        "source_case {settings} {shared_length} {window_length} {request} \
         (part {memory} {offset} {count})"
    )
}

/// How many requests stand in one equation: a long one takes much memory to check.
const PORTION: usize = 60;

pub fn text() -> String {
    let cases: Vec<Case> = sections()
        .into_iter()
        .flat_map(|section| section.cases)
        .collect();
    assert!(cases.len() >= 100);
    let portions: Vec<String> = cases
        .chunks(PORTION)
        .zip(1..)
        .map(|(cases, number)| portion(number, cases))
        .collect();
    text::file("requests for a transfer's source", &portions.join("\n"))
}

fn portion(number: usize, cases: &[Case]) -> String {
    let entries = text::entries(cases.iter().map(line));
    format!(
        "cases{number} : List SourceCase\n\
         cases{number} =\n\
         {entries}\n\
         agrees{number} : SourcesAgree cases{number}\n\
         unfolding cases{number} source\n\
         agrees{number} = refl\n"
    )
}
