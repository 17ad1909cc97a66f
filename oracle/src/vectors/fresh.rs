//! Settings that pass and settings that fail, each rule at its border.

use crate::card::fresh;
use crate::settings::Settings;

use super::text;

/// Settings, and whether they pass. New ones stand at the end, behind the draws of those before.
pub const CASES: [(Settings, bool); 34] = [
    (Settings::ZERO, true),
    (Settings::REPLAY, true),
    // multiples of 4
    (Settings::new(1, 64, 0, 0), false),
    (Settings::new(2, 64, 0, 0), false),
    (Settings::new(3, 64, 0, 0), false),
    (Settings::new(4, 64, 0, 0), true),
    (Settings::new(4, 61, 0, 0), false),
    (Settings::new(4, 62, 0, 0), false),
    (Settings::new(4, 63, 0, 0), false),
    (Settings::new(4, 64, 1, 8), false),
    (Settings::new(4, 64, 2, 8), false),
    (Settings::new(4, 64, 4, 8), true),
    (Settings::new(4, 64, 4, 6), false),
    (Settings::new(4, 64, 4, 7), false),
    (Settings::new(2, 62, 2, 2), false),
    // length at most 65,536
    (Settings::new(0, 65_536, 0, 65_536), true),
    (Settings::new(0, 65_540, 0, 0), false),
    (Settings::new(0, 65_537, 0, 0), false),
    (Settings::new(0, 4_294_967_292, 0, 0), false),
    // base + length at most 4,294,967,296
    (Settings::new(4_294_901_760, 65_536, 0, 0), true),
    (Settings::new(4_294_901_764, 65_536, 0, 0), false),
    (Settings::new(4_294_967_232, 64, 0, 64), true),
    (Settings::new(4_294_967_232, 68, 0, 64), false),
    (Settings::new(4_294_967_292, 0, 0, 0), true),
    (Settings::new(4_294_967_292, 4, 0, 4), true),
    (Settings::new(4_294_967_292, 8, 0, 4), false),
    // lo <= hi <= length
    (Settings::new(4096, 64, 32, 32), true),
    (Settings::new(4096, 64, 36, 32), false),
    (Settings::new(4096, 64, 64, 64), true),
    (Settings::new(4096, 64, 64, 68), false),
    (Settings::new(4096, 64, 68, 68), false),
    (Settings::new(4096, 0, 0, 4), false),
    // several rules at once
    (Settings::new(4_294_967_295, 4_294_967_295, 5, 3), false),
    (Settings::new(268_435_457, 32_768, 32_768, 28_672), false),
];

fn case(settings: &Settings, passes: bool) -> String {
    let (number, card) = fresh(*settings);
    assert_eq!(number == 0, passes, "{settings:?}");
    let (settings, card) = (text::settings(settings), text::card(&card));
    format!("fresh_case {settings} {number} {card}")
}

pub fn text() -> String {
    let cases = CASES
        .iter()
        .map(|(settings, passes)| case(settings, *passes));
    let definitions = text::agreement("FreshCase", "FreshAgrees", "cases fresh_card", cases);
    text::file(
        "settings, and the number and the card that they give",
        &definitions,
    )
}
