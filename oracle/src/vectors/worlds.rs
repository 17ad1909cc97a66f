//! The worlds before and after a list, as antt text.

use crate::drive::plans::First;
use crate::rng::Rng;
use crate::settings::Settings;
use crate::world::World;

use super::text;

/// How far from a mark of a memory its first bytes are random.
const REACH: u32 = 20;

/// What a list starts from, between memories of these lengths.
pub fn first(first: &First, shared_length: u32, window_length: u32, rng: &mut Rng) -> World {
    let given = first.settings();
    let marks = [0, given.lo, given.hi, given.length];
    let shared = memory(shared_length, &[0, shared_length], rng);
    let window = memory(window_length, &marks, rng);
    first.world(shared, window)
}

/// Zeros, but for random bytes around some offsets.
fn memory(length: u32, marks: &[u32], rng: &mut Rng) -> Vec<u8> {
    let mut memory = vec![0; length as usize];
    for mark in marks {
        for offset in mark.saturating_sub(REACH)..mark.saturating_add(REACH) {
            if let Some(byte) = memory.get_mut(offset as usize) {
                *byte = rng.byte();
            }
        }
    }
    memory
}

/// By the settings, where the list starts from a fresh card.
pub fn first_text(fresh: Option<Settings>, first: &World) -> String {
    match fresh {
        Some(settings) => format!(
            " fresh_world {} {} {}",
            text::settings(&settings),
            text::bytes(&first.shared),
            text::bytes(&first.window)
        ),
        None => text(first),
    }
}

pub fn text(world: &World) -> String {
    [
        "".to_string(),
        "world".to_string(),
        text::card(&world.card),
        text::bytes(&world.shared),
        text::bytes(&world.window),
    ]
    .join(&format!("\n{}", text::INDENT))
}
