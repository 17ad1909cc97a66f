//! Random worlds.

use oracle::card::Card;
use oracle::rng::Rng;
use oracle::world::World;

/// Random memories of the right lengths around a record, or now and then of wrong ones.
pub fn world(rng: &mut Rng, card: Card) -> World {
    let mut shared = vec![0; 16_384];
    let mut window = vec![0; card.settings.length.min(1 << 16) as usize];
    for byte in shared.iter_mut().take(64).chain(window.iter_mut()) {
        *byte = rng.byte();
    }
    if rng.one_in(20) {
        shared.truncate(16_380);
    }
    if rng.one_in(20) {
        window.push(1);
    }
    World {
        card,
        shared,
        window,
    }
}
