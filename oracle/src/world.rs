//! A card with its two memories.

use crate::access::{Access, Answer};
use crate::card::Card;
use crate::transfer::SHARED_LENGTH;

#[derive(Clone, Debug, PartialEq, Eq)]
pub struct World {
    pub card: Card,
    pub shared: Vec<u8>,
    pub window: Vec<u8>,
}

impl World {
    /// A card between zeroed memories of the right lengths.
    pub fn zeroed(card: Card) -> World {
        World {
            shared: vec![0; SHARED_LENGTH as usize],
            window: vec![0; card.settings.length as usize],
            card,
        }
    }

    pub fn access(&mut self, access: Access) -> Answer {
        self.card.access(&mut self.shared, &mut self.window, access)
    }

    /// Cause 1 of any call.
    pub fn unfit(&self) -> bool {
        self.card.unfit(&self.shared, &self.window)
    }

    /// Whether the cause of refusal with this number holds, whatever else does.
    pub fn cause(&self, number: u8, access: &Access) -> bool {
        self.card.cause(number, &self.shared, &self.window, access)
    }
}
