//! Cases in sections. Further cases go to the end of a section, or into a new section: the memories
//! and draws of the others stay.

use crate::seeds::Seeds;

use super::case::{Case, Memories};

/// A number of a name is below this.
const NUMBER_LIMIT: u64 = 1_000_000;

#[derive(Default)]
pub struct Cases {
    pub cases: Vec<Case>,
    /// Where the memories' numbers of some sections begin. A section that is not named here begins
    /// at a number of its name.
    firsts: &'static [(&'static str, u32)],
    /// Of the next case's memories.
    number: u32,
}

impl Cases {
    pub fn new(firsts: &'static [(&'static str, u32)]) -> Cases {
        Cases {
            firsts,
            ..Cases::default()
        }
    }

    pub fn section(&mut self, name: &str) {
        let known = self.firsts.iter().find(|(known, _)| *known == name);
        self.number = match known {
            Some((_, first)) => *first,
            None => number(&Seeds::new(0, &[]), name),
        };
    }

    pub fn memories(&mut self, shared_length: u32, window_length: u32) -> Memories {
        let number = self.number;
        self.number += 1;
        Memories::new(number, shared_length, window_length)
    }
}

/// The number of a name.
pub fn number(seeds: &Seeds, name: &str) -> u32 {
    (seeds.of(name) % NUMBER_LIMIT) as u32
}
