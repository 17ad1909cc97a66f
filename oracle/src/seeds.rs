//! Seeds by name. What is stored under a name draws from a generator of its own, so a new name
//! moves no other draw.

pub struct Seeds {
    first: u64,
    numbered: &'static [&'static str],
}

impl Seeds {
    /// The numbered names have the seeds from the first on, so that they keep the draws that they
    /// are stored with. This list never changes: every other name has its hash for a seed.
    pub const fn new(first: u64, numbered: &'static [&'static str]) -> Seeds {
        Seeds { first, numbered }
    }

    pub fn of(&self, name: &str) -> u64 {
        match self.place(name) {
            Some(place) => self.first + place,
            None => hash(self.first, name),
        }
    }

    fn place(&self, name: &str) -> Option<u64> {
        let place = self.numbered.iter().position(|known| *known == name)?;
        Some(place as u64)
    }
}

/// FNV-1a, begun with a number, so that one name has different seeds in different places.
fn hash(begin: u64, name: &str) -> u64 {
    let bytes = begin.to_le_bytes().into_iter().chain(name.bytes());
    bytes.fold(0xCBF2_9CE4_8422_2325, |hash, byte| {
        (hash ^ u64::from(byte)).wrapping_mul(0x0000_0100_0000_01B3)
    })
}

#[cfg(test)]
mod tests {
    use super::Seeds;

    const SEEDS: Seeds = Seeds::new(7, &["first", "second"]);

    #[test]
    fn numbered_names_count_up() {
        assert_eq!(SEEDS.of("first"), 7);
        assert_eq!(SEEDS.of("second"), 8);
    }

    #[test]
    fn other_names_have_seeds_of_their_own() {
        let elsewhere = Seeds::new(8, &["first", "second"]);
        assert_ne!(SEEDS.of("third"), SEEDS.of("fourth"));
        assert_ne!(SEEDS.of("third"), elsewhere.of("third"));
    }

    #[test]
    fn a_name_keeps_its_seed_beside_more_names() {
        let fewer = Seeds::new(7, &["first"]);
        assert_eq!(SEEDS.of("first"), fewer.of("first"));
        assert_eq!(SEEDS.of("third"), fewer.of("third"));
    }
}
