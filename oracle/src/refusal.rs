//! The ten causes of refusal of an access.

use crate::access::{kind, Access};
use crate::card::{Card, Side, FIFOS};
use crate::transfer::SHARED_LENGTH;

pub const LAST_KIND: u8 = kind::EXTERNAL_PIN;

/// Who puts into each FIFO; the other side takes.
pub const PUT_BY: [Side; FIFOS] = [Side::Local, Side::Host, Side::Host, Side::Local];

/// The fields that a kind uses; of the selector, the highest that is in range.
#[derive(Clone, Copy)]
pub struct Uses {
    pub s: Option<u8>,
    pub a: bool,
    pub b: bool,
    pub c: bool,
}

impl Uses {
    const NONE: Uses = Uses {
        s: None,
        a: false,
        b: false,
        c: false,
    };
    const B: Uses = Uses {
        b: true,
        ..Uses::NONE
    };
    /// A FIFO or a pair.
    const S: Uses = Uses {
        s: Some(3),
        ..Uses::NONE
    };
    const S_B: Uses = Uses { b: true, ..Uses::S };
    /// Lanes and address.
    const S_A: Uses = Uses {
        s: Some(15),
        a: true,
        ..Uses::NONE
    };
    const S_A_B: Uses = Uses {
        b: true,
        ..Uses::S_A
    };
    /// A start: direction, both addresses and size.
    const ALL: Uses = Uses {
        s: Some(1),
        a: true,
        b: true,
        c: true,
    };
}

/// The column "Uses", by kind.
pub const USES: [Uses; LAST_KIND as usize + 1] = [
    Uses::NONE,  // reset
    Uses::S_A,   // shared read
    Uses::S_A_B, // shared write
    Uses::S_A,   // window read
    Uses::S_A_B, // window write
    Uses::S,     // take
    Uses::S_B,   // put
    Uses::S,     // claim
    Uses::S,     // release
    Uses::B,     // mailbox write
    Uses::NONE,  // mailbox read
    Uses::NONE,  // interrupt read
    Uses::B,     // interrupt write
    Uses::NONE,  // line
    Uses::ALL,   // start
    Uses::NONE,  // step
    Uses::NONE,  // external pin
];

impl Card {
    /// "If several apply, the smallest number is given."
    pub fn refusal(&self, shared: &[u8], window: &[u8], access: &Access) -> u8 {
        (1..=10)
            .find(|number| self.cause(*number, shared, window, access))
            .unwrap_or(0)
    }

    /// Whether the cause with this number holds, whatever else does.
    #[inline]
    pub fn cause(&self, number: u8, shared: &[u8], window: &[u8], access: &Access) -> bool {
        match number {
            1 => self.unfit(shared, window),
            2 => access.kind > LAST_KIND || access.side > 1,
            3 => unused_field_not_zero(access),
            4 => selector_out_of_range(access),
            5 => wrong_side(access),
            6 => access.kind == kind::START && self.running.is_some(),
            7 => access.kind == kind::START && access.transfer().size_zero(),
            8 => access.kind == kind::START && access.transfer().size_unfit(),
            9 => self.address_unfit(access),
            10 => access.kind == kind::STEP && self.running.is_none(),
            _ => false,
        }
    }

    /// "record not sound, shared memory not 16,384 bytes, or window not of the set length"
    pub fn unfit(&self, shared: &[u8], window: &[u8]) -> bool {
        !self.sound()
            || shared.len() != SHARED_LENGTH as usize
            || window.len() != self.settings.length as usize
    }

    /// "For 1 to 4, refusal 9 covers an address that is no multiple of 4 or whose four bytes leave
    /// the memory."
    fn address_unfit(&self, access: &Access) -> bool {
        let address = access.a;
        match access.kind {
            kind::SHARED_READ | kind::SHARED_WRITE => {
                !address.is_multiple_of(4) || u64::from(address) + 4 > u64::from(SHARED_LENGTH)
            }
            kind::WINDOW_READ | kind::WINDOW_WRITE => {
                !address.is_multiple_of(4)
                    || self.settings.window_range(u64::from(address), 4).is_none()
            }
            kind::START => access.transfer().range_unfit(),
            _ => false,
        }
    }
}

/// "a field the kind does not use is not zero"
fn unused_field_not_zero(access: &Access) -> bool {
    USES.get(usize::from(access.kind)).is_some_and(|uses| {
        uses.s.is_none() && access.s != 0
            || !uses.a && access.a != 0
            || !uses.b && access.b != 0
            || !uses.c && access.c != 0
    })
}

/// "FIFO or pair above 3, lanes above 15, direction above 1"
fn selector_out_of_range(access: &Access) -> bool {
    USES.get(usize::from(access.kind))
        .and_then(|uses| uses.s)
        .is_some_and(|highest| access.s > highest)
}

/// "host only", "local only", and the table of who puts and who takes.
fn wrong_side(access: &Access) -> bool {
    let put_by = PUT_BY.get(usize::from(access.s));
    match access.kind {
        kind::WINDOW_READ | kind::WINDOW_WRITE => access.side != Side::Host as u8,
        kind::TAKE => put_by.is_some_and(|side| access.side == *side as u8),
        kind::PUT => put_by.is_some_and(|side| access.side != *side as u8),
        kind::EXTERNAL_PIN => access.side != Side::Local as u8,
        _ => false,
    }
}
