//! Accesses with one fault, or with two of which the smaller number must be given.

use crate::access::{kind, Access};
use crate::refusal::{LAST_KIND, USES};
use crate::rng::Rng;
use crate::settings::Settings;
use crate::transfer::SHARED_LENGTH;

use super::coverage::fact::Field;
use super::sides::{putter, taker, HOST, LOCAL};

/// An access of this kind without a fault, where the state allows it.
pub fn faultless(kind: u8, settings: &Settings) -> Access {
    let Settings { base, length, .. } = *settings;
    let last = base.wrapping_add(length.saturating_sub(4));
    let (side, s, a, b, c) = match kind {
        kind::SHARED_READ => (LOCAL, 0, 8, 0, 0),
        kind::SHARED_WRITE => (HOST, 5, 12, 0x0BAD_CAFE, 0),
        kind::WINDOW_READ => (HOST, 0, last, 0, 0),
        kind::WINDOW_WRITE => (HOST, 10, base, 0x8765_4321, 0),
        kind::TAKE => (LOCAL, 1, 0, 0, 0),
        kind::PUT => (LOCAL, 3, 0, 77, 0),
        kind::CLAIM => (HOST, 3, 0, 0, 0),
        kind::RELEASE => (LOCAL, 3, 0, 0, 0),
        kind::MAILBOX_WRITE => (LOCAL, 0, 0, 0x0100_0005, 0),
        kind::INTERRUPT_WRITE => (HOST, 0, 0, 0x0008_0000, 0),
        kind::START => (HOST, 0, 0, base, 8),
        kind::EXTERNAL_PIN => (LOCAL, 0, 0, 0, 0),
        _ => (HOST, 0, 0, 0, 0),
    };
    Access::new(kind, side, s, a, b, c)
}

/// The faults that can be written down under these settings.
pub fn faults(settings: &Settings, rng: &mut Rng) -> Vec<Access> {
    let mut faults = Vec::new();
    for kind in 0..=LAST_KIND {
        let access = faultless(kind, settings);
        for side in [2, 255] {
            faults.push(Access { side, ..access });
        }
        for field in Field::unused_by(kind) {
            faults.push(with_field(access, field, rng));
        }
        if let Some(highest) = USES[usize::from(kind)].s {
            for s in [highest + 1, 255] {
                faults.push(Access { s, ..access });
            }
        }
    }
    kinds_and_sides(&mut faults);
    addresses(settings, &mut faults);
    starts(settings, &mut faults);
    two_at_once(settings, rng, &mut faults);
    faults
}

fn with_field(access: Access, field: Field, rng: &mut Rng) -> Access {
    let value = rng.pick(&[1, 4, 256, 0x0100_0000, 0x8000_0000, u32::MAX]);
    match field {
        Field::S => Access {
            s: rng.pick(&[1, 4, 128, 255]),
            ..access
        },
        Field::A => Access { a: value, ..access },
        Field::B => Access { b: value, ..access },
        Field::C => Access { c: value, ..access },
    }
}

/// Kinds above 16, and sides that a kind is not open to.
fn kinds_and_sides(faults: &mut Vec<Access>) {
    for kind in [17, 18, 255] {
        for side in [HOST, LOCAL, 2] {
            faults.push(Access::new(kind, side, 0, 0, 0, 0));
        }
    }
    for fifo in 0..4 {
        faults.push(Access::new(kind::TAKE, putter(fifo), fifo, 0, 0, 0));
        faults.push(Access::new(kind::PUT, taker(fifo), fifo, 0, 9, 0));
    }
    faults.push(Access::new(kind::EXTERNAL_PIN, HOST, 0, 0, 0, 0));
}

fn addresses(settings: &Settings, faults: &mut Vec<Access>) {
    let Settings { base, length, .. } = *settings;
    for kind in kind::SHARED_READ..=kind::WINDOW_WRITE {
        let access = faultless(kind, settings);
        let of_window = kind >= kind::WINDOW_READ;
        let (first, past) = if of_window {
            faults.push(Access {
                side: LOCAL,
                ..access
            });
            (base, base.wrapping_add(length))
        } else {
            (0, SHARED_LENGTH)
        };
        for a in [
            first + 5,
            first + 6,
            first + 7,
            past,
            u32::MAX - 3,
            u32::MAX,
        ] {
            faults.push(Access { a, ..access });
        }
        if of_window {
            faults.push(Access {
                a: first.wrapping_sub(4),
                ..access
            });
        }
        faults.push(Access {
            s: 15,
            a: past,
            ..access
        });
    }
}

fn starts(settings: &Settings, faults: &mut Vec<Access>) {
    let base = settings.base;
    for direction in [0, 1] {
        for (a, b, c) in [
            (0, base, 0),
            (0, base, 1),
            (0, base, 2),
            (0, base, 3),
            (0, base, 5),
            (0, base, SHARED_LENGTH + 1),
            (0, base, SHARED_LENGTH + 4),
            (0, base, u32::MAX - 3),
            (0, base, u32::MAX),
            (4, 0, SHARED_LENGTH),
            (SHARED_LENGTH - 4, 0, 8),
            (u32::MAX - 3, 0, 4),
            (0, u32::MAX - 3, 8),
            (0, 0u32.wrapping_sub(SHARED_LENGTH) + 4, SHARED_LENGTH),
            (1, 0, 8),
            (2, 0, 4),
            (0, base + 2, 8),
            (0, base + 3, 4),
        ] {
            faults.push(Access::new(kind::START, HOST, direction, a, b, c));
        }
    }
}

fn two_at_once(settings: &Settings, rng: &mut Rng, faults: &mut Vec<Access>) {
    let past = settings.base.wrapping_add(settings.length);
    for kind in [kind::WINDOW_READ, kind::WINDOW_WRITE] {
        // causes 3, 4, 5 and 9
        let unused = |access| Access { c: 1, ..access };
        let lanes = |access| Access { s: 16, ..access };
        let side = |access| Access {
            side: LOCAL,
            ..access
        };
        let address = |access| Access { a: past, ..access };
        let access = faultless(kind, settings);
        faults.extend([
            lanes(unused(access)),
            side(unused(access)),
            address(unused(access)),
            side(lanes(access)),
            address(lanes(access)),
            address(side(access)),
        ]);
    }
    let step = Access::new(kind::STEP, LOCAL, 1, 0, 0, 0);
    faults.extend([
        Access::new(kind::SHARED_READ, HOST, 16, 16_384, 0, 0),
        Access::new(kind::SHARED_READ, HOST, 16, 4, 1, 0),
        Access::new(kind::SHARED_WRITE, LOCAL, 0, 16_384, 0, 1),
        Access::new(kind::TAKE, LOCAL, 0, 1, 0, 0),
        Access::new(kind::TAKE, LOCAL, 4, 0, 0, 1),
        Access::new(kind::PUT, HOST, 0, 0, 0, 1),
        Access::new(kind::PUT, HOST, 255, 0, 0, 0),
        Access::new(kind::EXTERNAL_PIN, HOST, 0, 0, 0, 1),
        step,
        Access { side: 2, ..step },
        Access::new(kind::STEP, 3, 0, 0, 0, 0),
        Access::new(kind::WINDOW_READ, 2, 0, past, 0, 0),
        Access::new(kind::WINDOW_WRITE, 7, 16, past, 1, 1),
        Access::new(17, 2, 16, 1, 1, 1),
        Access::new(kind::START, HOST, 2, 0, 0, 0),
        Access::new(kind::START, LOCAL, 2, 0, 0, 3),
        Access::new(kind::START, LOCAL, 255, 1, 0, 4),
        Access::new(kind::START, HOST, 0, 1, 0, 0),
        Access::new(kind::START, HOST, 1, 16_388, 0, 0),
        Access::new(kind::START, HOST, 1, 3, 0, 6),
        Access::new(kind::START, LOCAL, 0, 0, u32::MAX - 3, 16_388),
        Access::new(kind::START, 2, 0, 0, 0, 0),
        Access::new(kind::START, 2, 2, 1, 1, 1),
    ]);
    let kind = rng.pick(&[kind::CLAIM, kind::RELEASE]);
    faults.push(Access::new(kind, HOST, 4, 0, 9, 0));
}
