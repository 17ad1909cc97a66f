//! Which facts the lists of accesses reach.

pub mod fact;
mod registers;
pub mod required;
mod transfers;

use std::collections::BTreeSet;

use crate::access::{kind, Access, Answer};
use crate::refusal::LAST_KIND;
use crate::transfer::SHARED_LENGTH;
use crate::world::World;

use fact::{Fact, Field, Place};

#[derive(Default)]
pub struct Coverage {
    reached: BTreeSet<Fact>,
    registers: registers::History,
    transfers: transfers::History,
}

/// One access, with the worlds before and after it.
pub struct Observed<'a> {
    pub before: &'a World,
    pub access: &'a Access,
    pub answer: &'a Answer,
    pub after: &'a World,
}

impl Coverage {
    /// Forgets what came before in another list.
    pub fn start_list(&mut self) {
        self.registers = Default::default();
        self.transfers = Default::default();
    }

    /// Panics with those of these facts that were not reached.
    pub fn assert_reached(&self, mut facts: Vec<Fact>) {
        facts.retain(|fact| !self.reached.contains(fact));
        assert!(facts.is_empty(), "not reached: {facts:#?}");
    }

    pub fn observe(&mut self, observed: &Observed) {
        let mut facts = Vec::new();
        let Observed { access, answer, .. } = observed;
        if answer.number == 0 {
            let (kind, side) = (access.kind, access.side);
            facts.push(Fact::Done { kind, side });
        } else {
            refusal(observed, &mut facts);
        }
        if (kind::SHARED_READ..=kind::WINDOW_WRITE).contains(&access.kind) {
            place(observed, &mut facts);
        }
        self.registers.observe(observed, &mut facts);
        self.transfers.observe(observed, &mut facts);
        self.reached.extend(facts);
    }
}

fn refusal(observed: &Observed, facts: &mut Vec<Fact>) {
    let Observed { access, answer, .. } = observed;
    let (kind, given) = (access.kind, answer.number);
    facts.push(Fact::Refused {
        kind,
        number: given,
    });
    let holds = |number: &u8| observed.before.cause(*number, access);
    for also in (given + 1..=10).filter(holds) {
        facts.push(Fact::Over { given, also });
        facts.push(Fact::KindOver { kind, given, also });
    }
    match given {
        2 if kind <= LAST_KIND => facts.push(Fact::SideRefused(access.side)),
        3 => {
            let mut set = Field::unused_by(kind);
            set.retain(|field| field.of(access) != 0);
            if let [field] = set[..] {
                facts.push(Fact::OnlyUnusedField { kind, field });
            }
        }
        4 => facts.push(Fact::Selector {
            kind,
            selector: access.s,
        }),
        7 | 8 => facts.push(Fact::SizeRefused(access.c)),
        _ => (),
    }
}

/// Where kinds 1 to 4 fall.
fn place(observed: &Observed, facts: &mut Vec<Fact>) {
    let Observed { access, answer, .. } = observed;
    let kind = access.kind;
    let settings = observed.before.card.settings;
    let of_window = kind >= kind::WINDOW_READ;
    let (first, length) = if of_window {
        (i64::from(settings.base), i64::from(settings.length))
    } else {
        (0, i64::from(SHARED_LENGTH))
    };
    let offset = i64::from(access.a) - first;
    let in_abort_range = of_window && settings.in_abort_range(u64::from(access.a));
    let inside = 0 < offset && offset < length - 4;
    let places: &[(Place, bool)] = match answer.number {
        0 => &[
            (Place::First, offset == 0),
            (Place::Last, offset == length - 4),
            (Place::InAbortRange, in_abort_range),
        ],
        9 => &[
            (Place::OnePast, offset == length),
            (Place::Below, offset == -4),
            (Place::Misaligned(access.a % 4), inside),
        ],
        _ => &[],
    };
    for (place, _) in places.iter().filter(|(_, holds)| *holds) {
        facts.push(Fact::At {
            kind,
            place: *place,
        });
    }
    if answer.number == 0 {
        let lanes = access.s;
        facts.push(Fact::Lanes { kind, lanes });
    }
}
