//! Which facts the lists of calls reach: every cell of the map's tables, and every two causes of
//! refusal that can hold at once.

use std::collections::BTreeSet;

use crate::access::Answer;
use crate::call::Call;
use crate::registers::map::{offset, REGISTERS};
use crate::registers::refusal::ORDER;
use crate::registers::{RegisterAccess, READ, WRITE};
use crate::world::World;

use super::super::sides::{HOST, LOCAL};
use super::scripts::refusals::NOT_MODELLED;
use super::CallList;

#[derive(Clone, Copy, Debug, PartialEq, Eq, PartialOrd, Ord)]
enum Fact {
    /// The number that a register access gets.
    Answered {
        side: u8,
        offset: u32,
        direction: u8,
        number: u8,
    },
    /// A refusal while the cause of one behind it holds too.
    Over { given: u8, also: u8 },
}

/// What a read and a write by the host, and by the local side, are answered.
const CELLS: [(u32, [u8; 4]); 15] = [
    (offset::IBFPFIFO, [0, 0, 5, 5]),
    (offset::OBPFFIFO, [0, 0, 5, 5]),
    (offset::IBPFFIFO, [5, 5, 0, 0]),
    (offset::OBFPFIFO, [5, 5, 0, 0]),
    (offset::DMALBASE, [0, 0, 0, 0]),
    (offset::DMAHBASE, [0, 0, 0, 0]),
    (offset::DMASIZE, [0, 0, 0, 0]),
    (offset::DMACTL, [0, 0, 0, 0]),
    (offset::ARBUTIL, [0, 0, 0, 0]),
    (offset::HINT, [0, 0, 0, 5]),
    (offset::HLDATA, [0, 0, 0, 5]),
    (offset::LINT, [0, 5, 0, 0]),
    (offset::LHDATA, [0, 5, 0, 0]),
    (offset::SHARED, [0, 0, 0, 0]),
    (offset::LAST_SHARED, [0, 0, 0, 0]),
];

/// A refusal, and those behind it whose causes can hold as well.
const OVER: [(u8, &[u8]); 5] = [
    (1, &[2, 11, 3, 4, 5, 6, 7, 9]),
    (2, &[11, 3, 4, 5, 6, 7, 9]),
    (11, &[3, 4]),
    (3, &[5]),
    (6, &[7, 9]),
];

fn required() -> BTreeSet<Fact> {
    let mut facts = BTreeSet::new();
    let mut answered = |side, offset, direction, number| {
        facts.insert(Fact::Answered {
            side,
            offset,
            direction,
            number,
        });
    };
    for (offset, numbers) in CELLS {
        let cells = [(HOST, READ), (HOST, WRITE), (LOCAL, READ), (LOCAL, WRITE)];
        for ((side, direction), number) in cells.into_iter().zip(numbers) {
            answered(side, offset, direction, number);
        }
        for side in [HOST, LOCAL] {
            answered(side, offset, READ, 3);
        }
    }
    for side in [HOST, LOCAL] {
        for number in [6, 7, 9] {
            answered(side, offset::DMACTL, WRITE, number);
        }
    }
    for (given, behind) in OVER {
        facts.extend(behind.iter().map(|also| Fact::Over { given, also: *also }));
    }
    facts
}

fn observe(before: &World, access: &RegisterAccess, answer: &Answer, facts: &mut BTreeSet<Fact>) {
    let given = answer.number;
    let RegisterAccess {
        side,
        offset,
        direction,
        ..
    } = *access;
    facts.insert(Fact::Answered {
        side,
        offset,
        direction,
        number: given,
    });
    let behind = ORDER.into_iter().skip_while(|number| *number != given);
    let holds = |also: &u8| before.register_cause(*also, access);
    facts.extend(
        behind
            .skip(1)
            .filter(holds)
            .map(|also| Fact::Over { given, also }),
    );
}

fn reached(lists: &[CallList]) -> BTreeSet<Fact> {
    let mut facts = BTreeSet::new();
    for list in lists {
        let mut world = list.zeroed();
        for call in &list.calls {
            let before = world.clone();
            let answer = world.call(call).answer;
            if let Call::Register(access) = call {
                observe(&before, access, &answer, &mut facts);
            }
        }
    }
    facts
}

/// Panics with what was not reached.
pub fn assert_all(lists: &[CallList]) {
    let of_cells = CELLS.iter().map(|(offset, _)| offset);
    assert!(of_cells.take(REGISTERS.len()).eq(&REGISTERS));
    let reached = reached(lists);
    let missing: Vec<Fact> = required().difference(&reached).copied().collect();
    assert!(missing.is_empty(), "not reached: {missing:#?}");
    for not_modelled in NOT_MODELLED {
        let refused = reached.iter().any(|fact| {
            matches!(fact, Fact::Answered { offset, number: 11, .. } if *offset == not_modelled)
        });
        assert!(refused, "{not_modelled:#06x}");
    }
}
