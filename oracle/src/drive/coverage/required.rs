//! What the lists must reach between them.

use crate::access::kind;
use crate::card::{FIFOS, FIFO_DEPTH};
use crate::interrupts::event;
use crate::refusal::LAST_KIND;

use super::fact::{Bay, Cleared, Event, Fact, Field, Fifo, Flag, Near, Place, Start, StepPlace};

/// Every event position that exists.
pub const EVENTS: [u32; 9] = [
    event::LOCAL_FIFO_OVERFLOW,
    event::PCI_FIFO_OVERFLOW,
    event::MAILBOX,
    event::EXTERNAL_SIGNAL,
    event::DMA_COMPLETE,
    event::INBOUND_POST_NOT_EMPTY,
    event::OUTBOUND_POST_NOT_EMPTY,
    event::TARGET_ABORT,
    event::MASTER_ABORT,
];

/// The entries of a full FIFO.
const FULL: u32 = FIFO_DEPTH as u32;

/// Every fact that the lists must reach.
pub fn facts() -> Vec<Fact> {
    let mut facts = Vec::new();
    refusals(&mut facts);
    memories(&mut facts);
    registers(&mut facts);
    events(&mut facts);
    transfers(&mut facts);
    facts
}

/// What a fresh card with the replay's settings can reach of it, accesses to the range of a running
/// transfer and beside it, and every V of a put.
pub fn of_replay() -> Vec<Fact> {
    let mut facts = facts();
    facts.retain(|fact| !beyond_replay(fact));
    for kind in kind::SHARED_READ..=kind::WINDOW_WRITE {
        for direction in 0..=1 {
            let places = [Near::Moved, Near::ToMove, Near::Before, Near::After];
            facts.extend(places.map(|near| Fact::WhileRunning {
                kind,
                direction,
                near,
            }));
        }
    }
    for fifo in 0..FIFOS {
        let puts = (1..=FULL).map(Fifo::Put);
        facts.extend(puts.map(|what| Fact::Fifo { fifo, what }));
    }
    facts
}

/// Its record is sound and its memories fit, so that nothing is refused with 1. The abort range
/// ends with the window: no step gets past it.
fn beyond_replay(fact: &Fact) -> bool {
    match fact {
        Fact::Refused { number: 1, .. } | Fact::Over { given: 1, .. } => true,
        Fact::Step {
            v: 4, moved_before, ..
        } => *moved_before,
        Fact::StepAt { place, v } => match place {
            StepPlace::AtHi => *v != 4,
            StepPlace::Last => *v != 3,
            _ => false,
        },
        _ => false,
    }
}

/// The refusals that a kind can give besides 1, 2 and 3.
fn further_refusals(kind: u8) -> &'static [u8] {
    match kind {
        kind::SHARED_READ | kind::SHARED_WRITE => &[4, 9],
        kind::WINDOW_READ | kind::WINDOW_WRITE => &[4, 5, 9],
        kind::TAKE | kind::PUT => &[4, 5],
        kind::CLAIM | kind::RELEASE => &[4],
        kind::START => &[4, 6, 7, 8, 9],
        kind::STEP => &[10],
        kind::EXTERNAL_PIN => &[5],
        _ => &[],
    }
}

fn refusals(facts: &mut Vec<Fact>) {
    for kind in 0..=LAST_KIND {
        for side in 0..=1 {
            let window = kind == kind::WINDOW_READ || kind == kind::WINDOW_WRITE;
            if !(window && side == 1 || kind == kind::EXTERNAL_PIN && side == 0) {
                facts.push(Fact::Done { kind, side });
            }
        }
        for number in [1, 2].iter().chain(further_refusals(kind)) {
            facts.push(Fact::Refused {
                kind,
                number: *number,
            });
        }
        for field in Field::unused_by(kind) {
            facts.push(Fact::OnlyUnusedField { kind, field });
        }
    }
    for kind in [17, 18, 255] {
        facts.push(Fact::Refused { kind, number: 2 });
    }
    facts.extend([2, 255].map(Fact::SideRefused));
    for given in 1..=10 {
        let also: &[u8] = match given {
            1 => &[2, 3, 4, 5, 6, 7, 8, 9, 10],
            2 => &[3, 4, 5, 6, 7, 8, 9, 10],
            3 => &[4, 5, 9, 10],
            4 => &[5, 6, 7, 8, 9],
            5 => &[9],
            6 => &[7, 8, 9],
            7 | 8 => &[9],
            _ => &[],
        };
        facts.extend(also.iter().map(|also| Fact::Over { given, also: *also }));
    }
    for kind in [kind::WINDOW_READ, kind::WINDOW_WRITE] {
        for (given, also) in [(3, 4), (3, 5), (3, 9), (4, 5), (4, 9), (5, 9)] {
            facts.push(Fact::KindOver { kind, given, also });
        }
    }
}

fn memories(facts: &mut Vec<Fact>) {
    for kind in kind::SHARED_READ..=kind::WINDOW_WRITE {
        facts.extend((0..=15).map(|lanes| Fact::Lanes { kind, lanes }));
        facts.extend([16, 255].map(|selector| Fact::Selector { kind, selector }));
        let mut places = vec![Place::First, Place::Last, Place::OnePast];
        places.extend([1, 2, 3].map(Place::Misaligned));
        if kind >= kind::WINDOW_READ {
            places.extend([Place::Below, Place::InAbortRange]);
        }
        facts.extend(places.into_iter().map(|place| Fact::At { kind, place }));
    }
}

fn registers(facts: &mut Vec<Fact>) {
    for kind in kind::TAKE..=kind::RELEASE {
        facts.extend([4, 255].map(|selector| Fact::Selector { kind, selector }));
    }
    for fifo in 0..FIFOS {
        let all = [
            Fifo::Put(1),
            Fifo::Put(FULL - 1),
            Fifo::Put(FULL),
            Fifo::Overflow,
            Fifo::TakeEmpty,
            Fifo::WrongSidedPut,
            Fifo::WrongSidedTake,
            Fifo::DrainedFromFull,
            Fifo::TakeOfEmptyAnswer,
        ];
        let takes = (1..=FULL).map(Fifo::Take);
        let all = all.into_iter().chain(takes);
        facts.extend(all.map(|what| Fact::Fifo { fifo, what }));
    }
    for side in 0..=1 {
        let all = [
            Flag::Granted,
            Flag::Denied,
            Flag::OwnAgain,
            Flag::ReleaseOwn,
            Flag::ReleaseClear,
            Flag::ReleaseOfOther,
        ];
        facts.extend(all.map(|what| Fact::Flag { side, what }));
        for (raises, ignored) in [(false, false), (false, true), (true, false), (true, true)] {
            facts.push(Fact::MailboxWrite {
                side,
                raises,
                ignored,
            });
        }
        facts.push(Fact::LocalMailboxRead { after: side });
        facts.push(Fact::OtherBitsRaiseNothing { side });
    }
    facts.extend((0..FIFOS).map(|fifo| Fact::Reset(Cleared::Fifo(fifo))));
    let cleared = [
        Cleared::HostFlag,
        Cleared::LocalFlag,
        Cleared::Hldata,
        Cleared::Lhdata,
        Cleared::HostEnables,
        Cleared::HostStatus,
        Cleared::LocalEnables,
        Cleared::LocalStatus,
        Cleared::Transfer,
    ];
    facts.extend(cleared.map(Fact::Reset));
    let bays = [0, 1, 22, 23, 24, 255].map(Bay::Written);
    facts.extend(bays.map(Fact::HostMailboxRead));
    facts.push(Fact::HostMailboxRead(Bay::Unwritten));
    facts.push(Fact::HostMailboxRead(Bay::UnwrittenAfterReset));
}

fn events(facts: &mut Vec<Fact>) {
    for side in 0..=1 {
        let existing = [event::OF_HOST, event::OF_LOCAL][usize::from(side)];
        for bit in EVENTS {
            if bit == event::MAILBOX {
                for event in [Event::MailboxToHost, Event::MailboxToLocal] {
                    facts.push(Fact::EventRead { event, side });
                }
            } else {
                let event = Event::Bit(bit);
                facts.push(Fact::EventRead { event, side });
            }
            if bit & event::FOLLOWING != 0 {
                facts.push(Fact::FollowingNotCleared { event: bit, side });
                facts.push(Fact::LineByFollowing { event: bit, side });
            } else if bit & existing != 0 {
                facts.push(Fact::EventCleared { event: bit, side });
            }
        }
        for set in [false, true] {
            facts.push(Fact::ZeroInterruptWrite { side, status: set });
            facts.push(Fact::Line { side, active: set });
        }
    }
}

fn transfers(facts: &mut Vec<Fact>) {
    for selector in [2, 255] {
        let kind = kind::START;
        facts.push(Fact::Selector { kind, selector });
    }
    for direction in 0..=1 {
        let all = [
            Start::SizeHighest,
            Start::SharedToEnd,
            Start::PciToEnd,
            Start::SharedPastEnd,
            Start::PciPastEnd,
            Start::SharedMisaligned,
            Start::PciMisaligned,
            Start::WhileRunning,
            Start::OutsideWindow,
        ];
        facts.extend(all.map(|what| Fact::Start { direction, what }));
        facts.push(Fact::MovedAsItStoodThen { direction });
        for v in 1..=4 {
            for moved_before in [false, true] {
                facts.push(Fact::Step {
                    direction,
                    v,
                    moved_before,
                });
            }
        }
    }
    facts.extend([0, 1, 2, 3, 5, 16_385, 16_388, 4_294_967_292, u32::MAX].map(Fact::SizeRefused));
    for (place, v) in [
        (StepPlace::BeforeLo, 1),
        (StepPlace::BeforeLo, 2),
        (StepPlace::AtLo, 3),
        (StepPlace::BeforeHi, 3),
        (StepPlace::AtHi, 1),
        (StepPlace::AtHi, 2),
        (StepPlace::AtHi, 4),
        (StepPlace::Last, 1),
        (StepPlace::Last, 2),
        (StepPlace::Last, 3),
        (StepPlace::AtEnd, 4),
        (StepPlace::BelowBase, 4),
    ] {
        facts.push(Fact::StepAt { place, v });
    }
    facts.push(Fact::StepByOtherSide);
}
