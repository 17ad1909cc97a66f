//! What starts and steps meet.

use crate::access::{kind, Access};
use crate::settings::{Settings, PCI_SPACE};
use crate::transfer::{Running, SHARED_LENGTH};

use super::fact::{Fact, Near, Start, StepPlace};
use super::Observed;

/// What is remembered within one list.
#[derive(Default)]
pub struct History {
    starter: Option<u8>,
    /// The dwords of the running transfer's source that were written since its start.
    source_written: Vec<u32>,
}

impl History {
    pub fn observe(&mut self, observed: &Observed, facts: &mut Vec<Fact>) {
        let Observed { access, answer, .. } = observed;
        let card = &observed.before.card;
        match (access.kind, answer.number, card.running) {
            (kind::START, number, _) => {
                start(&card.settings, access, number, facts);
                if number == 0 {
                    self.starter = Some(access.side);
                    self.source_written.clear();
                }
            }
            (kind::STEP, 0, Some(running)) => self.step(observed, running, facts),
            (kind::SHARED_READ..=kind::WINDOW_WRITE, 0, Some(running)) => {
                facts.extend(while_running(access, &running));
                self.source_written.extend(source_dword(access, &running));
            }
            _ => (),
        }
    }

    fn step(&mut self, observed: &Observed, running: Running, facts: &mut Vec<Fact>) {
        let Running { transfer, moved } = running;
        let direction = transfer.direction;
        let v = observed.answer.v;
        facts.push(Fact::Step {
            direction,
            v,
            moved_before: moved > 0,
        });
        if self.starter == Some(1 - observed.access.side) {
            facts.push(Fact::StepByOtherSide);
        }
        if v <= 2 && self.source_written.contains(&moved) {
            facts.push(Fact::MovedAsItStoodThen { direction });
        }
        let address = i64::from(transfer.pci) + 4 * i64::from(moved);
        for place in step_places(&observed.before.card.settings, address) {
            facts.push(Fact::StepAt { place, v });
        }
    }
}

/// Whether an access falls on the range of the running transfer or beside it.
fn while_running(access: &Access, running: &Running) -> Option<Fact> {
    let transfer = running.transfer;
    let first = match access.kind {
        kind::SHARED_READ | kind::SHARED_WRITE => transfer.shared,
        _ => transfer.pci,
    };
    let dword = (i64::from(access.a) - i64::from(first)) / 4;
    let [moved, dwords] = [running.moved, transfer.dwords()].map(i64::from);
    let near = match dword {
        -1 => Near::Before,
        _ if dword == dwords => Near::After,
        _ if (0..moved).contains(&dword) => Near::Moved,
        _ if (moved..dwords).contains(&dword) => Near::ToMove,
        _ => return None,
    };
    Some(Fact::WhileRunning {
        kind: access.kind,
        direction: transfer.direction,
        near,
    })
}

/// Which dword of a running transfer's source a write falls on.
fn source_dword(access: &Access, running: &Running) -> Option<u32> {
    let transfer = running.transfer;
    let (kind, first) = if transfer.direction == 0 {
        (kind::WINDOW_WRITE, transfer.pci)
    } else {
        (kind::SHARED_WRITE, transfer.shared)
    };
    let dword = access.a.checked_sub(first)? / 4;
    (access.kind == kind && access.s == 0 && dword < transfer.dwords()).then_some(dword)
}

fn start(settings: &Settings, access: &Access, number: u8, facts: &mut Vec<Fact>) {
    let direction = access.s;
    let [shared, pci, size] = [access.a, access.b, access.c].map(u64::from);
    let shared_length = u64::from(SHARED_LENGTH);
    let shared_past = shared + size > shared_length;
    let pci_past = pci + size > PCI_SPACE;
    let outside = settings.window_range(pci, access.c).is_none();
    let met: &[(Start, bool)] = match number {
        0 => &[
            (Start::SizeHighest, size == shared_length),
            (Start::SharedToEnd, shared + size == shared_length),
            (Start::PciToEnd, pci + size == PCI_SPACE),
            (Start::OutsideWindow, outside),
        ],
        6 => &[(Start::WhileRunning, true)],
        9 => &[
            (
                Start::SharedPastEnd,
                shared + size == shared_length + 4 && !pci_past,
            ),
            (
                Start::PciPastEnd,
                pci + size == PCI_SPACE + 4 && !shared_past,
            ),
            (
                Start::SharedMisaligned,
                shared % 4 != 0 && !shared_past && pci % 4 == 0,
            ),
            (
                Start::PciMisaligned,
                pci % 4 != 0 && !pci_past && shared % 4 == 0,
            ),
        ],
        _ => &[],
    };
    for (what, _) in met.iter().filter(|(_, holds)| *holds) {
        let what = *what;
        facts.push(Fact::Start { direction, what });
    }
}

fn step_places(settings: &Settings, address: i64) -> impl Iterator<Item = StepPlace> {
    let [base, length, lo, hi] = settings.numbers().map(i64::from);
    [
        (StepPlace::BeforeLo, base + lo - 4),
        (StepPlace::AtLo, base + lo),
        (StepPlace::BeforeHi, base + hi - 4),
        (StepPlace::AtHi, base + hi),
        (StepPlace::Last, base + length - 4),
        (StepPlace::AtEnd, base + length),
        (StepPlace::BelowBase, base - 4),
    ]
    .into_iter()
    .filter(move |(_, at)| *at == address)
    .map(|(place, _)| place)
}
