//! What the FIFOs, flags, mailboxes and interrupt registers meet.

use crate::access::kind;
use crate::card::{Card, Mailboxes, FIFOS, FIFO_DEPTH};

use super::fact::{Bay, Cleared, Event, Fact, Fifo, Flag};
use super::required::EVENTS;
use super::Observed;

/// What is remembered within one list.
#[derive(Default)]
pub struct History {
    was_full: [bool; FIFOS],
    written_before_reset: bool,
    mailbox_written_by: Option<u8>,
    /// The last access was a mailbox write by this side with every bit set but 24.
    other_bits_written_by: Option<u8>,
    /// What was last raised, and at which positions of HINT and LINT.
    raised: Option<(Event, [u32; 2])>,
}

impl History {
    pub fn observe(&mut self, observed: &Observed, facts: &mut Vec<Fact>) {
        self.fifos(observed, facts);
        if observed.answer.number == 0 {
            if observed.access.kind == kind::RESET {
                reset(&observed.before.card, facts);
            }
            flags(observed, facts);
            self.mailboxes(observed, facts);
            self.interrupts(observed, facts);
        }
    }

    fn fifos(&mut self, observed: &Observed, facts: &mut Vec<Fact>) {
        let Observed { access, answer, .. } = observed;
        let fifo = usize::from(access.s);
        let what = match (access.kind, answer.number, answer.x) {
            (kind::PUT, 0, 0) => Fifo::Overflow,
            (kind::PUT, 0, _) => Fifo::Put(answer.v),
            (kind::TAKE, 0, 0) => Fifo::TakeEmpty,
            (kind::TAKE, 0, x) => Fifo::Take(x),
            (kind::PUT, 5, _) => Fifo::WrongSidedPut,
            (kind::TAKE, 5, _) => Fifo::WrongSidedTake,
            _ => return,
        };
        facts.push(Fact::Fifo { fifo, what });
        let held = observed.after.card.fifos[fifo].len();
        self.was_full[fifo] |= held == FIFO_DEPTH;
        let is_take = matches!(what, Fifo::Take(_));
        if is_take && answer.v == u32::MAX {
            let what = Fifo::TakeOfEmptyAnswer;
            facts.push(Fact::Fifo { fifo, what });
        }
        if is_take && held == 0 && self.was_full[fifo] {
            let what = Fifo::DrainedFromFull;
            facts.push(Fact::Fifo { fifo, what });
        }
    }

    fn mailboxes(&mut self, observed: &Observed, facts: &mut Vec<Fact>) {
        let Observed { access, .. } = observed;
        let mailboxes = observed.before.card.mailboxes;
        let side = access.side;
        let other_bits_written_by = self.other_bits_written_by.take();
        match (access.kind, side) {
            (kind::INTERRUPT_READ, _) if other_bits_written_by == Some(1 - side) => {
                let side = 1 - side;
                facts.push(Fact::OtherBitsRaiseNothing { side });
            }
            (kind::RESET, _) => {
                self.written_before_reset |= mailboxes.written;
                self.mailbox_written_by = None;
            }
            (kind::MAILBOX_WRITE, _) => {
                self.mailbox_written_by = Some(side);
                if access.b | 0xFFFF == 0xFEFF_FFFF {
                    self.other_bits_written_by = Some(side);
                }
                facts.push(Fact::MailboxWrite {
                    side,
                    raises: access.b >> 24 & 1 == 1,
                    ignored: access.b & 0xFEFF_0000 != 0,
                });
            }
            (kind::MAILBOX_READ, 0) => {
                facts.push(Fact::HostMailboxRead(if mailboxes.written {
                    Bay::Written(mailboxes.lhdata & 0xFF)
                } else if self.written_before_reset {
                    Bay::UnwrittenAfterReset
                } else {
                    Bay::Unwritten
                }));
            }
            (kind::MAILBOX_READ, _) => {
                if let Some(after) = self.mailbox_written_by {
                    facts.push(Fact::LocalMailboxRead { after });
                }
            }
            _ => (),
        }
    }

    fn interrupts(&mut self, observed: &Observed, facts: &mut Vec<Fact>) {
        let Observed { access, answer, .. } = observed;
        let (old, new) = (&observed.before.card, &observed.after.card);
        let side = access.side;
        let following = old.following();
        let caller = access.caller();
        let (own, own_after) = (old.register(caller), new.register(caller));
        match access.kind {
            kind::INTERRUPT_READ => {
                if let Some((event, positions)) = self.raised {
                    let here = positions[usize::from(side)];
                    if answer.v & here == here {
                        facts.push(Fact::EventRead { event, side });
                    }
                }
            }
            kind::INTERRUPT_WRITE => {
                for event in positions(own.status & !own_after.status) {
                    facts.push(Fact::EventCleared { event, side });
                }
                for event in positions(following & access.b) {
                    facts.push(Fact::FollowingNotCleared { side, event });
                }
                if access.b == 0 {
                    let status = own.status != 0;
                    facts.push(Fact::ZeroInterruptWrite { side, status });
                }
            }
            kind::LINE => {
                let active = answer.v == 1;
                facts.push(Fact::Line { side, active });
                if active && own.status & own.enables == 0 {
                    for event in positions(following & own.enables) {
                        facts.push(Fact::LineByFollowing { side, event });
                    }
                }
            }
            kind::RESET => self.raised = None,
            _ => {
                let followed = new.following() & !following;
                let in_hint = new.hint.status & !old.hint.status | followed;
                let in_lint = new.lint.status & !old.lint.status | followed;
                if let Some(position) = positions(in_hint | in_lint).next() {
                    let event = match (access.kind, side) {
                        (kind::MAILBOX_WRITE, 0) => Event::MailboxToLocal,
                        (kind::MAILBOX_WRITE, _) => Event::MailboxToHost,
                        _ => Event::Bit(position),
                    };
                    self.raised = Some((event, [in_hint, in_lint]));
                }
            }
        }
    }
}

fn reset(before: &Card, facts: &mut Vec<Fact>) {
    let Mailboxes { hldata, lhdata, .. } = before.mailboxes;
    let found = [
        (Cleared::HostFlag, before.pairs.iter().any(|pair| pair.host)),
        (
            Cleared::LocalFlag,
            before.pairs.iter().any(|pair| pair.local),
        ),
        (Cleared::Hldata, hldata != 0),
        (Cleared::Lhdata, lhdata != 0),
        (Cleared::HostEnables, before.hint.enables != 0),
        (Cleared::HostStatus, before.hint.status != 0),
        (Cleared::LocalEnables, before.lint.enables != 0),
        (Cleared::LocalStatus, before.lint.status != 0),
        (Cleared::Transfer, before.running.is_some()),
    ];
    let fifos = (0..).zip(&before.fifos);
    let fifos = fifos.map(|(fifo, held)| (Cleared::Fifo(fifo), !held.is_empty()));
    let found = found.into_iter().chain(fifos);
    facts.extend(
        found
            .filter(|(_, set)| *set)
            .map(|(what, _)| Fact::Reset(what)),
    );
}

fn flags(observed: &Observed, facts: &mut Vec<Fact>) {
    let Observed { access, answer, .. } = observed;
    if access.kind != kind::CLAIM && access.kind != kind::RELEASE {
        return;
    }
    let side = access.side;
    let pair = observed.before.card.pairs[usize::from(access.s)];
    let (own, other) = if side == 0 {
        (pair.host, pair.local)
    } else {
        (pair.local, pair.host)
    };
    let what = match (access.kind, answer.v) {
        (kind::CLAIM, 1) if own => Flag::OwnAgain,
        (kind::CLAIM, 1) => Flag::Granted,
        (kind::CLAIM, _) => Flag::Denied,
        _ if own => Flag::ReleaseOwn,
        _ if other => Flag::ReleaseOfOther,
        _ => Flag::ReleaseClear,
    };
    facts.push(Fact::Flag { side, what });
}

/// The positions of a set of events, one by one.
fn positions(events: u32) -> impl Iterator<Item = u32> {
    EVENTS.into_iter().filter(move |event| events & event != 0)
}
