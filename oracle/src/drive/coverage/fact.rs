//! What a list of accesses can reach.

use crate::access::Access;
use crate::refusal::USES;

/// A field of an access.
#[derive(Clone, Copy, Debug, PartialEq, Eq, PartialOrd, Ord)]
pub enum Field {
    S,
    A,
    B,
    C,
}

impl Field {
    pub fn of(self, access: &Access) -> u32 {
        match self {
            Field::S => u32::from(access.s),
            Field::A => access.a,
            Field::B => access.b,
            Field::C => access.c,
        }
    }

    pub fn unused_by(kind: u8) -> Vec<Field> {
        let uses = USES[usize::from(kind)];
        [
            (Field::S, uses.s.is_some()),
            (Field::A, uses.a),
            (Field::B, uses.b),
            (Field::C, uses.c),
        ]
        .into_iter()
        .filter(|(_, used)| !used)
        .map(|(field, _)| field)
        .collect()
    }
}

/// A place in a memory or in the PCI space.
#[derive(Clone, Copy, Debug, PartialEq, Eq, PartialOrd, Ord)]
pub enum Place {
    First,
    Last,
    OnePast,
    Below,
    InAbortRange,
    Misaligned(u32),
}

/// Where a step falls, seen from the settings.
#[derive(Clone, Copy, Debug, PartialEq, Eq, PartialOrd, Ord)]
pub enum StepPlace {
    BeforeLo,
    AtLo,
    BeforeHi,
    AtHi,
    Last,
    AtEnd,
    BelowBase,
}

/// Where an access falls, seen from the running transfer's range in that memory.
#[derive(Clone, Copy, Debug, PartialEq, Eq, PartialOrd, Ord)]
pub enum Near {
    /// On a dword that was moved already.
    Moved,
    /// On a dword that is still to be moved.
    ToMove,
    /// On the dword before the range, or on that after it.
    Before,
    After,
}

/// What a host mailbox read meets.
#[derive(Clone, Copy, Debug, PartialEq, Eq, PartialOrd, Ord)]
pub enum Bay {
    Unwritten,
    Written(u32),
    UnwrittenAfterReset,
}

/// What a claim or a release meets.
#[derive(Clone, Copy, Debug, PartialEq, Eq, PartialOrd, Ord)]
pub enum Flag {
    Granted,
    Denied,
    OwnAgain,
    ReleaseOwn,
    ReleaseClear,
    ReleaseOfOther,
}

/// What happens to a FIFO.
#[derive(Clone, Copy, Debug, PartialEq, Eq, PartialOrd, Ord)]
pub enum Fifo {
    /// A put that is kept, and V: the entries held after it.
    Put(u32),
    Overflow,
    /// A take of an entry, and X: the entries held before it.
    Take(u32),
    TakeEmpty,
    WrongSidedPut,
    WrongSidedTake,
    DrainedFromFull,
    TakeOfEmptyAnswer,
}

/// What was last raised.
#[derive(Clone, Copy, Debug, PartialEq, Eq, PartialOrd, Ord)]
pub enum Event {
    MailboxToHost,
    MailboxToLocal,
    Bit(u32),
}

/// What a reset finds not clear.
#[derive(Clone, Copy, Debug, PartialEq, Eq, PartialOrd, Ord)]
pub enum Cleared {
    Fifo(usize),
    HostFlag,
    LocalFlag,
    Hldata,
    Lhdata,
    HostEnables,
    HostStatus,
    LocalEnables,
    LocalStatus,
    Transfer,
}

/// What a start meets; the bounds are met exactly.
#[derive(Clone, Copy, Debug, PartialEq, Eq, PartialOrd, Ord)]
pub enum Start {
    SizeHighest,
    SharedToEnd,
    PciToEnd,
    SharedPastEnd,
    PciPastEnd,
    SharedMisaligned,
    PciMisaligned,
    WhileRunning,
    OutsideWindow,
}

#[derive(Clone, Copy, Debug, PartialEq, Eq, PartialOrd, Ord)]
pub enum Fact {
    Done {
        kind: u8,
        side: u8,
    },
    Refused {
        kind: u8,
        number: u8,
    },
    /// A side above 1, with a kind that exists.
    SideRefused(u8),
    /// A number was given although the cause of a larger one held too.
    Over {
        given: u8,
        also: u8,
    },
    /// The same, by kind.
    KindOver {
        kind: u8,
        given: u8,
        also: u8,
    },
    /// Refusal 3 for one field alone.
    OnlyUnusedField {
        kind: u8,
        field: Field,
    },
    /// Done with these lanes.
    Lanes {
        kind: u8,
        lanes: u8,
    },
    /// Refusal 4 for this selector.
    Selector {
        kind: u8,
        selector: u8,
    },
    At {
        kind: u8,
        place: Place,
    },
    Fifo {
        fifo: usize,
        what: Fifo,
    },
    Flag {
        side: u8,
        what: Flag,
    },
    Reset(Cleared),
    HostMailboxRead(Bay),
    /// The last mailbox write was by this side.
    LocalMailboxRead {
        after: u8,
    },
    /// With or without bit 24, and bits that are ignored.
    MailboxWrite {
        side: u8,
        raises: bool,
        ignored: bool,
    },
    /// The other side's register was read after a write that set every bit but 24.
    OtherBitsRaiseNothing {
        side: u8,
    },
    /// A register was read after this was raised, and shows it if it was raised there.
    EventRead {
        event: Event,
        side: u8,
    },
    EventCleared {
        event: u32,
        side: u8,
    },
    /// A write with a 1 at position 6 or 7 while it is set.
    FollowingNotCleared {
        side: u8,
        event: u32,
    },
    /// A write of 0, with or without stored status.
    ZeroInterruptWrite {
        side: u8,
        status: bool,
    },
    Line {
        side: u8,
        active: bool,
    },
    /// A line that position 6 or 7 alone makes active.
    LineByFollowing {
        side: u8,
        event: u32,
    },
    Start {
        direction: u8,
        what: Start,
    },
    /// Refusal 7 or 8 for this size.
    SizeRefused(u32),
    Step {
        direction: u8,
        v: u32,
        moved_before: bool,
    },
    StepAt {
        place: StepPlace,
        v: u32,
    },
    /// A step by the side that did not start.
    StepByOtherSide,
    /// A kind of 1 to 4 was done while a transfer ran.
    WhileRunning {
        kind: u8,
        direction: u8,
        near: Near,
    },
    /// A dword was written while its transfer ran, and moved afterwards.
    MovedAsItStoodThen {
        direction: u8,
    },
}
