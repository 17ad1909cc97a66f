//! The card record. Any record can be written down, sound or not.

use std::collections::VecDeque;

use crate::dma::Dma;
use crate::interrupts::{event, Register};
use crate::settings::Settings;
use crate::transfer::Running;

/// FIFOs of a card, and pairs of arbitration flags.
pub const FIFOS: usize = 4;
pub const PAIRS: usize = 4;
/// "Each FIFO holds 32 numbers of 32 bits."
pub const FIFO_DEPTH: usize = 32;
/// Mailbox data is below this.
const MAILBOX_LIMIT: u32 = 65_536;

/// "Side 0 is the host, side 1 the local processor."
#[derive(Clone, Copy, Debug, PartialEq, Eq)]
pub enum Side {
    Host = 0,
    Local = 1,
}

/// A pair of arbitration flags.
#[derive(Clone, Copy, Debug, Default, PartialEq, Eq)]
pub struct Pair {
    pub host: bool,
    pub local: bool,
}

/// HLDATA goes from host to local, LHDATA back.
#[derive(Clone, Copy, Debug, Default, PartialEq, Eq)]
pub struct Mailboxes {
    pub hldata: u32,
    pub lhdata: u32,
    /// LHDATA was written since reset.
    pub written: bool,
}

#[derive(Clone, Debug, PartialEq, Eq)]
pub struct Card {
    pub settings: Settings,
    pub fifos: Vec<VecDeque<u32>>,
    pub pairs: Vec<Pair>,
    pub mailboxes: Mailboxes,
    pub hint: Register,
    pub lint: Register,
    pub running: Option<Running>,
    pub dma: Dma,
}

/// "Failing settings give refusal 1 and the fresh card of all-zero settings."
pub fn fresh(settings: Settings) -> (u8, Card) {
    if settings.pass() {
        (0, Card::cleared(settings))
    } else {
        (1, Card::cleared(Settings::ZERO))
    }
}

impl Card {
    /// "A fresh card has empty FIFOs and all else 0, clear or idle."
    pub fn cleared(settings: Settings) -> Card {
        Card {
            settings,
            fifos: vec![VecDeque::new(); FIFOS],
            pairs: vec![Pair::default(); PAIRS],
            mailboxes: Mailboxes::default(),
            hint: Register::default(),
            lint: Register::default(),
            running: None,
            dma: Dma::default(),
        }
    }

    /// Kind 0: "registers as fresh; settings and memories stay". The values that program a transfer
    /// "survive a finished transfer, but not a reset".
    pub fn reset(&mut self) {
        self.fifos.iter_mut().for_each(VecDeque::clear);
        self.pairs.fill(Pair::default());
        self.mailboxes = Mailboxes::default();
        self.hint = Register::default();
        self.lint = Register::default();
        self.running = None;
        self.dma = Dma::default();
    }

    /// "A card record is sound if ..."; a card has four FIFOs and four pairs. Document 02, L4, asks
    /// nothing of the DMA registers.
    pub fn sound(&self) -> bool {
        self.settings.pass()
            && self.fifos.len() == FIFOS
            && self.fifos.iter().all(|fifo| fifo.len() <= FIFO_DEPTH)
            && self.pairs.len() == PAIRS
            && !self.pairs.iter().any(|pair| pair.host && pair.local)
            && self.mailboxes.hldata < MAILBOX_LIMIT
            && self.mailboxes.lhdata < MAILBOX_LIMIT
            && self.hint.sound(event::OF_HOST)
            && self.lint.sound(event::OF_LOCAL)
            && self.running.is_none_or(|running| running.sound())
    }

    /// "Bits 6 and 7 follow FIFOs 1 and 3", in both registers.
    pub fn following(&self) -> u32 {
        let mut bits = 0;
        if !self.fifos[1].is_empty() {
            bits |= event::INBOUND_POST_NOT_EMPTY;
        }
        if !self.fifos[3].is_empty() {
            bits |= event::OUTBOUND_POST_NOT_EMPTY;
        }
        bits
    }

    pub fn register(&self, side: Side) -> &Register {
        match side {
            Side::Host => &self.hint,
            Side::Local => &self.lint,
        }
    }

    /// Enables and status of HINT, then of LINT.
    pub fn register_numbers(&self) -> [u32; 4] {
        let (hint, lint) = (&self.hint, &self.lint);
        [hint.enables, hint.status, lint.enables, lint.status]
    }

    /// "Events 0, 1, 5, 8, 9 are raised in both registers."
    pub fn raise_in_both(&mut self, events: u32) {
        self.hint.status |= events;
        self.lint.status |= events;
    }
}
