//! What the cases of the device and of the bursts share: a card between two memories, and what calls
//! leave of it.

use crate::access::Access;
use crate::card::{fresh, Card, FIFO_DEPTH};
use crate::decimal::line;
use crate::drive::plans::First;
use crate::rng::Rng;
use crate::settings::Settings;
use crate::transfer::Running;
use crate::world::World;

use super::Program;

/// The first number of a case's head.
const CARD_RECORD: u32 = 0;
const FRESH_CARD: u32 = 1;

/// What a digest is multiplied by.
const DIGEST: u32 = 16_777_619;

/// What stands in standard input, and what must stand in standard output.
pub struct Case {
    pub numbers: Vec<u32>,
    pub text: String,
}

impl Case {
    /// The head of so many calls to a card, and its record or the number that its settings give.
    pub fn of_card(first: &First, memories: &Memories, calls: usize) -> Case {
        let head = |what| head(what, &first.settings(), memories, calls);
        match first {
            First::Record(card) => Case {
                numbers: [head(CARD_RECORD), record(card)].concat(),
                text: String::new(),
            },
            First::Fresh(settings) => Case {
                numbers: head(FRESH_CARD),
                text: line([fresh(*settings).0.into()]),
            },
        }
    }
}

/// The program that reads these cases one behind the other.
pub fn program(name: &'static str, cases: Vec<Case>) -> Program {
    let mut stdin = Vec::new();
    let mut stdout = String::new();
    for Case { numbers, text } in cases {
        stdin.extend(numbers.into_iter().flat_map(u32::to_le_bytes));
        stdout += &text;
    }
    Program {
        name,
        stdin,
        stdout: stdout.into_bytes(),
    }
}

/// The lengths of both memories, and the seed of their bytes.
pub struct Memories {
    shared_length: u32,
    window_length: u32,
    seed: u32,
}

impl Memories {
    /// The memories with this number. Each number stands for two seeds, one for each memory.
    pub fn new(number: u32, shared_length: u32, window_length: u32) -> Memories {
        Memories {
            shared_length,
            window_length,
            seed: 2 * number,
        }
    }

    pub fn shared(&self) -> Vec<u8> {
        bytes(self.seed, self.shared_length)
    }

    pub fn window(&self) -> Vec<u8> {
        bytes(self.seed + 1, self.window_length)
    }

    /// What draws for the case of these memories.
    pub fn rng(&self) -> Rng {
        Rng::new(self.seed.into())
    }

    pub fn world(&self, first: &First) -> World {
        first.world(self.shared(), self.window())
    }
}

fn bytes(seed: u32, length: u32) -> Vec<u8> {
    let mut x = u64::from(seed);
    let mut next = || {
        x = (x * 1_103_515_245 + 12_345) % (1 << 31);
        (x >> 16) as u8
    };
    (0..length).map(|_| next()).collect()
}

/// From 0, each byte takes it on.
pub fn digest(bytes: &[u8]) -> u32 {
    digest_of(bytes.iter().map(|byte| u32::from(*byte)))
}

pub fn digest_of(numbers: impl IntoIterator<Item = u32>) -> u32 {
    numbers.into_iter().fold(0, |digest: u32, number| {
        digest.wrapping_mul(DIGEST).wrapping_add(number)
    })
}

pub fn head(what: u32, settings: &Settings, memories: &Memories, count: usize) -> Vec<u32> {
    let lengths = [memories.shared_length, memories.window_length];
    let mut head = vec![what];
    head.extend(settings.numbers());
    head.extend(lengths);
    head.extend([memories.seed, count as u32]);
    head
}

fn record(card: &Card) -> Vec<u32> {
    let mut numbers = Vec::new();
    for fifo in &card.fifos {
        numbers.push(fifo.len() as u32);
        numbers.extend((0..FIFO_DEPTH).map(|at| fifo.get(at).copied().unwrap_or(0)));
    }
    let pairs = card.pairs.iter();
    numbers.extend(pairs.map(|pair| u32::from(pair.host) + 2 * u32::from(pair.local)));
    numbers.extend(mailboxes(card));
    numbers.extend(card.register_numbers());
    let mut transfer = running(card);
    transfer.resize(6, 0);
    numbers.extend(transfer);
    let [shared, pci, size, host, local, inhibit, outward] = dma(card);
    numbers.extend([shared, pci, size, host + 2 * local, inhibit, outward]);
    numbers
}

fn mailboxes(card: &Card) -> [u32; 3] {
    let mail = &card.mailboxes;
    [mail.hldata, mail.lhdata, mail.written.into()]
}

/// 0, or 1 and the numbers of the transfer that runs.
fn running(card: &Card) -> Vec<u32> {
    let Some(Running { transfer, moved }) = card.running else {
        return vec![0];
    };
    let [direction, shared, pci, size] = transfer.numbers();
    vec![1, direction, shared, pci, size, moved]
}

/// The DMA registers as they are stored, with a number for each flag.
fn dma(card: &Card) -> [u32; 7] {
    let dma = &card.dma;
    let flags = [dma.owner.host, dma.owner.local, dma.inhibit, dma.outward];
    let [host, local, inhibit, outward] = flags.map(u32::from);
    [dma.shared, dma.pci, dma.size, host, local, inhibit, outward]
}

/// The numbers of a direct access.
pub fn direct(access: &Access) -> [u32; 4] {
    let [kind, side, s, a, b, c] = access.numbers();
    [kind | side << 8 | s << 16, a, b, c]
}

/// The record and the digests.
pub fn world_text(world: &World) -> String {
    let card = &world.card;
    let mut text = line(card.settings.numbers());
    for fifo in &card.fifos {
        let held = fifo.iter().take(FIFO_DEPTH).copied();
        text += &line([fifo.len() as u32].into_iter().chain(held));
    }
    let flags = card.pairs.iter().flat_map(|pair| [pair.host, pair.local]);
    text += &line(flags.map(u32::from));
    text += &line(mailboxes(card));
    text += &line(card.register_numbers());
    text += &line(running(card));
    text += &line(dma(card));
    text + &line([digest(&world.shared), digest(&world.window)])
}
