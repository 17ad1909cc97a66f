//! FIFOs, flags, mailboxes and interrupt registers.

use crate::access::kind;
use crate::card::FIFO_DEPTH;
use crate::interrupts::event;

use super::super::builder::Builder;
use super::super::sides::{by_both, putter, taker, HOST, LOCAL};

/// Fills a FIFO, overflows it and drains it.
fn overflow(b: &mut Builder, fifo: u8) {
    let (putter, taker) = (putter(fifo), taker(fifo));
    b.select(kind::TAKE, taker, fifo);
    b.value(kind::INTERRUPT_WRITE, taker, 0x00C3_0000);
    fill(b, fifo);
    b.plain(kind::LINE, taker);
    b.put(putter, fifo, 4321);
    b.read_registers();
    b.put(putter, fifo, 4322);
    b.select(kind::TAKE, putter, fifo);
    b.put(taker, fifo, 1);
    b.value(kind::INTERRUPT_WRITE, taker, 0x00C0_00C3);
    b.read_lines();
    drain(b, fifo);
}

/// Puts until the FIFO is full; the first entries are 4,294,967,295 and 0.
fn fill(b: &mut Builder, fifo: u8) {
    let putter = putter(fifo);
    b.put(putter, fifo, u32::MAX);
    b.read_registers();
    b.put(putter, fifo, 0);
    while b.world.card.fifos[usize::from(fifo)].len() < FIFO_DEPTH {
        let entry = b.rng.word();
        b.put(putter, fifo, entry);
    }
}

/// Takes until the FIFO is empty, and once more.
fn drain(b: &mut Builder, fifo: u8) {
    let taker = taker(fifo);
    while !b.world.card.fifos[usize::from(fifo)].is_empty() {
        b.select(kind::TAKE, taker, fifo);
    }
    b.read_registers();
    b.select(kind::TAKE, taker, fifo);
}

pub fn inbound_free(b: &mut Builder) {
    overflow(b, 0);
}

pub fn inbound_post(b: &mut Builder) {
    overflow(b, 1);
    b.read_lines();
}

pub fn outbound_free(b: &mut Builder) {
    overflow(b, 2);
}

pub fn outbound_post(b: &mut Builder) {
    overflow(b, 3);
    b.read_lines();
}

/// A card as it is found: FIFO 2 nearly full, and a transfer half done.
pub fn found(b: &mut Builder) {
    b.read_registers();
    b.read_lines();
    b.step_to_end();
    for entry in 900..904 {
        b.put(HOST, 2, entry);
    }
    b.read_registers();
    b.select(kind::TAKE, HOST, 2);
    b.put(LOCAL, 2, 1);
    drain(b, 2);
    b.read_mailboxes();
    for pair in [1, 2] {
        b.perform(by_both(kind::CLAIM, pair));
    }
}

pub fn flags(b: &mut Builder) {
    for (first, second) in [(HOST, LOCAL), (LOCAL, HOST)] {
        let pair = 2 * first;
        b.select(kind::RELEASE, first, pair);
        b.select(kind::CLAIM, first, pair);
        b.select(kind::CLAIM, first, pair);
        b.select(kind::CLAIM, second, pair);
        b.select(kind::RELEASE, second, pair);
        b.select(kind::CLAIM, second, pair);
        b.select(kind::RELEASE, first, pair);
        b.select(kind::CLAIM, second, pair);
        b.select(kind::CLAIM, first, pair + 1);
        b.select(kind::CLAIM, second, pair + 1);
    }
    b.plain(kind::RESET, HOST);
    b.select(kind::CLAIM, LOCAL, 0);
    b.select(kind::CLAIM, HOST, 2);
}

pub fn mailboxes(b: &mut Builder) {
    b.read_mailboxes();
    b.value(kind::MAILBOX_WRITE, HOST, 0xFEFF_0017);
    b.plain(kind::INTERRUPT_READ, LOCAL);
    b.read_mailboxes();
    b.value(kind::MAILBOX_WRITE, LOCAL, 0xFEFF_0017);
    b.plain(kind::INTERRUPT_READ, HOST);
    b.plain(kind::MAILBOX_READ, HOST);
    for value in [0, 1, 22, 24, 255, 0x0117, 0x0118, 0x0100_FF00] {
        b.value(kind::MAILBOX_WRITE, LOCAL, value);
        b.plain(kind::MAILBOX_READ, HOST);
    }
    b.plain(kind::MAILBOX_READ, LOCAL);
    b.read_registers();
    b.value(kind::MAILBOX_WRITE, HOST, 0xFFFF_FFFF);
    b.read_registers();
    b.value(kind::MAILBOX_WRITE, LOCAL, 0xFFFF_0016);
    b.value(kind::MAILBOX_WRITE, HOST, 0x0000_1234);
    b.value(kind::MAILBOX_WRITE, HOST, 0x0100_4321);
    b.plain(kind::MAILBOX_READ, LOCAL);
    b.plain(kind::RESET, LOCAL);
    b.read_mailboxes();
    b.value(kind::MAILBOX_WRITE, LOCAL, 0);
    b.plain(kind::MAILBOX_READ, HOST);
}

/// Raises every event but the overflows, and clears it on either side.
pub fn interrupts(b: &mut Builder) {
    let base = b.settings().base;
    b.write_registers(0, 0);
    b.plain(kind::EXTERNAL_PIN, LOCAL);
    b.read_registers();
    b.write_registers(u32::MAX, u32::MAX);
    b.read_registers();
    b.put(HOST, 1, 7);
    b.read_registers();
    b.read_lines();
    b.write_registers(0x0040_00C0, 0x0080_00C0);
    b.read_lines();
    b.select(kind::TAKE, LOCAL, 1);
    b.put(LOCAL, 3, 8);
    b.read_registers();
    b.read_lines();
    b.write_registers(0x0080_0080, 0x0080_0080);
    b.plain(kind::LINE, HOST);
    b.select(kind::TAKE, HOST, 3);
    b.start(LOCAL, 1, 0, base, 4);
    b.plain(kind::STEP, HOST);
    b.read_registers();
    b.write_registers(0, 0);
    b.value(kind::INTERRUPT_WRITE, HOST, 0x0020_0020);
    b.plain(kind::INTERRUPT_READ, HOST);
    b.read_lines();
    b.value(kind::INTERRUPT_WRITE, LOCAL, 0x0020_0000);
    b.read_lines();
}

/// Every stored event at once, then cleared one by one; then a reset of the full card.
pub fn clearing(b: &mut Builder) {
    b.read_lines();
    for fifo in 0..4 {
        b.put(putter(fifo), fifo, 1);
    }
    b.value(kind::MAILBOX_WRITE, HOST, 0x0100_1234);
    b.value(kind::MAILBOX_WRITE, LOCAL, 0x0100_4305);
    b.plain(kind::EXTERNAL_PIN, LOCAL);
    b.read_registers();
    for bit in [
        event::LOCAL_FIFO_OVERFLOW,
        event::PCI_FIFO_OVERFLOW,
        1 << 2,
        event::MAILBOX,
        event::EXTERNAL_SIGNAL,
        event::DMA_COMPLETE,
        event::FOLLOWING,
        event::TARGET_ABORT,
        event::MASTER_ABORT,
    ] {
        b.write_registers(0x0200_0000 | bit, 0x0100_0000 | bit);
        b.read_registers();
    }
    b.read_lines();
    b.select(kind::CLAIM, HOST, 0);
    b.select(kind::CLAIM, LOCAL, 3);
    b.plain(kind::EXTERNAL_PIN, LOCAL);
    b.put(HOST, 2, 5);
    b.plain(kind::RESET, HOST);
    b.read_registers();
    for fifo in 0..4 {
        b.select(kind::TAKE, taker(fifo), fifo);
    }
    b.select(kind::CLAIM, LOCAL, 0);
    b.select(kind::CLAIM, HOST, 3);
}
