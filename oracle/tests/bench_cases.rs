//! The fourteen P cases of document 01, with what puts and takes answer by document 02, L2; and its
//! whole case.

use oracle::access::{kind, Access, Answer};
use oracle::card::fresh;
use oracle::pins::{decode, Decoded};
use oracle::replay::{self, WHOLE_CASE};
use oracle::settings::Settings;
use oracle::world::World;

const HOST: u8 = 0;
const LOCAL: u8 = 1;
const BASE: u32 = 268_435_456;

/// "Each starts from a fresh card, with the replay settings and zeroed memories."
struct Bench(World);

impl Bench {
    fn new() -> Bench {
        assert_eq!(fresh(Settings::REPLAY).0, 0);
        Bench(replay::bench())
    }

    fn access(&mut self, kind: u8, side: u8, s: u8, a: u32, b: u32, c: u32) -> Answer {
        self.0.access(Access::new(kind, side, s, a, b, c))
    }

    /// A kind that uses no field.
    fn plain(&mut self, kind: u8, side: u8) -> Answer {
        self.access(kind, side, 0, 0, 0, 0)
    }

    /// A kind that uses B alone.
    fn value(&mut self, kind: u8, side: u8, b: u32) {
        assert_eq!(self.access(kind, side, 0, 0, b, 0), Answer::done(0, 0));
    }

    fn hint(&mut self) -> u32 {
        self.plain(kind::INTERRUPT_READ, HOST).v
    }

    fn lint(&mut self) -> u32 {
        self.plain(kind::INTERRUPT_READ, LOCAL).v
    }
}

#[test]
fn p1_host_mailbox_read() {
    let read = Bench::new().plain(kind::MAILBOX_READ, HOST);
    assert_eq!(read, Answer::done(0, 0));
}

fn after_p2() -> Bench {
    let mut bench = Bench::new();
    bench.value(kind::MAILBOX_WRITE, LOCAL, 0x0100_0000);
    assert_eq!(bench.plain(kind::MAILBOX_READ, HOST), Answer::done(0, 1));
    assert_eq!(bench.hint(), 8);
    assert_eq!(bench.plain(kind::LINE, HOST), Answer::done(0, 0));
    bench
}

#[test]
fn p2_local_mailbox_write() {
    after_p2();
}

#[test]
fn p3_event_cleared_and_enabled() {
    let mut bench = after_p2();
    bench.value(kind::INTERRUPT_WRITE, HOST, 0x0008_0008);
    assert_eq!(bench.hint(), 0x0008_0000);
}

#[test]
fn p4_reserved_positions_stay_0() {
    let mut bench = Bench::new();
    bench.value(kind::INTERRUPT_WRITE, HOST, 0xFFFF_FFFF);
    bench.value(kind::INTERRUPT_WRITE, LOCAL, 0xFFFF_FFFF);
    assert_eq!(bench.hint(), 0x03FB_0000);
    assert_eq!(bench.lint(), 0x03EB_0000);
}

#[test]
fn p5_bit_6_follows_fifo_1() {
    let mut bench = Bench::new();
    let put = bench.access(kind::PUT, HOST, 1, 0, 0, 0);
    assert_eq!(put, Answer::done(1, 1));
    assert_eq!(bench.lint(), 64);
    bench.value(kind::INTERRUPT_WRITE, LOCAL, 64);
    assert_eq!(bench.lint(), 64);
    let take = bench.access(kind::TAKE, LOCAL, 1, 0, 0, 0);
    assert_eq!(take, Answer::done(0, 1));
    assert_eq!(bench.lint(), 0);
}

#[test]
fn p6_take_from_empty() {
    let take = Bench::new().access(kind::TAKE, HOST, 0, 0, 0, 0);
    assert_eq!(take, Answer::done(4_294_967_295, 0));
}

#[test]
fn p7_overflow() {
    let mut bench = Bench::new();
    for entry in 0..32 {
        let put = bench.access(kind::PUT, HOST, 1, 0, entry, 0);
        assert_eq!(put, Answer::done(entry + 1, 1));
    }
    let lost = bench.access(kind::PUT, HOST, 1, 0, 32, 0);
    assert_eq!(lost, Answer::done(32, 0));
    assert_eq!(bench.lint(), 66);
}

#[test]
fn p8_claims() {
    let mut bench = Bench::new();
    let mut on_pair_0 = |kind, side| bench.access(kind, side, 0, 0, 0, 0).v;
    assert_eq!(on_pair_0(kind::CLAIM, HOST), 1);
    assert_eq!(on_pair_0(kind::CLAIM, LOCAL), 0);
    assert_eq!(on_pair_0(kind::RELEASE, HOST), 0);
    assert_eq!(on_pair_0(kind::CLAIM, LOCAL), 1);
}

#[test]
fn p9_pins() {
    let expected = Decoded {
        number: 0,
        lanes: 0b0011,
        dword: 0xABCD_0000,
    };
    assert_eq!(decode(2, 0b0000, 0xABCD), expected);
}

#[test]
fn p10_one_lane() {
    let mut bench = Bench::new();
    bench.access(kind::SHARED_WRITE, LOCAL, 14, 0, 0x1122_3344, 0);
    let read = bench.access(kind::SHARED_READ, HOST, 0, 0, 0, 0);
    assert_eq!(read, Answer::done(68, 0));
}

#[test]
fn p11_start_checks() {
    for direction in [0, 1] {
        let start =
            |shared, size| Bench::new().access(kind::START, HOST, direction, shared, BASE, size);
        assert_eq!(start(0, 0), Answer::refused(7));
        assert_eq!(start(0, 3), Answer::refused(8));
        assert_eq!(start(0, 16_388), Answer::refused(8));
        assert_eq!(start(0, 16_384), Answer::done(4096, 0));
        assert_eq!(start(4, 16_384), Answer::refused(9));
    }
}

#[test]
fn p12_into_the_abort_range() {
    let mut bench = Bench::new();
    let start = bench.access(kind::START, HOST, 0, 0, 0x1000_6FFC, 8);
    assert_eq!(start, Answer::done(2, 0));
    assert_eq!(bench.plain(kind::STEP, HOST), Answer::done(1, 1));
    assert_eq!(bench.plain(kind::STEP, HOST), Answer::done(3, 1));
}

#[test]
fn p13_below_the_window() {
    let mut bench = Bench::new();
    bench.access(kind::START, HOST, 0, 0, 0x0FFF_FFFC, 8);
    assert_eq!(bench.plain(kind::STEP, HOST), Answer::done(4, 0));
}

#[test]
fn p14_bay_labels() {
    let mut bench = Bench::new();
    bench.value(kind::MAILBOX_WRITE, LOCAL, 23);
    assert_eq!(bench.plain(kind::MAILBOX_READ, HOST), Answer::done(23, 24));
    bench.value(kind::MAILBOX_WRITE, LOCAL, 24);
    assert_eq!(bench.plain(kind::MAILBOX_READ, HOST), Answer::done(24, 0));
}

#[test]
fn whole_case() {
    let mut bench = Bench::new();
    let answers = WHOLE_CASE.map(|access| bench.0.access(access));
    let expected = [Answer::done(0, 0), Answer::done(0, 1), Answer::refused(10)];
    assert_eq!(answers, expected);
}
