//! Bursts, among accesses to the same bytes and beside transfers.

use crate::access::kind;
use crate::bursts::LAST_DWORD;
use crate::registers::map::offset;

use super::super::super::sides::{HOST, LOCAL};
use super::super::builder::CallBuilder;

/// Numbers behind the last dword; 4 times the second is 0 in 32 bits.
const BEHIND: [u32; 3] = [LAST_DWORD + 1, 1 << 30, u32::MAX];

impl CallBuilder<'_> {
    /// A plain shared read of these dwords, by the local side.
    fn read_dwords(&mut self, dwords: impl IntoIterator<Item = u32>) {
        for dword in dwords {
            self.direct(kind::SHARED_READ, LOCAL, 0, 4 * dword, 0, 0);
        }
    }
}

/// Writes and reads that begin in the middle of a dword, with lanes that are left out and phases
/// without lanes. Not every bit of the data is carried by a lane, and none in a read.
pub fn each_mode(b: &mut CallBuilder) {
    let mode_0 = [0b0111, 0b1001, 0b1110, 0b0001, 0b1111];
    let mode_1 = [0b1010, 0b0001, 0b0011, 0b1100, 0b1001];
    let mode_3 = [0b0101, 0b1111, 0b0000, 0b1110, 0b0110];
    let with_data = |pins: &[u32], step: u32| -> Vec<(u32, u32)> {
        let data = |place: u32| 0xA1B2_C3D4_u32.wrapping_add(step.wrapping_mul(place));
        pins.iter().copied().zip((0..).map(data)).collect()
    };
    let mode_0 = with_data(&mode_0, 0x0101_0111);
    let mode_1 = with_data(&mode_1, 0x1001_0801);
    let mode_3 = with_data(&mode_3, 0x0810_2041);
    b.burst_write(LOCAL, 0, 0, &mode_0);
    b.read_dwords(0..3);
    b.burst_write(LOCAL, 1, 1, &mode_1);
    b.read_dwords(1..3);
    b.burst_write(LOCAL, 3, LAST_DWORD - 4, &mode_3);
    b.burst_read(LOCAL, 0, 0, &mode_0, &[7, 8, 9, 10, 11, 12]);
    b.burst_read(LOCAL, 1, 1, &mode_1, &[0; 5]);
    b.burst_read(LOCAL, 3, LAST_DWORD - 4, &mode_3, &[u32::MAX; 6]);
    b.read_pins(LOCAL, 0, 0, &[], &[5]);
    b.read_pins(LOCAL, 1, LAST_DWORD, &[], &[]);
    b.read_pins(LOCAL, 3, LAST_DWORD + 1, &[], &[6, 7]);
}

/// "A phase past the last dword stops the burst; the phases before it stand." Phases without lanes
/// count like the others, and an advance behind the last phase is no overrun.
pub fn overruns(b: &mut CallBuilder) {
    let last = LAST_DWORD;
    b.burst_write(LOCAL, 0, last, &[(0b0100, 0x1A), (0b1100, 0x2B), (0, 0x3C)]);
    let pins = [0b1100, 0b1000, 0b1111, 0b0000, 0b0100];
    b.read_pins(LOCAL, 0, last - 1, &pins, &[1, 2, 3, 4, 5, 6]);
    let phases = [(0b0000, 0x5D4C), (0b1011, 0x6E6E), (0b0011, 0x7F7F)];
    b.burst_write(LOCAL, 1, last, &phases);
    b.read_pins(LOCAL, 1, last, &[0b1000, 0b0000], &[8, 9]);
    let phases = [(0b0011, 1 << 31), (0b1111, 2), (0b0000, 3), (0b0000, 4)];
    b.burst_write(LOCAL, 3, last - 2, &phases);
    b.read_pins(LOCAL, 3, last - 1, &[0b0000, 0b1111, 0b1111], &[0; 3]);
    for (mode, start) in [0, 1, 3].into_iter().zip(BEHIND) {
        b.burst_write(LOCAL, mode, start, &[(0b0000, 0x55)]);
        b.read_pins(LOCAL, mode, start, &[0b0000, 0b1100], &[0x66; 2]);
        b.burst_write(LOCAL, mode, start, &[]);
    }
    b.burst_write(LOCAL, 3, last, &[(0b1101, 0x0000_9900)]);
    b.read_pins(LOCAL, 0, last, &[0b1100], &[77]);
    b.read_dwords([last - 1, last]);
}

/// Each refusal alone, and every two that can hold at once; then that nothing changed.
pub fn refused(b: &mut CallBuilder) {
    let (phase, wrong) = ((0b0000, 0xDEAD), (0b1_0000, 0xDEAD));
    let behind = LAST_DWORD + 1;
    for (side, mode, start, phases) in [
        // alone
        (2, 0, 0, [phase, phase]),
        (HOST, 3, 0, [phase, phase]),
        (LOCAL, 2, 0, [phase, phase]),
        (LOCAL, 1, 0, [phase, wrong]),
        // behind 2: 12, 4, 13
        (255, 2, 0, [phase, phase]),
        (2, 3, 0, [phase, wrong]),
        (2, 3, behind, [phase, phase]),
        // behind 5: 12, 4, 13
        (HOST, 4, 0, [phase, phase]),
        (HOST, 0, 0, [wrong, phase]),
        (HOST, 0, behind, [phase, phase]),
        // behind 12: 4, 13
        (LOCAL, 255, 0, [phase, wrong]),
        (LOCAL, 2, behind, [phase, phase]),
        // behind 4: 13, also where the overrun comes first
        (LOCAL, 0, behind, [(u32::MAX, 0), phase]),
        (LOCAL, 3, LAST_DWORD, [phase, wrong]),
    ] {
        b.burst_write(side, mode, start, &phases);
    }
    // before 14, then 14 alone, and before 13, which is not the smaller one
    for (side, mode, start, pins) in [
        (2, 0, 0, [0b0000, 0b0000]),
        (HOST, 1, 0, [0b0000, 0b0000]),
        (LOCAL, 4, 0, [0b0000, 0b0000]),
        (LOCAL, 3, 0, [0b0000, 0b1_0000]),
        (LOCAL, 0, 0, [0b0000, 0b0000]),
        (LOCAL, 3, LAST_DWORD, [0b0000, 0b0000]),
    ] {
        b.read_pins(side, mode, start, &pins, &[3]);
    }
    b.read_dwords([0, LAST_DWORD]);
}

/// Bursts where all is refused with 1: by itself, and with each cause behind it.
pub fn with_1(b: &mut CallBuilder) {
    in_short_memory(b);
    b.burst_write(2, 3, 0, &[(0b0000, 0xDEAD)]);
    b.read_pins(HOST, 3, 0, &[0b0000], &[5]);
    b.burst_write(LOCAL, 2, 0, &[(0b0000, 0xDEAD)]);
    b.read_pins(LOCAL, 0, 0, &[0b1_0000], &[5]);
    b.read_pins(LOCAL, 1, 0, &[0b0000, 0b0000], &[5]);
}

/// The last dword is missing, and the one behind it; or no dword is asked for.
pub fn in_short_memory(b: &mut CallBuilder) {
    b.burst_write(LOCAL, 3, LAST_DWORD - 1, &[(0b0000, 0xDEAD); 3]);
    b.read_pins(LOCAL, 3, LAST_DWORD, &[0b0000], &[5]);
    b.burst_write(LOCAL, 0, 0, &[]);
}

/// The steps of a transfer among bursts that touch its source, then those of one among bursts that
/// touch its destination, one of them stopped.
pub fn beside_a_transfer(b: &mut CallBuilder) {
    let base = b.settings().base;
    b.program(HOST, 4, base, 12);
    b.write(HOST, offset::DMACTL, 1);
    let phases = [(0b1000, 0x31), (0b1100, 0x41), (0b0000, 0x52)];
    b.burst_write(LOCAL, 0, 1, &phases);
    b.plain(kind::STEP, HOST);
    b.burst_write(LOCAL, 1, 1, &[(0b1000, 0xB1A1), (0b0010, 0xD1C1)]);
    b.read_pins(LOCAL, 3, 1, &[0b0000, 0b0000], &[0; 3]);
    b.plain(kind::STEP, LOCAL);
    b.burst_write(LOCAL, 3, 2, &[(0b0000, 0x0403_0201), (0b0000, 0x0807_0605)]);
    b.plain(kind::STEP, HOST);
    for window_offset in [0, 4, 8] {
        let pci = base + window_offset;
        b.direct(kind::WINDOW_READ, HOST, 0, pci, 0, 0);
    }
    // back, to the last two dwords
    let shared = 4 * (LAST_DWORD - 1);
    b.direct(kind::START, LOCAL, 0, shared, base + 4, 8);
    b.plain(kind::STEP, LOCAL);
    let phases = [(0b1100, 0xAAAA_AAAA), (0b0000, 0xBBBB_BBBB), (0b0000, 1)];
    b.burst_write(LOCAL, 3, LAST_DWORD - 1, &phases);
    b.read_pins(LOCAL, 0, LAST_DWORD - 1, &[0b1000, 0b1100, 0b0100], &[9; 4]);
    b.plain(kind::STEP, HOST);
    let pins = [0b0000, 0b1000, 0b0001, 0b1010, 0b0000];
    b.read_pins(LOCAL, 1, LAST_DWORD - 1, &pins, &[9; 5]);
    b.read(LOCAL, offset::SHARED + shared);
    b.read(HOST, offset::LINT);
}

/// The lesson about narrow buses: one dword in four phases, in two and in one, each time behind the
/// upper half of the dword before; the trap of address 0; phases without lanes; the overrun.
pub fn narrow(b: &mut CallBuilder) {
    let phases = [
        (0b1000, 0x33),
        (0b1100, 0x44),
        (0b0000, 0x11),
        (0b0100, 0x22),
        (0b1000, 0x33),
        (0b1100, 0x44),
    ];
    b.burst_write(LOCAL, 0, 0, &phases);
    b.read_dwords([0, 1]);
    let phases = [(0b1000, 0x4433), (0b0000, 0x2211), (0b1000, 0x4433)];
    b.burst_write(LOCAL, 1, 2, &phases);
    b.read_dwords([2, 3]);
    let phases = [(0b0011, 0x4433_0000), (0b0000, 0x4433_2211)];
    b.burst_write(LOCAL, 3, 4, &phases);
    b.read_dwords([4, 5]);
    // a phase's V has its lanes in their places
    b.read_pins(LOCAL, 0, 1, &[0b0000, 0b0100, 0b1000, 0b1100], &[0; 4]);
    b.read_pins(LOCAL, 3, 1, &[0b0000], &[0]);
    // BE[3:2] at 00 is lane 0, and not "no lane"
    b.burst_write(LOCAL, 0, 1, &[(0b0000, 0)]);
    b.read_dwords([1]);
    // no lanes, and still a phase that advances
    b.burst_write(LOCAL, 3, 6, &[(0b1111, 0x55), (0b0000, 0x66)]);
    b.read_dwords([6, 7]);
    b.burst_write(LOCAL, 3, LAST_DWORD, &[(0b0000, 0x77), (0b0000, 0x88)]);
    b.read_dwords([LAST_DWORD]);
}
