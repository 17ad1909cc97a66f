//! What each test program reads, and what it must write.

mod bays;
mod bench;
mod bursts;
mod case;
mod convert;
mod device;
mod pins;
mod replay;
mod rescue;
mod sections;
mod trace;
mod why;

use crate::stored::Stored;

pub use replay::{lessons, long_list, long_trace, FEWEST_RECORDS};

/// A program by the name of its crate. One that reads nothing has no `stdin`.
struct Program {
    name: &'static str,
    stdin: Vec<u8>,
    stdout: Vec<u8>,
}

/// Changes bytes of a trace record: of each its place, and the bits that change.
fn change_bits(record: &mut [u8], changes: &[(usize, u8)]) {
    for (at, bits) in changes {
        record[*at] ^= bits;
    }
}

pub fn files() -> Vec<Stored> {
    let programs = [
        pins::program(),
        bays::program(),
        trace::program(),
        device::program(),
        bursts::program(),
        bench::program(),
    ];
    programs
        .into_iter()
        .chain(replay::programs())
        .chain(convert::programs())
        .chain(rescue::programs())
        .chain(why::programs())
        .flat_map(|program| {
            let path = |file| format!("{}/{file}", program.name);
            [
                Stored::new(path("stdin"), program.stdin),
                Stored::new(path("stdout"), program.stdout),
            ]
        })
        .filter(|file| !file.bytes.is_empty())
        .chain([why::args()])
        .chain(lessons::files())
        .collect()
}
