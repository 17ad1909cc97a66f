//! The bays of document 02, L5, against its grid spelled out.

use oracle::access::{kind, Access, Answer};
use oracle::bays::{index, label};
use oracle::registers::map::offset;
use oracle::registers::RegisterAccess;
use oracle::replay::bench;
use oracle::world::World;

const HOST: u8 = 0;
const LOCAL: u8 = 1;

/// "The labels run along the rows".
const LABELS: [[u8; 6]; 4] = [
    [1, 2, 3, 4, 5, 6],
    [7, 8, 9, 10, 11, 12],
    [13, 14, 15, 16, 17, 18],
    [19, 20, 21, 22, 23, 24],
];

/// "The 24-bay backplane wires its index down the columns".
const INDEXES: [[u8; 6]; 4] = [
    [0, 4, 8, 12, 16, 20],
    [1, 5, 9, 13, 17, 21],
    [2, 6, 10, 14, 18, 22],
    [3, 7, 11, 15, 19, 23],
];

/// Index and label of each bay, row by row.
fn bays() -> impl Iterator<Item = (u8, u8)> {
    INDEXES
        .into_iter()
        .flatten()
        .zip(LABELS.into_iter().flatten())
}

/// The label of the grid's bay with this index.
fn label_in_grid(index: u8) -> Option<u8> {
    bays().find(|bay| bay.0 == index).map(|bay| bay.1)
}

/// The index of the grid's bay with this label.
fn index_in_grid(label: u8) -> Option<u8> {
    bays().find(|bay| bay.1 == label).map(|bay| bay.0)
}

#[test]
fn every_number_is_as_in_the_grid() {
    for number in 0..=255 {
        assert_eq!(label(number), label_in_grid(number), "{number}");
        assert_eq!(index(number), index_in_grid(number), "{number}");
    }
}

/// "Index 0 is still label 1 and index 23 still label 24, which is why nobody saw it; index 1 is
/// label 7."
#[test]
fn the_bays_that_are_named() {
    assert_eq!([0, 1, 23].map(label), [1, 7, 24].map(Some));
    assert_eq!([1, 7, 24].map(index), [0, 1, 23].map(Some));
}

#[test]
fn there_and_back() {
    for number in 0..=23 {
        assert_eq!(label(number).and_then(index), Some(number));
    }
    for number in 1..=24 {
        assert_eq!(index(number).and_then(label), Some(number));
    }
}

/// "each of the 24 labels belongs to exactly one index"
#[test]
fn each_label_once() {
    let mut labels: Vec<u8> = (0..=255).filter_map(label).collect();
    labels.sort();
    assert!(labels.into_iter().eq(1..=24));
    let mut indexes: Vec<u8> = (0..=255).filter_map(index).collect();
    indexes.sort();
    assert!(indexes.into_iter().eq(0..=23));
}

/// "a label outside 1 to 24 gives none", and an index above 23 names no bay.
#[test]
fn none_outside() {
    assert!([0]
        .into_iter()
        .chain(25..=255)
        .all(|number| index(number).is_none()));
    assert!((24..=255).all(|number| label(number).is_none()));
}

/// What the host is answered to both reads of its mailbox: kind 10 and LHDATA.
fn host_reads(world: &mut World) -> [Answer; 2] {
    [
        world.access(Access::new(kind::MAILBOX_READ, HOST, 0, 0, 0, 0)),
        world.register_access(RegisterAccess::read(HOST, offset::LHDATA)),
    ]
}

/// X of a host mailbox read, for every byte 0 with several bytes 1: the label of the grid, and 0
/// before the mailbox is written.
#[test]
fn a_host_mailbox_read_gives_the_label() {
    for byte_0 in 0..=255 {
        let x = label_in_grid(byte_0).unwrap_or(0).into();
        for byte_1 in [0, 1, 0x17, 0xFF] {
            let data = byte_1 << 8 | u32::from(byte_0);
            let mut world = bench();
            assert_eq!(host_reads(&mut world), [Answer::done(0, 0); 2]);
            world.access(Access::new(kind::MAILBOX_WRITE, LOCAL, 0, 0, data, 0));
            assert_eq!(host_reads(&mut world), [Answer::done(data, x); 2]);
        }
    }
}

/// "A local read has X 0", of either mailbox.
#[test]
fn the_local_side_reads_no_label() {
    for data in 0..=255 {
        let mut world = bench();
        for side in [HOST, LOCAL] {
            world.access(Access::new(kind::MAILBOX_WRITE, side, 0, 0, data, 0));
        }
        let direct = world.access(Access::new(kind::MAILBOX_READ, LOCAL, 0, 0, 0, 0));
        assert_eq!(direct, Answer::done(data, 0));
        for offset in [offset::HLDATA, offset::LHDATA] {
            let read = world.register_access(RegisterAccess::read(LOCAL, offset));
            assert_eq!(read, Answer::done(data, 0));
        }
    }
}
