//! The trace writer, beside the reader.

use oracle::access::Access;
use oracle::arbitrary;
use oracle::rng::Rng;
use oracle::trace::{read, record, write};

const ROUNDS: usize = 20_000;

/// A buffer of so many random bytes.
fn buffer(rng: &mut Rng, length: usize) -> Vec<u8> {
    (0..length).map(|_| rng.byte()).collect()
}

#[test]
fn twenty_bytes_are_stored_and_the_rest_stays() {
    let access = Access::new(200, 7, 255, 0x1413_1211, 0x2423_2221, 0x3433_3231);
    let mut buffer = [0xEE; 23];
    assert_eq!(write(0x0201, &access, &mut buffer), Ok(0x0202));
    let stored = [
        0x42, 0x50, 0x01, 0x02, 200, 7, 255, 0, //
        0x11, 0x12, 0x13, 0x14, 0x21, 0x22, 0x23, 0x24, 0x31, 0x32, 0x33, 0x34, //
        0xEE, 0xEE, 0xEE,
    ];
    assert_eq!(buffer, stored);
}

#[test]
fn without_room_nothing_is_stored() {
    for length in 0..20 {
        let mut buffer = vec![0xEE; length];
        assert_eq!(write(65_535, &Access::default(), &mut buffer), Err(24));
        assert_eq!(buffer, vec![0xEE; length]);
    }
}

#[test]
fn after_the_last_number_comes_0() {
    let mut buffer = [0; 20];
    assert_eq!(write(65_535, &Access::default(), &mut buffer), Ok(0));
    assert_eq!(buffer[2..4], [255, 255]);
    assert_eq!(write(255, &Access::default(), &mut buffer), Ok(256));
}

#[test]
fn any_write_is_a_record_and_the_rest_or_a_refusal() {
    let mut rng = Rng::new(20);
    for _ in 0..ROUNDS {
        let number = rng.word() as u16;
        let access = arbitrary::access(&mut rng);
        let length = rng.below(41) as usize;
        let before = buffer(&mut rng, length);
        let mut after = before.clone();
        let answer = write(number, &access, &mut after);
        if length < 20 {
            assert_eq!((answer, after), (Err(24), before));
        } else {
            let next = ((u32::from(number) + 1) % 65_536) as u16;
            let stored = [&record(number, &access)[..], &before[20..]].concat();
            assert_eq!((answer, after), (Ok(next), stored));
        }
    }
}

/// "Reading what was written gives the access back, [..] for every access."
#[test]
fn what_was_written_is_read_back() {
    let mut rng = Rng::new(21);
    for _ in 0..ROUNDS {
        let number = rng.word() as u16;
        let access = arbitrary::access(&mut rng);
        let behind = rng.below(21) as usize;
        let mut buffer = buffer(&mut rng, 20 + behind);
        assert!(write(number, &access, &mut buffer).is_ok());
        assert_eq!(read(&buffer, number), Ok(access));
    }
}

/// "writing what was read gives the same 20 bytes, for every access."
#[test]
fn what_was_read_is_written_back() {
    let mut rng = Rng::new(22);
    for _ in 0..ROUNDS {
        let number = rng.word() as u16;
        let mut bytes = buffer(&mut rng, 30);
        // all that the reader asks for, and nothing else
        bytes[..2].copy_from_slice(&[0x42, 0x50]);
        bytes[2..4].copy_from_slice(&number.to_le_bytes());
        bytes[7] = 0;
        let access = read(&bytes, number).expect("a record");
        let mut written = vec![0xEE; 20];
        assert!(write(number, &access, &mut written).is_ok());
        assert_eq!(written, bytes[..20]);
    }
}
