//! The rescue of damaged traces by its built programs. What it shares with the others, on undamaged
//! ones, is tried beside them.

use std::fs;
use std::path::Path;

use oracle::rescue::damage;
use oracle::rescue::{entries, lines_of, trace_of, Entry};
use oracle::trace::RECORD_LENGTH;

use super::support::{fed, run, ROOT};
use super::{
    failing_behind, fed_by_pieces, full, limited, Fault, Form, Program, BLOCK, CHUNK, CHUNK_BYTES,
    REPLAY, RESCUE, RESCUE_TRACE,
};

const BOTH: [Program; 2] = [RESCUE, RESCUE_TRACE];

/// What is known of a trace when the rest of it cannot be read: the records kept in these bytes, and
/// the ranges before them. Where the last range ends is not known.
fn known(program: &Program, bytes: &[u8]) -> (Vec<u8>, usize) {
    let entries = entries(bytes);
    let mut kept = entries.iter().filter(|e| matches!(e, Entry::Kept { .. }));
    let records = kept.clone().count();
    let end = kept.next_back().map_or(0, |entry| match entry {
        Entry::Kept { at, .. } | Entry::Skipped { at, .. } => *at as usize + RECORD_LENGTH,
    });
    let mut out = program.writes(&bytes[..end]);
    if program.options.is_empty() {
        // and no `end`
        let lines: Vec<&[u8]> = out.split_inclusive(|byte| *byte == b'\n').collect();
        out = lines[..lines.len() - 1].concat();
    }
    (out, records)
}

/// A trace with bytes lost, doubled and overwritten, and stray marks.
fn damaged(records: usize) -> Vec<u8> {
    damage::long(records)
}

#[test]
#[ignore = "runs the built programs: .ci/run calls it behind rt ci"]
fn a_damaged_trace_is_rescued_at_any_length() {
    for trace in [
        vec![b'x'],
        damaged(3),
        damaged(CHUNK),
        damaged(5 * CHUNK),
        b"BP".repeat(CHUNK_BYTES),
        vec![0; 3 * CHUNK_BYTES - 1],
    ] {
        for program in BOTH {
            program.is_right(&fed(program.command(), &trace), &trace);
        }
    }
}

#[test]
#[ignore = "runs the built programs: .ci/run calls it behind rt ci"]
fn the_end_of_a_chunk_may_lie_anywhere_in_a_record_or_a_range() {
    let records = Form::Trace.first(CHUNK + 3);
    for before in 0..RECORD_LENGTH {
        let shifted = [&vec![b'B'; before], records].concat();
        // a range around the end of the chunk, and a record that begins so far behind it
        let mut parted = records[..CHUNK_BYTES - 10].to_vec();
        parted.extend(vec![0; 10 + before]);
        parted.extend(&records[CHUNK_BYTES..]);
        for trace in [shifted, parted] {
            for program in BOTH {
                program.is_right(&fed(program.command(), &trace), &trace);
            }
        }
    }
}

#[test]
#[ignore = "runs the built programs: .ci/run calls it behind rt ci"]
fn a_damaged_trace_may_come_in_any_pieces() {
    let trace = damaged(200);
    for program in BOTH {
        for piece in [1, 19, 21] {
            program.is_right(&fed_by_pieces(program.command(), &trace, piece), &trace);
        }
    }
}

#[test]
#[ignore = "runs the built programs: .ci/run calls it behind rt ci"]
fn behind_a_failed_read_nothing_is_written_that_is_not_known() {
    let long = damaged(2 * CHUNK);
    let first = [&b"xyz"[..], Form::Trace.first(2), b"xyz", &long].concat();
    for bytes in (0..70).step_by(3).chain([CHUNK_BYTES, CHUNK_BYTES + 31]) {
        let trace = &first[..bytes];
        for program in BOTH {
            let (out, records) = known(&program, trace);
            let told = program.reading_failed(records);
            for fault in [Fault::NothingThere, Fault::Reset] {
                failing_behind(program.command(), trace, fault).is(&out, &told, 1);
            }
        }
    }
}

/// A trace with so many bytes in front of its records, whose lines fill their blocks, and how many
/// records it has.
fn fills_blocks(before: usize) -> Option<(Vec<u8>, usize)> {
    let skipped = vec![b'x'; before];
    let records = Form::Trace.first(CHUNK - 100);
    let (lines, _) = known(&RESCUE, &[&skipped, records].concat());
    let mut end = 0;
    let mut lines = lines.split_inclusive(|byte| *byte == b'\n');
    // behind the line of the range and those of so many records
    let count = lines.position(|line| {
        end += line.len();
        end % BLOCK == 0
    })?;
    Some(([&skipped, Form::Trace.first(count)].concat(), count))
}

#[test]
#[ignore = "runs the built programs: .ci/run calls it behind rt ci"]
fn a_lost_end_is_told() {
    // all lines of records fit, and the first byte of what follows is one too much
    let (trace, count) = (1..100).find_map(fills_blocks).expect("one that does");
    let written = known(&RESCUE, &trace).0;
    let blocks = written.len() / BLOCK;
    for tail in [&b""[..], b"xyz"] {
        let trace = [&trace, tail].concat();
        let ended = limited(&RESCUE, "trap '' XFSZ; exec \"$0\"", blocks, &trace);
        ended.is(&written, &RESCUE.writing_failed(count), 1);
    }
}

#[test]
#[ignore = "runs the built programs: .ci/run calls it behind rt ci"]
fn where_nothing_is_kept_no_trace_is_written() {
    for trace in [&b"x"[..], &b"BP".repeat(2 * CHUNK_BYTES)] {
        assert_eq!(trace_of(trace).1.kept, 0);
        fed(RESCUE_TRACE.to(full()), trace).is(b"", "", 0);
        fed(RESCUE.to(full()), trace).is(b"", &RESCUE.writing_failed(0), 1);
    }
}

#[test]
#[ignore = "runs the built programs: .ci/run calls it behind rt ci"]
fn the_files_of_the_lessons_are_what_is_written() {
    let lessons = fs::read_dir(Path::new(ROOT).join("lessons")).expect("the lessons");
    let read = |path: &Path| fs::read(path).expect("a lesson's file");
    let (mut sound, mut rescued) = (0, 0);
    for path in lessons.flatten().map(|entry| entry.path()) {
        if path.extension().is_none_or(|end| end != "bin") {
            continue;
        }
        let lines = path.with_extension("entries");
        if lines.exists() {
            run(RESCUE.of(&path)).is(&read(&lines), "", 0);
        }
        let answers = path.with_extension("rescued.txt");
        if answers.exists() {
            let anew = run(RESCUE_TRACE.of(&path)).out;
            fed(REPLAY.command(), &anew).is(&read(&answers), "", 0);
            rescued += 1;
        }
        // an undamaged one is given back
        if path.with_extension("list").exists() {
            let trace = read(&path);
            run(RESCUE_TRACE.of(&path)).is(&trace, "", 0);
            assert_eq!(run(RESCUE.of(&path)).out, lines_of(&trace).0);
            sound += 1;
        }
    }
    assert!(sound >= 10 && rescued >= 3);
}

#[test]
#[ignore = "runs the built programs: .ci/run calls it behind rt ci"]
fn the_option_stands_once_and_in_front() {
    for line in [
        "\"$0\" -t -t",
        "\"$0\" -tx",
        "\"$0\" /dev/null -t",
        "\"$0\" -t /dev/null two",
        "\"$0\" -x /dev/null",
    ] {
        run(RESCUE.shell(line)).is(b"", RESCUE.usage, 2);
    }
}
