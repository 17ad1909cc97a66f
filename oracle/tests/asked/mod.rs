//! Why an event bit reads as it does, asked of the built program. It takes a file, a side and a
//! position.

use std::fs::{self, File};
use std::path::{Path, PathBuf};
use std::process::Command;

use oracle::trace::{trace, RECORD_LENGTH};
use oracle::why::shorthand::{put, LINE};
use oracle::why::{asked, lines, MOST_BYTES, MOST_RECORDS, USAGE};

use super::support::{command, fed, run, Ended, Folder, ROOT};
use super::{failing_behind, fed_by_pieces, full, unread, Fault, Form, BLOCK, MANY};

/// A side and a position of which the long trace has something to tell.
const QUESTION: [&str; 2] = ["0", "6"];

fn launcher() -> PathBuf {
    Path::new(ROOT).join("why")
}

fn lesson() -> PathBuf {
    Path::new(ROOT).join("lessons/10-line-up.bin")
}

fn with_words(words: &[&str]) -> Command {
    let mut command = command(launcher());
    command.args(words);
    command
}

fn of(file: impl AsRef<Path>, question: [&str; 2]) -> Command {
    let mut command = command(launcher());
    command.arg(file.as_ref()).args(question);
    command
}

/// A line of the shell in which `"$0"` is the launcher and `"$1"` a file.
fn shell(line: &str, file: impl AsRef<Path>) -> Command {
    let mut shell = command("bash");
    shell.args(["-c", line]).arg(launcher()).arg(file.as_ref());
    shell
}

/// What the independent program writes.
fn told(trace: &[u8], [side, position]: [&str; 2]) -> String {
    let told = asked(trace, side.as_bytes(), position.as_bytes());
    lines(&told.expect("two decimals"))
}

#[track_caller]
fn is_told(ended: &Ended, trace: &[u8], question: [&str; 2]) {
    ended.is(told(trace, question).as_bytes(), "", 0);
}

#[track_caller]
fn is_usage(ended: &Ended) {
    ended.is(b"", USAGE, 2);
}

fn writing_failed(trace: &[u8]) -> String {
    let records = trace.len() / RECORD_LENGTH;
    format!("why: writing failed after {records} records\n")
}

// Nothing fails

#[test]
#[ignore = "runs the built programs: .ci/run calls it behind rt ci"]
fn every_question_of_the_lesson_is_answered() {
    let trace = fs::read(lesson()).expect("the lesson's trace");
    for side in ["0", "1", "2"] {
        for position in ["0", "1", "2", "3", "4", "5", "6", "7", "8", "9", "10"] {
            let question = [side, position];
            is_told(&run(of(lesson(), question)), &trace, question);
        }
    }
}

#[test]
#[ignore = "runs the built programs: .ci/run calls it behind rt ci"]
fn decimals_of_any_length_are_numbers() {
    let long = "7".repeat(100_000);
    for (question, line) in [
        (["0", "255"], "why 42\n"),
        (["0", "260"], "why 42\n"),
        (["0", "4294967300"], "why 42\n"),
        (["0", "18446744073709551620"], "why 42\n"),
        (["0", &long], "why 42\n"),
        (["256", "4"], "why 43\n"),
        (["4294967296", "4"], "why 43\n"),
        (["18446744073709551616", "4"], "why 43\n"),
        ([&long, "4"], "why 43\n"),
        ([&long[..5000], &long[..40]], "why 43\n"),
    ] {
        run(of(lesson(), question)).is(line.as_bytes(), "", 0);
    }
}

#[test]
#[ignore = "runs the built programs: .ci/run calls it behind rt ci"]
fn a_trace_of_any_length_is_asked() {
    let folder = Folder::new();
    let long = Form::Trace.long();
    for bytes in [
        0,
        1,
        RECORD_LENGTH,
        MOST_BYTES - RECORD_LENGTH,
        MOST_BYTES - 1,
        MOST_BYTES,
        MOST_BYTES + 1,
        MOST_BYTES + 19,
        MOST_BYTES + RECORD_LENGTH,
        MANY * RECORD_LENGTH,
    ] {
        let trace = &long[..bytes];
        let file = folder.file("capture.bin", trace);
        for question in [QUESTION, ["0", "0"], ["1", "4"], ["2", "4"]] {
            is_told(&run(of(&file, question)), trace, question);
        }
        if bytes > MOST_BYTES {
            run(of(&file, QUESTION)).is(b"why 41\n", "", 0);
        }
    }
}

#[test]
#[ignore = "runs the built programs: .ci/run calls it behind rt ci"]
fn a_refused_record_is_an_answer() {
    let folder = Folder::new();
    for record in [0, 1, MOST_RECORDS - 1] {
        let mut trace = Form::Trace.first(MOST_RECORDS).to_vec();
        trace[RECORD_LENGTH * record] = b'x';
        let file = folder.file("capture.bin", &trace);
        run(of(&file, QUESTION)).is(b"why 40\n", "", 0);
        run(of(&file, ["1", "2"])).is(b"why 42\n", "", 0);
    }
}

#[test]
#[ignore = "runs the built programs: .ci/run calls it behind rt ci"]
fn the_file_may_be_a_pipe_or_a_device() {
    let folder = Folder::new();
    let trace = Form::Trace.first(MOST_RECORDS);
    let file = folder.file("a capture.bin", trace);
    is_told(&fed(of("/dev/stdin", QUESTION), trace), trace, QUESTION);
    is_told(&run(of("/dev/null", QUESTION)), &[], QUESTION);
    for line in [
        "exec \"$0\" \"$1\" 0 6",
        "exec \"$0\" <(cat \"$1\") 0 6",
        "exec \"$0\" \"$1\" 0 6 <&-",
        "exec \"$0\" /dev/fd/3 0 6 3<\"$1\"",
        "cat \"$1\" | \"$0\" /dev/stdin 0 6",
        "cd \"${1%/*}\"; exec \"$0\" \"${1##*/}\" 0 6",
        "cd \"${1%/*}\"; mv \"${1##*/}\" ./-x; exec \"$0\" ./-x 0 6",
    ] {
        is_told(&run(shell(line, &file)), trace, QUESTION);
    }
}

#[test]
#[ignore = "runs the built programs: .ci/run calls it behind rt ci"]
fn a_trace_may_come_in_any_pieces() {
    let (trace, question) = (Form::Trace.first(200), ["1", "7"]);
    for piece in [1, 19, 20, 21, 1000] {
        let ended = fed_by_pieces(of("/dev/stdin", question), trace, piece);
        is_told(&ended, trace, question);
    }
}

// Wrong arguments

#[test]
#[ignore = "runs the built programs: .ci/run calls it behind rt ci"]
fn three_words_are_asked_for() {
    let file = lesson();
    let file = file.to_str().expect("a name of letters");
    for word in ["-h", "--help"] {
        run(with_words(&[word])).is(USAGE.as_bytes(), "", 0);
    }
    for words in [
        &[][..],
        &[file],
        &[file, "0"],
        &[file, "0", "4", "0"],
        &["0", "4"],
        &["--x"],
        &["--help", "0"],
    ] {
        is_usage(&run(with_words(words)));
    }
}

#[test]
#[ignore = "runs the built programs: .ci/run calls it behind rt ci"]
fn what_is_no_decimal_gets_the_usage() {
    let zeros = "0".repeat(5000);
    let last = format!("{}x", "1".repeat(5000));
    for text in [
        "", "00", "04", "+4", "-0", " 4", "4 ", "4\n", "\n4", "0x4", "4a", "a", "4.", "٣", "-h",
        &zeros, &last,
    ] {
        is_usage(&run(of(lesson(), ["0", text])));
        is_usage(&run(of(lesson(), [text, "4"])));
        // before any refusal
        is_usage(&run(of(lesson(), ["2", text])));
        is_usage(&run(of("/dev/null", [text, "99"])));
    }
}

#[test]
#[ignore = "runs the built programs: .ci/run calls it behind rt ci"]
fn a_file_that_is_missing_is_told() {
    let folder = Folder::new();
    let why = "there is no such file, or it cannot be read";
    for path in [folder.path(), &folder.path().join("missing")] {
        let told = format!("why: {}: {why}\n", path.display());
        run(of(path, ["0", "4"])).is(b"", &told, 1);
    }
}

// Writing fails

#[test]
#[ignore = "runs the built programs: .ci/run calls it behind rt ci"]
fn an_answer_that_is_not_written_is_told() {
    let folder = Folder::new();
    for bytes in [0, 19, 20, 47, MOST_BYTES] {
        let trace = &Form::Trace.long()[..bytes];
        let file = folder.file("capture.bin", trace);
        // a refusal is an answer too
        for question in [QUESTION, ["1", "4"]] {
            let mut command = of(&file, question);
            command.stdout(full());
            run(command).is(b"", &writing_failed(trace), 1);
        }
    }
}

#[test]
#[ignore = "runs the built programs: .ci/run calls it behind rt ci"]
fn the_standard_three_may_be_closed() {
    let trace = fs::read(lesson()).expect("the lesson's trace");
    for closed in 0..8 {
        let is_closed = |number: i32| closed & (1 << number) != 0;
        let mut line = "exec \"$0\" \"$1\" 0 6".to_string();
        for number in (0..3).filter(|number| is_closed(*number)) {
            line += &format!(" {number}>&-");
        }
        let ended = run(shell(&line, lesson()));
        if !is_closed(1) {
            is_told(&ended, &trace, ["0", "6"]);
        } else if is_closed(2) {
            ended.is(b"", "", 1);
        } else {
            ended.is(b"", &writing_failed(&trace), 1);
        }
    }
}

#[test]
#[ignore = "runs the built programs: .ci/run calls it behind rt ci"]
fn a_reader_that_is_gone_ends_it() {
    let mut command = of(lesson(), QUESTION);
    command.stdout(unread());
    run(command).is(b"", "", 141);
    let trace = fs::read(lesson()).expect("the lesson's trace");
    let mut command = shell("trap '' PIPE; exec \"$0\" \"$1\" 0 6", lesson());
    command.stdout(unread());
    run(command).is(b"", &writing_failed(&trace), 1);
}

/// A trace whose answer to the question is longer than a block: a FIFO full of the largest entry.
fn longer_than_a_block() -> Vec<u8> {
    let mut accesses = vec![LINE; MOST_RECORDS - 32];
    accesses.extend([put(1, u32::MAX); 32]);
    let trace = trace(&accesses);
    assert!(told(&trace, QUESTION).len() > BLOCK);
    trace
}

#[test]
#[ignore = "runs the built programs: .ci/run calls it behind rt ci"]
fn an_answer_that_is_cut_off_is_told() {
    let folder = Folder::new();
    let trace = longer_than_a_block();
    let file = folder.file("capture.bin", &trace);
    is_told(&run(of(&file, QUESTION)), &trace, QUESTION);
    for blocks in [0, 1] {
        let out = folder.file("out", b"");
        let line = format!("ulimit -c 0; ulimit -f {blocks}; trap '' XFSZ; exec \"$0\" \"$1\" 0 6");
        let mut command = shell(&line, &file);
        command.stdout(File::create(&out).expect("a file for the output"));
        let ended = run(command);
        let out = fs::read(&out).expect("what was written");
        let written = &told(&trace, QUESTION).into_bytes()[..blocks * BLOCK];
        Ended { out, ..ended }.is(written, &writing_failed(&trace), 1);
    }
}

// Reading fails

/// The first byte of a process's memory is never there.
#[test]
#[ignore = "runs the built programs: .ci/run calls it behind rt ci"]
fn a_file_that_cannot_be_read_is_no_empty_trace() {
    let told = "why: reading failed after 0 records\n";
    run(of("/proc/self/mem", QUESTION)).is(b"", told, 1);
}

/// No file of the launcher's fails behind some bytes, so the program is started without it.
#[test]
#[ignore = "runs the built programs: .ci/run calls it behind rt ci"]
fn behind_a_failed_read_nothing_is_answered() {
    let program = Path::new(ROOT).join("crates/why_program/out/why_program");
    for bytes in [0, 7, 19, 20, 47, 65_520, 65_540, MOST_BYTES - 1, MOST_BYTES] {
        let trace = &Form::Trace.long()[..bytes];
        let records = bytes / RECORD_LENGTH;
        for fault in [Fault::NothingThere, Fault::Reset] {
            let mut command = command(&program);
            command.args(QUESTION);
            let ended = failing_behind(command, trace, fault);
            assert_eq!(ended.out, b"");
            let told = format!("reading failed after {records} records");
            assert_eq!(ended.err.trim_end(), told);
        }
    }
}
