//! The built programs where the world fails: nothing is lost in silence. They are started by their
//! launcher, and what they write is held to what the independent program writes.

mod asked;
mod rescued;
mod shown;
mod support;

use std::ffi::{c_int, c_ulong};
use std::fs::{self, File};
use std::io::{self, Read, Write};
use std::os::fd::{AsRawFd, OwnedFd};
use std::os::unix::fs::{symlink, PermissionsExt};
use std::os::unix::net::UnixStream;
use std::path::{Path, PathBuf};
use std::process::{ChildStdin, Command, Stdio};
use std::sync::OnceLock;
use std::thread;

use oracle::convert::{list_of, trace_of};
use oracle::list::LONGEST_LINE;
use oracle::replay::text;
use oracle::rescue;
use oracle::trace::RECORD_LENGTH;
use oracle::{long_list, long_trace};

use shown::examples;
use support::{command, fed, run, start, Ended, Folder, ROOT};

/// So much is read at a time.
const CHUNK_BYTES: usize = 65_520;
/// The records of a trace in it.
const CHUNK: usize = CHUNK_BYTES / RECORD_LENGTH;
/// Of a trace 26 chunks, of a list more than 20.
const MANY: usize = 26 * CHUNK;
/// What `ulimit -f` counts in.
const BLOCK: usize = 1024;

// What is read

/// How an input holds its accesses.
#[derive(Clone, Copy)]
enum Form {
    Trace,
    List,
}

impl Form {
    /// How many bytes of an access its reader looks at, at most.
    fn longest(self) -> usize {
        match self {
            Form::Trace => RECORD_LENGTH,
            Form::List => LONGEST_LINE,
        }
    }

    /// A long input.
    fn long(self) -> &'static [u8] {
        static TRACE: OnceLock<Vec<u8>> = OnceLock::new();
        static LIST: OnceLock<Vec<u8>> = OnceLock::new();
        match self {
            Form::Trace => TRACE.get_or_init(|| long_trace(MANY)),
            Form::List => LIST.get_or_init(|| long_list(MANY)),
        }
    }

    /// The bytes of each access. The last may be cut off.
    fn accesses(self, input: &[u8]) -> Box<dyn Iterator<Item = &[u8]> + '_> {
        match self {
            Form::Trace => Box::new(input.chunks(RECORD_LENGTH)),
            Form::List => Box::new(input.split_inclusive(|byte| *byte == b'\n')),
        }
    }

    /// Where an access of the long input begins, counted from 0.
    fn place(self, access: usize) -> usize {
        let before = self.accesses(self.long()).take(access);
        before.map(<[u8]>::len).sum()
    }

    /// The first accesses of the long input.
    fn first(self, count: usize) -> &'static [u8] {
        &self.long()[..self.place(count)]
    }

    /// The long input to an access that is refused, and a little more.
    fn refused_at(self, access: usize) -> Vec<u8> {
        let mut input = self.first(access + 10).to_vec();
        input[self.place(access)] = b'x';
        input
    }

    /// How many accesses stand before each chunk. What the end of a full chunk may have cut off
    /// belongs to the next.
    fn before_chunks(self, input: &[u8]) -> Vec<usize> {
        let (mut before, mut start, mut at) = (vec![0], 0, 0);
        for (access, count) in self.accesses(input).zip(0..) {
            let end = start + CHUNK_BYTES;
            if end <= input.len() && end - at < self.longest() {
                before.push(count);
                start = at;
            }
            at += access.len();
        }
        before
    }

    /// What is turned of an input that fails behind these bytes: an access may have been cut off
    /// where fewer are left than its reader may look at.
    fn at_hand(self, input: &[u8]) -> &[u8] {
        let mut at = 0;
        for access in self.accesses(input) {
            if input.len() - at < self.longest() {
                break;
            }
            at += access.len();
        }
        &input[..at]
    }
}

// The programs

struct Program {
    name: &'static str,
    /// What stands in front of the file.
    options: &'static [&'static str],
    usage: &'static str,
    reads: Form,
    /// What the independent program writes of an input.
    writes: fn(&[u8]) -> Vec<u8>,
    /// What is written at the end of the input, behind so many accesses.
    end: fn(usize) -> String,
}

const REPLAY: Program = Program {
    name: "replay",
    options: &[],
    usage: "usage: ./replay capture.bin, or ./replay < capture.bin\n",
    reads: Form::Trace,
    writes: text,
    end: |count| format!("end {count}\n"),
};

const TO_TRACE: Program = Program {
    name: "to-trace",
    options: &[],
    usage: "usage: ./to-trace list.txt > capture.bin, or ./to-trace < list.txt > capture.bin\n",
    reads: Form::List,
    writes: |list| trace_of(list).0,
    end: |_| String::new(),
};

const TO_TEXT: Program = Program {
    name: "to-text",
    options: &[],
    usage: "usage: ./to-text capture.bin > list.txt, or ./to-text < capture.bin > list.txt\n",
    reads: Form::Trace,
    writes: |trace| list_of(trace).0,
    end: |_| String::new(),
};

const RESCUE: Program = Program {
    name: "rescue",
    options: &[],
    usage: "usage: ./rescue [-t] damaged.bin, or ./rescue [-t] < damaged.bin\n",
    reads: Form::Trace,
    writes: |trace| rescue::lines_of(trace).0,
    // of an undamaged trace
    end: |count| format!("end {count} 0 0\n"),
};

const RESCUE_TRACE: Program = Program {
    options: &["-t"],
    writes: |trace| rescue::trace_of(trace).0,
    end: |_| String::new(),
    ..RESCUE
};

/// Those that stop at a refusal.
const PROGRAMS: [Program; 3] = [REPLAY, TO_TRACE, TO_TEXT];

const ALL: [Program; 5] = [REPLAY, TO_TRACE, TO_TEXT, RESCUE, RESCUE_TRACE];

impl Program {
    fn launcher(&self) -> PathBuf {
        Path::new(ROOT).join(self.name)
    }

    fn command(&self) -> Command {
        let mut command = command(self.launcher());
        command.args(self.options);
        command
    }

    fn of(&self, file: impl AsRef<Path>) -> Command {
        let mut command = self.command();
        command.arg(file.as_ref());
        command
    }

    fn to(&self, output: impl Into<Stdio>) -> Command {
        let mut command = self.command();
        command.stdout(output);
        command
    }

    /// A line of the shell in which `"$0"` is the launcher, with the options behind it.
    fn shell(&self, line: &str) -> Command {
        let mut launcher = "\"$0\"".to_string();
        for option in self.options {
            launcher += &format!(" {option}");
        }
        let line = line.replace("\"$0\"", &launcher);
        let mut shell = command("bash");
        shell.args(["-c", &line]).arg(self.launcher());
        shell
    }

    fn says(&self, what: &str) -> String {
        format!("{}: {what}\n", self.name)
    }

    fn reading_failed(&self, after: usize) -> String {
        self.says(&format!("reading failed after {after} records"))
    }

    fn writing_failed(&self, after: usize) -> String {
        self.says(&format!("writing failed after {after} records"))
    }

    fn writes(&self, input: &[u8]) -> Vec<u8> {
        (self.writes)(input)
    }

    fn end(&self, count: usize) -> String {
        (self.end)(count)
    }

    /// What is written of these accesses, and nothing of the end.
    fn turned(&self, input: &[u8]) -> Vec<u8> {
        let mut out = self.writes(input);
        let end = self.end(self.reads.accesses(input).count());
        assert!(out.ends_with(end.as_bytes()));
        out.truncate(out.len() - end.len());
        out
    }

    /// Nothing failed. That a list was refused is told on standard error too: nobody reads the last
    /// line of a trace.
    #[track_caller]
    fn is_right(&self, ended: &Ended, input: &[u8]) {
        let told = match self.reads {
            Form::Trace => String::new(),
            Form::List => self.refusal_of(input),
        };
        let status = i32::from(!told.is_empty());
        ended.is(&self.writes(input), &told, status);
    }

    fn refusal_of(&self, list: &[u8]) -> String {
        let (_, turned) = trace_of(list);
        let line = turned.accesses + 1;
        let told = |refusal| self.says(&format!("text {refusal} at {line}"));
        turned.refusal.map(told).unwrap_or_default()
    }
}

// Inputs and outputs

/// Runs a command on a pipe in which there is never more than one piece: so much does a read get.
fn fed_by_pieces(command: Command, input: &[u8], piece: usize) -> Ended {
    println!("on {} bytes, {piece} at a time:", input.len());
    let (mut pipe, ended) = start(command);
    for part in input.chunks(piece) {
        let _ = pipe.write_all(part);
        while bytes_in(&pipe) > 0 && !ended.is_finished() {
            thread::yield_now();
        }
    }
    drop(pipe);
    ended.join().expect("the program ends")
}

/// How many bytes of the pipe nobody has read yet.
fn bytes_in(pipe: &ChildStdin) -> usize {
    extern "C" {
        fn ioctl(file: c_int, request: c_ulong, ...) -> c_int;
    }
    const FIONREAD: c_ulong = 0x541B;
    let mut bytes: c_int = 0;
    // SAFETY: the file is open, and the request stores one number where it is told to.
    let answer = unsafe { ioctl(pipe.as_raw_fd(), FIONREAD, &mut bytes) };
    assert_eq!(answer, 0);
    bytes.try_into().expect("a number of bytes")
}

/// Why a read fails.
#[derive(Clone, Copy, Debug)]
enum Fault {
    /// Nothing more is there, the other end is open, and the program's does not wait.
    NothingThere,
    /// The other end has gone without reading what it was sent. Behind the failed read the input
    /// looks ended.
    Reset,
}

/// Runs a command on a socket that has these bytes and then fails.
fn failing_behind(mut command: Command, bytes: &[u8], fault: Fault) -> Ended {
    println!("{fault:?} behind {} bytes:", bytes.len());
    let (ours, theirs) = UnixStream::pair().expect("two sockets");
    for end in [&ours, &theirs] {
        end.set_nonblocking(true).expect("it does not wait");
    }
    (&ours).write_all(bytes).expect("the socket has room");
    let _open = match fault {
        Fault::NothingThere => Some(ours),
        Fault::Reset => {
            (&theirs).write_all(b"unread").expect("the socket has room");
            drop(ours);
            None
        }
    };
    command.stdin(OwnedFd::from(theirs));
    run(command)
}

/// A socket whose other end nobody reads and that has no room left: a write fails until somebody does.
fn stuffed() -> (UnixStream, UnixStream) {
    let (ours, theirs) = UnixStream::pair().expect("two sockets");
    theirs.set_nonblocking(true).expect("it does not wait");
    while (&theirs).write(&[0; 1000]).is_ok() {}
    while (&theirs).write(&[0]).is_ok() {}
    (ours, theirs)
}

/// Runs a program into a file that may have so many blocks; the line of the shell says what happens
/// there.
fn limited(program: &Program, line: &str, blocks: usize, input: &[u8]) -> Ended {
    let folder = Folder::new();
    let out = folder.file("out", b"");
    let mut command = program.shell(&format!("ulimit -c 0; ulimit -f {blocks}; {line}"));
    command.stdout(File::create(&out).expect("a file for the output"));
    let ended = fed(command, input);
    let out = fs::read(&out).expect("what was written");
    Ended { out, ..ended }
}

fn full() -> File {
    let full = File::options().write(true).open("/dev/full");
    full.expect("a device that is always full")
}

/// An output whose reader is gone.
fn unread() -> Stdio {
    let (_, unread) = io::pipe().expect("a pipe");
    unread.into()
}

// Nothing fails

#[test]
#[ignore = "runs the built programs: .ci/run calls it behind rt ci"]
fn empty_input_is_no_failure() {
    for (program, out) in [
        (REPLAY, "end 0\n"),
        (TO_TRACE, ""),
        (TO_TEXT, ""),
        (RESCUE, "end 0 0 0\n"),
        (RESCUE_TRACE, ""),
    ] {
        fed(program.command(), b"").is(out.as_bytes(), "", 0);
    }
}

#[test]
#[ignore = "runs the built programs: .ci/run calls it behind rt ci"]
fn a_refusal_stands_behind_what_was_turned() {
    let record = [
        0x42, 0x50, 0, 0, 10, 0, 0, 0, 0, 0, 0, 0, 0, 0, 0, 0, 0, 0, 0, 0,
    ];
    for (list, records, refused) in [
        ("x\n", &[][..], "text 25 at 1\n"),
        ("10 0 0 0 0 0", &[], "text 25 at 1\n"),
        ("10 0 0 0 0 0\n10 0 0", &record, "text 25 at 2\n"),
        ("10 0 0 0 0 0\n\n10 0 0 0 0 0\n", &record, "text 25 at 2\n"),
    ] {
        let out = [records, refused.as_bytes()].concat();
        let told = format!("to-trace: {refused}");
        fed(TO_TRACE.command(), list.as_bytes()).is(&out, &told, 1);
    }
    for (trace, lines) in [
        (&record[..19], "log 20 at 0\n"),
        (b"x\n", "log 20 at 0\n"),
        (&record.repeat(2), "10 0 0 0 0 0\nlog 22 at 1\n"),
        (&[&record[..], b"x"].concat(), "10 0 0 0 0 0\nlog 20 at 1\n"),
    ] {
        fed(TO_TEXT.command(), trace).is(lines.as_bytes(), "", 0);
    }
}

#[test]
#[ignore = "runs the built programs: .ci/run calls it behind rt ci"]
fn an_access_that_the_end_cuts_off_is_refused() {
    for program in PROGRAMS {
        let form = program.reads;
        let next = form.before_chunks(form.long())[1];
        for access in [0, 1, next - 1, next] {
            let refused = match form {
                Form::Trace => format!("log 20 at {access}\n"),
                Form::List => format!("text 25 at {}\n", access + 1),
            };
            for end in [form.place(access) + 1, form.place(access + 1) - 1] {
                let input = &form.long()[..end];
                let ended = fed(program.command(), input);
                program.is_right(&ended, input);
                assert!(ended.out.ends_with(refused.as_bytes()));
            }
        }
    }
}

#[test]
#[ignore = "runs the built programs: .ci/run calls it behind rt ci"]
fn a_refusal_around_the_end_of_a_chunk_is_the_last_line() {
    for program in PROGRAMS {
        let form = program.reads;
        // the last of the chunk, those that it may have cut off, and the first that it has not seen
        let next = form.before_chunks(form.long())[1];
        let unseen = (next..).find(|access| form.place(*access) >= CHUNK_BYTES);
        for access in next - 1..=unseen.expect("a second chunk") {
            let input = form.refused_at(access);
            program.is_right(&fed(program.command(), &input), &input);
        }
    }
}

#[test]
#[ignore = "runs the built programs: .ci/run calls it behind rt ci"]
fn a_list_may_end_where_a_chunk_does() {
    for length in [12, LONGEST_LINE] {
        let whole = lines_of(length).repeat(CHUNK_BYTES / length);
        assert_eq!(whole.len(), CHUNK_BYTES);
        let cut_off = &whole[..CHUNK_BYTES - 1];
        let goes_on = [&whole, &b"x\n"[..]].concat();
        for input in [&whole, cut_off, &goes_on] {
            TO_TRACE.is_right(&fed(TO_TRACE.command(), input), input);
        }
    }
}

#[test]
#[ignore = "runs the built programs: .ci/run calls it behind rt ci"]
fn the_end_of_a_chunk_may_lie_anywhere_in_a_line() {
    let longest = lines_of(LONGEST_LINE);
    let lines = longest.repeat(CHUNK_BYTES / longest.len() + 1);
    let more = Form::List.first(2 * CHUNK);
    // the first chunk ends in every place of a longest line, the others anywhere
    for before in 12..12 + longest.len() {
        let input = [&lines_of(before), &lines, more].concat();
        TO_TRACE.is_right(&fed(TO_TRACE.command(), &input), &input);
    }
}

/// Lines that have so many bytes in all, at least 12.
fn lines_of(bytes: usize) -> Vec<u8> {
    if bytes > LONGEST_LINE {
        return [lines_of(12), lines_of(bytes - 12)].concat();
    }
    let mut left = bytes - 12;
    let words = [3, 3, 3, 10, 10, 10].map(|most| {
        let more = left.min(most - 1);
        left -= more;
        "1".repeat(1 + more)
    });
    (words.join(" ") + "\n").into_bytes()
}

#[test]
#[ignore = "runs the built programs: .ci/run calls it behind rt ci"]
fn an_input_may_have_many_chunks() {
    for program in ALL {
        for count in [MANY, MANY - 1] {
            let input = program.reads.first(count);
            program.is_right(&fed(program.command(), input), input);
        }
    }
}

#[test]
#[ignore = "runs the built programs: .ci/run calls it behind rt ci"]
fn a_pipe_may_give_any_number_of_bytes_at_a_time() {
    for program in ALL {
        for piece in [1, 7, 19, 20, 21, 4093] {
            for bytes in [CHUNK_BYTES + 60, 47] {
                let input = &program.reads.long()[..bytes];
                program.is_right(&fed_by_pieces(program.command(), input, piece), input);
            }
        }
    }
}

#[test]
#[ignore = "runs the built programs: .ci/run calls it behind rt ci"]
fn an_endless_line_is_refused_without_being_kept() {
    let (mut pipe, ended) = start(TO_TRACE.command());
    let mut written = 0;
    while let Ok(more) = pipe.write(&[b'1'; 4096]) {
        written += more;
        assert!(written < 50_000_000, "it goes on");
    }
    let ended = ended.join().expect("the program ends");
    ended.is(b"text 25 at 1\n", "to-trace: text 25 at 1\n", 1);
    assert_eq!(written - bytes_in(&pipe), CHUNK_BYTES);
}

// There and back

/// What the one program writes is what the other reads, and the other way round.
#[track_caller]
fn give_each_other(trace: &[u8], list: &[u8]) {
    fed(TO_TEXT.command(), trace).is(list, "", 0);
    fed(TO_TRACE.command(), list).is(trace, "", 0);
}

#[test]
#[ignore = "runs the built programs: .ci/run calls it behind rt ci"]
fn a_trace_and_its_list_give_each_other() {
    let read = |path: &Path| fs::read(path).expect("a file of the repository");
    let root = Path::new(ROOT);
    let lessons = fs::read_dir(root.join("lessons")).expect("the lessons");
    let mut count = 0;
    for path in lessons.flatten().map(|entry| entry.path()) {
        // a damaged trace has no list
        if path.extension().is_some_and(|end| end == "list") {
            give_each_other(&read(&path.with_extension("bin")), &read(&path));
            count += 1;
        }
    }
    assert!(count > 0);
    // longer than the record numbers last
    let long = root.join("crates/to_text");
    give_each_other(&read(&long.join("stdin")), &read(&long.join("stdout")));
    give_each_other(Form::Trace.long(), Form::List.long());
}

#[test]
#[ignore = "runs the built programs: .ci/run calls it behind rt ci"]
fn a_refused_output_is_refused_by_the_other() {
    let refused = fed(TO_TEXT.command(), &Form::Trace.refused_at(3)).out;
    TO_TRACE.is_right(&fed(TO_TRACE.command(), &refused), &refused);
    assert_eq!(TO_TRACE.refusal_of(&refused), "to-trace: text 25 at 4\n");
    let refused = fed(TO_TRACE.command(), &Form::List.refused_at(3)).out;
    let lines = [&TO_TEXT.turned(Form::Trace.first(3)), &b"log 20 at 3\n"[..]].concat();
    fed(TO_TEXT.command(), &refused).is(&lines, "", 0);
}

// Writing fails

#[test]
#[ignore = "runs the built programs: .ci/run calls it behind rt ci"]
fn a_full_output_is_told() {
    for program in ALL {
        for count in [0, 1, CHUNK, 2 * CHUNK] {
            let input = program.reads.first(count);
            let ended = fed(program.to(full()), input);
            if program.writes(input).is_empty() {
                ended.is(b"", "", 0);
            } else {
                ended.is(b"", &program.writing_failed(0), 1);
            }
        }
    }
}

#[test]
#[ignore = "runs the built programs: .ci/run calls it behind rt ci"]
fn an_output_that_may_not_grow_ends_at_its_limit() {
    for program in ALL {
        let form = program.reads;
        let input = form.first(5 * CHUNK);
        let out = program.writes(input);
        let chunks = form.before_chunks(input);
        for blocks in [0, 1, 30, 60, 120] {
            let written = &out[..blocks * BLOCK];
            let fits = |count: &&usize| program.turned(form.first(**count)).len() <= written.len();
            let before = chunks.iter().rfind(fits).expect("nothing fits");
            let ended = limited(&program, "trap '' XFSZ; exec \"$0\"", blocks, input);
            ended.is(written, &program.writing_failed(*before), 1);
        }
    }
}

#[test]
#[ignore = "runs the built programs: .ci/run calls it behind rt ci"]
fn a_lost_last_line_is_told() {
    for program in PROGRAMS {
        // all else fits, and the last line's first byte is one too much
        let form = program.reads;
        let written = |count: usize| program.turned(form.first(count));
        let fills = |count: &usize| written(*count).len() % BLOCK == 0;
        let count = (1..CHUNK).find(fills).expect("what fills its blocks");
        let written = written(count);
        let blocks = written.len() / BLOCK;
        let limited = |input: &[u8]| limited(&program, "trap '' XFSZ; exec \"$0\"", blocks, input);
        let ended = limited(&form.refused_at(count));
        ended.is(&written, &program.writing_failed(0), 1);
        let ended = limited(form.first(count));
        if program.end(count).is_empty() {
            ended.is(&written, "", 0);
        } else {
            ended.is(&written, &program.writing_failed(count), 1);
        }
    }
}

#[test]
#[ignore = "runs the built programs: .ci/run calls it behind rt ci"]
fn nothing_is_read_behind_a_failed_write() {
    for program in ALL {
        let (_ours, theirs) = stuffed();
        let (mut pipe, ended) = start(program.to(OwnedFd::from(theirs)));
        let (chunk, more) = program.reads.long().split_at(CHUNK_BYTES);
        pipe.write_all(chunk).expect("the first chunk is read");
        // some bytes more, unless the program is gone: they are read only where it goes on
        let gone = pipe.write_all(&more[..20]).is_err();
        while !ended.is_finished() {
            assert!(gone || bytes_in(&pipe) > 0, "it goes on");
            thread::yield_now();
        }
        let ended = ended.join().expect("the program ends");
        ended.is(b"", &program.writing_failed(0), 1);
    }
}

#[test]
#[ignore = "runs the built programs: .ci/run calls it behind rt ci"]
fn a_reader_that_goes_away_ends_it_without_a_word() {
    for program in ALL {
        let input = program.reads.long();
        fed(program.to(unread()), input).is(b"", "", 141);

        // its output has no room in the pipe, so it is still writing when the reader goes
        let (mut seen, output) = io::pipe().expect("a pipe");
        thread::scope(|scope| {
            scope.spawn(|| {
                let mut some = [0; 1000];
                seen.read_exact(&mut some).expect("some of the output");
                drop(seen);
                assert_eq!(some, program.writes(input)[..1000]);
            });
            fed(program.to(output), input).is(b"", "", 141);
        });
    }
}

#[test]
#[ignore = "runs the built programs: .ci/run calls it behind rt ci"]
fn a_reader_that_goes_away_is_told_where_the_signal_is_ignored() {
    for program in ALL {
        let mut command = program.shell("trap '' PIPE; exec \"$0\"");
        command.stdout(unread());
        let ended = fed(command, program.reads.first(2 * CHUNK));
        ended.is(b"", &program.writing_failed(0), 1);
    }
}

// Reading fails

#[test]
#[ignore = "runs the built programs: .ci/run calls it behind rt ci"]
fn a_folder_is_no_empty_input() {
    let folder = Folder::new();
    for program in ALL {
        let mut command = program.command();
        command.stdin(File::open(folder.path()).expect("a folder"));
        run(command).is(b"", &program.reading_failed(0), 1);

        cannot_be_read(&program, folder.path());
    }
}

#[test]
#[ignore = "runs the built programs: .ci/run calls it behind rt ci"]
fn a_failed_read_is_no_end_and_what_it_cut_off_is_left() {
    for program in ALL {
        let form = program.reads;
        for bytes in [0, 7, 20, 44, 45, 47, CHUNK_BYTES, CHUNK_BYTES + 107] {
            let input = &form.long()[..bytes];
            let at_hand = form.at_hand(input);
            let told = program.reading_failed(form.accesses(at_hand).count());
            for fault in [Fault::NothingThere, Fault::Reset] {
                let ended = failing_behind(program.command(), input, fault);
                ended.is(&program.turned(at_hand), &told, 1);
            }
        }
    }
}

#[test]
#[ignore = "runs the built programs: .ci/run calls it behind rt ci"]
fn a_refusal_before_a_failed_read_is_written() {
    for program in PROGRAMS {
        let form = program.reads;
        let input = form.refused_at(3);
        let ended = failing_behind(program.command(), &input, Fault::Reset);
        ended.is(&program.writes(&input), &program.reading_failed(3), 1);

        // one byte fewer might be what the fault left of an access
        let wrong = vec![b'x'; form.longest()];
        for (input, out) in [(&wrong[..], program.writes(&wrong)), (&wrong[1..], vec![])] {
            let ended = failing_behind(program.command(), input, Fault::Reset);
            ended.is(&out, &program.reading_failed(0), 1);
        }
    }
}

// Both fail, or more

#[test]
#[ignore = "runs the built programs: .ci/run calls it behind rt ci"]
fn of_two_failures_the_write_is_told() {
    for program in ALL {
        let (reading, writing) = (program.reading_failed(0), program.writing_failed(0));
        for (bytes, told) in [(0, reading), (47, writing)] {
            let input = &program.reads.long()[..bytes];
            failing_behind(program.to(full()), input, Fault::Reset).is(b"", &told, 1);
        }
    }
}

#[test]
#[ignore = "runs the built programs: .ci/run calls it behind rt ci"]
fn any_of_the_standard_three_may_be_closed() {
    for program in ALL {
        let input = program.reads.first(CHUNK + 1);
        for closed in 0..8 {
            let is_closed = |number: i32| closed & (1 << number) != 0;
            let mut line = "exec \"$0\"".to_string();
            for number in (0..3).filter(|number| is_closed(*number)) {
                line += &format!(" {number}>&-");
            }
            let (out, told) = match (is_closed(0), is_closed(1)) {
                (true, _) => (Vec::new(), program.reading_failed(0)),
                (false, true) => (Vec::new(), program.writing_failed(0)),
                (false, false) => (program.writes(input), String::new()),
            };
            let status = i32::from(!told.is_empty());
            let told = if is_closed(2) { "" } else { &told };
            fed(program.shell(&line), input).is(&out, told, status);
        }
    }
}

#[test]
#[ignore = "runs the built programs: .ci/run calls it behind rt ci"]
fn a_signal_that_ends_it_is_told() {
    for program in ALL {
        let input = program.reads.first(2 * CHUNK);
        let ended = limited(&program, "exec \"$0\"", 1, input);
        let out = &program.writes(input)[..BLOCK];
        ended.is(out, &program.says("ended by signal XFSZ"), 153);
    }
}

// The launcher's own answers

#[test]
#[ignore = "runs the built programs: .ci/run calls it behind rt ci"]
fn help_is_output() {
    for program in [REPLAY, TO_TRACE, TO_TEXT, RESCUE] {
        for word in ["-h", "--help"] {
            run(program.of(word)).is(program.usage.as_bytes(), "", 0);
        }
    }
}

#[test]
#[ignore = "runs the built programs: .ci/run calls it behind rt ci"]
fn wrong_arguments_get_the_usage() {
    for program in ALL {
        for line in [
            "\"$0\" one two",
            "\"$0\" --x",
            "\"$0\" -x",
            "\"$0\" --help two",
        ] {
            run(program.shell(line)).is(b"", program.usage, 2);
        }
    }
}

#[track_caller]
fn cannot_be_read(program: &Program, path: &Path) {
    let why = "there is no such file, or it cannot be read";
    let told = program.says(&format!("{}: {why}", path.display()));
    run(program.of(path)).is(b"", &told, 1);
}

#[test]
#[ignore = "runs the built programs: .ci/run calls it behind rt ci"]
fn a_file_that_is_missing_or_closed_to_us_is_told() {
    let folder = Folder::new();
    let secret = folder.file("secret", b"");
    let closed = fs::Permissions::from_mode(0o000);
    fs::set_permissions(&secret, closed).expect("our own file");
    for program in ALL {
        cannot_be_read(&program, &folder.path().join("missing"));
        // root may read every file
        if File::open(&secret).is_err() {
            cannot_be_read(&program, &secret);
        }
    }
}

#[test]
#[ignore = "runs the built programs: .ci/run calls it behind rt ci"]
fn the_input_may_be_a_file_a_pipe_or_a_device() {
    for program in ALL {
        let folder = Folder::new();
        let input = program.reads.first(CHUNK + 1);
        let file = folder.file("a capture.bin", input);
        program.is_right(&run(program.of(&file)), input);
        program.is_right(&fed(program.of("/dev/stdin"), input), input);
        program.is_right(&run(program.of("/dev/null")), &[]);
        for line in [
            "exec \"$0\" <(cat \"$1\")",
            "exec \"$0\" <\"$1\"",
            "exec \"$0\" \"$1\" <&-",
            "exec \"$0\" /dev/fd/3 3<\"$1\"",
            "cat \"$1\" | \"$0\" /dev/stdin",
            "cd \"${1%/*}\"; exec \"$0\" \"${1##*/}\"",
            "cd \"${1%/*}\"; mv \"${1##*/}\" ./-x; exec \"$0\" ./-x",
        ] {
            let mut shell = program.shell(line);
            shell.arg(&file);
            program.is_right(&run(shell), input);
        }
    }
}

#[test]
#[ignore = "runs the built programs: .ci/run calls it behind rt ci"]
fn a_link_of_any_name_starts_it() {
    for program in [REPLAY, TO_TRACE, TO_TEXT, RESCUE] {
        let folder = Folder::new();
        let input = program.reads.first(3);
        symlink(program.launcher(), folder.path().join("a link")).expect("a link");
        symlink("a link", folder.path().join("again")).expect("a link");
        for line in ["'./a link'", "./again", "PATH=.:$PATH again", "\"$0\""] {
            let mut shell = program.shell(line);
            shell.current_dir(folder.path());
            program.is_right(&fed(shell, input), input);
        }
        let mut here = program.shell(&format!("./{} --x", program.name));
        here.current_dir(ROOT);
        run(here).is(b"", program.usage, 2);
    }
}

// The README

#[test]
#[ignore = "runs the built programs: .ci/run calls it behind rt ci"]
fn the_readme_shows_what_its_commands_write() {
    let root = Path::new(ROOT);
    let folder = Folder::new();
    for name in ["lessons", "replay", "rescue", "to-text", "to-trace", "why"] {
        symlink(root.join(name), folder.path().join(name)).expect("a link");
    }
    let readme = fs::read_to_string(root.join("README.md")).expect("the README");
    let examples = examples(&readme);
    assert!(!examples.is_empty());
    for (line, output) in examples {
        let mut shell = command("bash");
        shell.args(["-c", &format!("exec 2>&1; set -o pipefail\n{line}")]);
        shell.current_dir(folder.path());
        run(shell).is(output.as_bytes(), "", 0);
    }
}
