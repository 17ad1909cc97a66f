//! The launcher builds a program that is missing or old, once, and tells of it. A small repository
//! stands in for this one, a script for `rt`, and `cat` for the program.

mod support;

use std::fs::{self, File};
use std::io::{self, BufRead, BufReader, Read, Write};
use std::os::unix::fs::{symlink, PermissionsExt};
use std::path::{Path, PathBuf};
use std::process::{Child, ChildStderr, Command, Stdio};
use std::sync::{Mutex, MutexGuard, PoisonError};
use std::time::{Duration, SystemTime};

use oracle::why::USAGE;

use support::{command, fed, run, Ended, Folder, ROOT};

/// All that the launcher calls besides `rt`, and what the scripts here call.
const TOOLS: [&str; 18] = [
    "awk", "bash", "cat", "chmod", "cmp", "dirname", "env", "find", "flock", "grep", "ls", "mkdir",
    "readlink", "rm", "sh", "tail", "tee", "touch",
];

/// The crates that are programs of these tests.
const PROGRAMS: [&str; 5] = [
    "replay",
    "to_trace",
    "rescue_list",
    "rescue_trace",
    "why_program",
];

const CRATES: &str = "# the crates\nbase:\nother: base\nmiddle: base io\n\
                      replay: middle base io\nto_trace: base middle io\n\
                      rescue_list: middle io\nrescue_trace: middle base io\n\
                      why_program: middle io\n";

/// Links a program where it finds no stamp, and runs it, as `rt run` does in the folder of a crate. The
/// program's own input is what it must write.
const RT: &str = r#"#!/bin/sh
crate=${PWD##*/}
echo "$@ $crate" >>../../calls
exec 3>&1 1>&2
echo 'rt: chose --jobs 2 for base'
echo 'crate base: modules loaded=0 checked=40'
echo 'logic=proved functions=1'
echo 'crate middle: modules loaded=1 checked=7'
echo 'logic=proved functions=12'
echo 'a word of the prover'
echo "crate $crate: modules loaded=8 checked=1"
echo 'logic=proved functions=3'
if [ ! -f out/$crate.stamp ] || [ ! -f out/$crate ]; then
    mkdir -p out
    printf '#!/bin/sh\nexec cat\n' >out/$crate
    chmod +x out/$crate
    touch out/$crate.stamp
fi
echo "rt: running out/$crate; to give it other input, run that file yourself"
shift 2
out/$crate "$@" >&3 3>&-
"#;

const BUILDING: &str = "replay: building the program, and proving every crate that it stands on; \
                        this takes some minutes, once\n";
const BUILT: &str = "replay: building: 1 of at most 3 proved: base\n\
                     replay: building: 2 of at most 3 proved: middle\n\
                     replay: building: 3 of at most 3 proved: replay\n";

const INPUT: &[u8] = b"what the program reads, and nobody before it\n";

struct Repository {
    folder: Folder,
    /// One at a time: a script cannot be started while another test's child, before it is a program
    /// of its own, has it open for writing.
    _alone: MutexGuard<'static, ()>,
}

impl Repository {
    fn new() -> Repository {
        static ALONE: Mutex<()> = Mutex::new(());
        let repository = Repository {
            folder: Folder::new(),
            _alone: ALONE.lock().unwrap_or_else(PoisonError::into_inner),
        };
        for name in ["launch", "replay", "to-trace"] {
            repository.copy(name);
        }
        for program in PROGRAMS {
            let source = repository.path(&format!("crates/{program}/src"));
            fs::create_dir_all(source).expect("a new folder");
            let main = format!("crates/{program}/src/main.rt");
            repository.folder.file(&main, b"");
            for part in ["stdin", "stdout"] {
                let part = format!("crates/{program}/{part}");
                repository.folder.file(&part, b"what it must write\n");
            }
        }
        fs::create_dir(repository.path("tools")).expect("a new folder");
        repository.folder.file("crates.txt", CRATES.as_bytes());
        for tool in TOOLS {
            let link = repository.path("tools").join(tool);
            symlink(found(tool), link).expect("a link");
        }
        repository
    }

    fn with_rt(script: &str) -> Repository {
        let repository = Repository::new();
        let rt = repository.folder.file("tools/rt", script.as_bytes());
        fs::set_permissions(rt, fs::Permissions::from_mode(0o755)).expect("our own file");
        repository
    }

    fn path(&self, name: &str) -> PathBuf {
        self.folder.path().join(name)
    }

    fn copy(&self, name: &str) {
        let from = PathBuf::from(ROOT).join(name);
        fs::copy(from, self.path(name)).expect("a file of the launcher");
    }

    fn with_rescue() -> Repository {
        let repository = Repository::with_rt(RT);
        repository.copy("rescue");
        repository
    }

    /// The launcher of two programs, of which an option chooses one.
    fn rescue(&self, words: &[&str]) -> Command {
        let mut rescue = self.command(self.path("rescue"));
        rescue.args(words);
        rescue
    }

    /// What stands in for the program tells its arguments first.
    fn with_why() -> Repository {
        let repository = Repository::with_rt(&RT.replace("exec cat", "echo \"$@\"\\nexec cat"));
        repository.copy("why");
        repository.folder.file("crates/why_program/args", b"1\n6\n");
        let wrote = b"1 6\nwhat it must write\n";
        repository.folder.file("crates/why_program/stdout", wrote);
        repository
    }

    /// The launcher of a program with arguments.
    fn why(&self, words: &[&str]) -> Command {
        let mut why = self.command(self.path("why"));
        why.args(words);
        why
    }

    fn command(&self, program: impl AsRef<Path>) -> Command {
        let mut command = command(program);
        command.env("PATH", self.path("tools"));
        command
    }

    fn replay(&self) -> Command {
        self.command(self.path("replay"))
    }

    fn start(&self) -> Ended {
        fed(self.replay(), INPUT)
    }

    fn calls(&self) -> String {
        fs::read_to_string(self.path("calls")).unwrap_or_default()
    }

    /// All else is newer.
    fn make_old(&self) {
        self.set_modified("crates/replay/out/replay", SystemTime::UNIX_EPOCH);
    }

    fn set_modified(&self, name: &str, time: SystemTime) {
        let file = File::options().append(true).open(self.path(name));
        let aged = file.expect("a file").set_modified(time);
        aged.expect("our own file");
    }

    /// What `rt ci` leaves of the replay: the program, and what it wrote when it was run.
    fn with_checked(wrote: &[u8]) -> Repository {
        let repository = Repository::with_rt(RT);
        let out = repository.path("crates/replay/out");
        fs::create_dir(out).expect("a new folder");
        let program = b"#!/bin/sh\nexec cat\n";
        let program = repository.folder.file("crates/replay/out/replay", program);
        fs::set_permissions(program, fs::Permissions::from_mode(0o755)).expect("our own file");
        repository.folder.file("crates/replay/out/stdout", wrote);
        repository
    }
}

/// The tool's place on the path.
fn found(tool: &str) -> PathBuf {
    let path = std::env::var_os("PATH").unwrap_or_default();
    let mut places = std::env::split_paths(&path).map(|folder| folder.join(tool));
    let place = places.find(|place| place.exists());
    place.unwrap_or_else(|| panic!("{tool} is not on the path"))
}

fn is_built_and_run(ended: &Ended) {
    ended.is(INPUT, &format!("{BUILDING}{BUILT}"), 0);
}

fn is_run(ended: &Ended) {
    ended.is(INPUT, "", 0);
}

#[test]
fn what_is_missing_is_built_once() {
    let repository = Repository::with_rt(RT);
    is_built_and_run(&repository.start());
    is_run(&repository.start());
    assert_eq!(repository.calls(), "run -- replay\n");
}

#[test]
fn what_is_old_is_built_once_more() {
    let repository = Repository::with_rt(RT);
    is_built_and_run(&repository.start());
    repository.make_old();
    is_built_and_run(&repository.start());
    is_run(&repository.start());
}

#[test]
fn what_was_not_run_or_was_removed_is_built_again() {
    let repository = Repository::with_rt(RT);
    for part in ["out/stdout", "out/replay", "out"] {
        is_built_and_run(&repository.start());
        let part = repository.path("crates/replay").join(part);
        let removed = if part.is_dir() {
            fs::remove_dir_all(part)
        } else {
            fs::remove_file(part)
        };
        removed.expect("a part of the build");
    }
}

#[test]
fn what_is_made_of_a_newer_file_is_old() {
    for part in [
        "crates.txt",
        "crates/replay/stdout",
        "crates/why_program/src/main.rt",
    ] {
        let repository = Repository::with_rt(RT);
        is_built_and_run(&repository.start());
        let later = SystemTime::now() + Duration::from_secs(60);
        repository.set_modified(part, later);
        repository.start();
        assert_eq!(
            repository.calls(),
            "run -- replay\nrun -- replay\n",
            "{part}"
        );
    }
}

/// Nothing of a program is made of what `rt` makes of any crate.
#[test]
fn what_rt_makes_is_no_source() {
    let repository = Repository::with_rt(RT);
    is_built_and_run(&repository.start());
    let out = repository.path("crates/to_trace/out/rlib");
    fs::create_dir_all(out).expect("a new folder");
    for name in ["crates/replay/out/later", "crates/to_trace/out/rlib/later"] {
        repository.folder.file(name, b"");
        let later = SystemTime::now() + Duration::from_secs(60);
        repository.set_modified(name, later);
    }
    is_run(&repository.start());
    assert_eq!(repository.calls(), "run -- replay\n");
}

#[test]
fn what_the_gate_ran_well_is_not_built_again() {
    let repository = Repository::with_checked(b"what it must write\n");
    is_run(&repository.start());
    assert_eq!(repository.calls(), "");
    repository.make_old();
    is_built_and_run(&repository.start());
    assert_eq!(repository.calls(), "run -- replay\n");
}

#[test]
fn what_the_gate_ran_and_found_wrong_is_built_again() {
    let repository = Repository::with_checked(b"what it must not write\n");
    is_built_and_run(&repository.start());
    assert_eq!(repository.calls(), "run -- replay\n");
}

#[test]
fn a_dash_in_a_name_is_an_underscore_in_its_crate() {
    let repository = Repository::with_rt(RT);
    let told = format!("{BUILDING}{BUILT}").replace("replay: ", "to-trace: ");
    let told = told.replace("proved: replay", "proved: to_trace");
    for told in [&told, ""] {
        let to_trace = repository.command(repository.path("to-trace"));
        fed(to_trace, INPUT).is(INPUT, told, 0);
    }
    assert_eq!(repository.calls(), "run -- to_trace\n");
}

#[test]
fn an_option_chooses_the_crate() {
    let repository = Repository::with_rescue();
    let file = repository.folder.file("a capture.bin", INPUT);
    let file = file.to_str().expect("a name of letters");
    for (options, chosen) in [(&[][..], "rescue_list"), (&["-t"], "rescue_trace")] {
        let told = format!("{BUILDING}{BUILT}").replace("replay: ", "rescue: ");
        let told = told.replace("proved: replay", &format!("proved: {chosen}"));
        for told in [&told, ""] {
            fed(repository.rescue(options), INPUT).is(INPUT, told, 0);
        }
        let words = [options, &[file]].concat();
        is_run(&run(repository.rescue(&words)));
    }
    assert_eq!(
        repository.calls(),
        "run -- rescue_list\nrun -- rescue_trace\n"
    );
}

#[test]
fn a_wrong_option_gets_the_usage_and_nothing_is_built() {
    let repository = Repository::with_rescue();
    let help = run(repository.rescue(&["--help"])).out;
    assert!(help.starts_with(b"usage: ./rescue ") && help.ends_with(b"\n"));
    let usage = String::from_utf8(help).expect("the usage is a text");
    for words in [
        &["-x"][..],
        &["--x"],
        &["-t", "-x"],
        &["-t", "-t"],
        &["-t", "one", "two"],
        &["one", "-t"],
        &["one", "two"],
    ] {
        run(repository.rescue(words)).is(b"", &usage, 2);
    }
    let told = "rescue: missing: there is no such file, or it cannot be read\n";
    for words in [&["missing"][..], &["-t", "missing"]] {
        run(repository.rescue(words)).is(b"", told, 1);
    }
    assert_eq!(repository.calls(), "");
}

#[test]
fn side_and_position_go_to_the_program() {
    let repository = Repository::with_why();
    let file = repository.folder.file("a capture.bin", INPUT);
    let file = file.to_str().expect("a name of letters");
    let told = format!("{BUILDING}{BUILT}").replace("replay: ", "why: ");
    let told = told.replace("proved: replay", "proved: why_program");
    for told in [&told, ""] {
        let out = [b"0 4\n", INPUT].concat();
        run(repository.why(&[file, "0", "4"])).is(&out, told, 0);
    }
    // as they are written
    let out = [b"18446744073709551616 10\n", INPUT].concat();
    let words = [file, "18446744073709551616", "10"];
    run(repository.why(&words)).is(&out, "", 0);
    assert_eq!(repository.calls(), "run -- 1 6 why_program\n");
}

#[test]
fn without_three_words_nothing_is_built() {
    let repository = Repository::with_why();
    let file = repository.folder.file("capture.bin", INPUT);
    let file = file.to_str().expect("a name of letters");
    for word in ["-h", "--help"] {
        run(repository.why(&[word])).is(USAGE.as_bytes(), "", 0);
    }
    for words in [
        &[][..],
        &[file],
        &[file, "0"],
        &[file, "0", "4", "4"],
        &["-x"],
        &["--help", "0"],
    ] {
        run(repository.why(words)).is(b"", USAGE, 2);
    }
    let told = "why: missing: there is no such file, or it cannot be read\n";
    run(repository.why(&["missing", "0", "4"])).is(b"", told, 1);
    assert_eq!(repository.calls(), "");
}

/// The program tells what is no decimal: it writes the usage.
#[test]
fn the_usage_of_the_program_is_that_of_the_launcher() {
    let tells = format!("echo {} >&2", USAGE.trim_end());
    let repository = Repository::with_rt(&RT.replace("exec cat", &tells));
    repository.copy("why");
    repository.folder.file("crates/why_program/stdout", b"");
    let file = repository.folder.file("capture.bin", INPUT);
    let file = file.to_str().expect("a name of letters");
    // the first one may build it
    run(repository.why(&[file, "0", "04"]));
    run(repository.why(&[file, "0", "04"])).is(b"", USAGE, 2);
}

#[test]
fn a_failed_build_is_told_and_nothing_is_run() {
    let many = "i=0\nwhile [ $i -lt 30 ]; do i=$((i + 1)); echo line $i; done\nexit 1\n";
    let repository = Repository::with_rt(&format!("#!/bin/sh\nexec 1>&2\n{many}"));
    let last: String = (11..=30).map(|i| format!("line {i}\n")).collect();
    let log = repository.path("crates/replay/out/build.log");
    let log = log.display();
    let told = format!("replay: the program could not be built; {log} has all that rt said\n");
    for _ in 0..2 {
        repository
            .start()
            .is(b"", &format!("{BUILDING}{last}{told}"), 1);
    }
}

/// A program may be proved and still not be run right: its reading and writing are in no promise.
#[test]
fn what_writes_something_else_in_its_own_run_is_not_started() {
    let repository = Repository::with_rt(RT);
    let stdout = b"something else\n";
    repository.folder.file("crates/replay/stdout", stdout);
    for _ in 0..2 {
        let ended = repository.start();
        assert_eq!((ended.status, &ended.out[..]), (1, &b""[..]));
    }
    assert_eq!(repository.calls(), "run -- replay\n".repeat(2));
}

/// `rt` leaves the program of an earlier build, and its stamp, where a library is no longer proved.
#[test]
fn what_was_built_before_is_not_run_where_a_build_fails() {
    let fails = "[ ! -f ../../broken ] || exit 1\nexec 3>&1 1>&2\n";
    let repository = Repository::with_rt(&RT.replace("exec 3>&1 1>&2\n", fails));
    is_built_and_run(&repository.start());
    repository.folder.file("broken", b"");
    repository.make_old();
    let log = repository.path("crates/replay/out/build.log");
    let log = log.display();
    let told = format!("replay: the program could not be built; {log} has all that rt said\n");
    for _ in 0..2 {
        repository.start().is(b"", &format!("{BUILDING}{told}"), 1);
    }
}

/// What stands in for the program ignores the signal, and says that it could not write.
#[test]
fn a_reader_that_goes_away_is_told_of_where_the_signal_was_ignored() {
    let cat = "trap '' PIPE\\ncat 2>&- || echo writing failed after 0 records >&2";
    let repository = Repository::with_rt(&RT.replace("exec cat", cat));
    is_built_and_run(&repository.start());
    let failed = "replay: writing failed after 0 records\n";
    let unread = || -> Stdio { io::pipe().expect("a pipe").1.into() };
    for (line, told, status) in [
        ("exec \"$0\"", "", 141),
        ("trap '' PIPE; exec \"$0\"", failed, 1),
    ] {
        let mut shell = repository.command("bash");
        shell.args(["-c", line]).arg(repository.path("replay"));
        shell.stdout(unread());
        fed(shell, INPUT).is(b"", told, status);
    }
    let full = File::options().write(true).open("/dev/full");
    let mut replay = repository.replay();
    replay.stdout(full.expect("a device that is always full"));
    fed(replay, INPUT).is(b"", failed, 1);
}

#[test]
fn a_missing_kit_is_told() {
    let why = "not built, and the Rattle kit (rt), which builds it, is not on the path";
    Repository::new()
        .start()
        .is(b"", &format!("replay: {why}\n"), 1);
}

#[test]
fn the_program_gets_the_standard_three_and_nothing_else() {
    // its own run has what the launcher and rt hold too
    let own_run = "out/$crate \"$@\" >&3 3>&-";
    let rt = RT.replace("cat", "ls /proc/self/fd");
    let repository = Repository::with_rt(&rt.replace(own_run, "cat stdout >&3"));
    let mut alone = command("ls");
    alone.arg("/proc/self/fd");
    let alone = run(alone).out;
    let after_a_build = repository.start();
    after_a_build.is(&alone, &format!("{BUILDING}{BUILT}"), 0);
    repository.start().is(&alone, "", 0);
}

#[test]
fn nothing_is_built_for_wrong_arguments_or_a_missing_file() {
    let repository = Repository::with_rt(RT);
    for (word, status) in [("--help", 0), ("--x", 2), ("missing", 1)] {
        let mut replay = repository.replay();
        replay.arg(word);
        assert_eq!(run(replay).status, status);
    }
    assert_eq!(repository.calls(), "");
}

fn started(mut command: Command) -> (Child, BufReader<ChildStderr>) {
    let mut child = command.spawn().expect("the launcher starts");
    let said = child.stderr.take().expect("a pipe");
    (child, BufReader::new(said))
}

#[track_caller]
fn next_line_is(said: &mut impl BufRead, expected: &str) {
    let mut line = String::new();
    said.read_line(&mut line).expect("what the launcher says");
    assert_eq!(line, expected);
}

#[track_caller]
fn rest_is(mut said: impl Read, expected: &str) {
    let mut rest = String::new();
    said.read_to_string(&mut rest)
        .expect("what the launcher says");
    assert_eq!(rest, expected);
}

#[test]
fn of_two_that_start_together_one_builds() {
    let waits = RT.replace("crate=", "read -r _ <../../gate\ncrate=");
    let repository = Repository::with_rt(&waits);
    let gate = repository.path("gate");
    let made = Command::new("mkfifo").arg(&gate).status();
    assert!(made.expect("a new pipe").success());
    let gate = File::options().read(true).write(true).open(gate);
    let mut gate = gate.expect("both ends of the pipe");

    let (first, mut first_said) = started(repository.replay());
    next_line_is(&mut first_said, BUILDING);
    let (second, mut second_said) = started(repository.replay());
    next_line_is(&mut second_said, "replay: waiting for another build\n");
    gate.write_all(b"go on\n").expect("the pipe has room");

    rest_is(first_said, BUILT);
    rest_is(second_said, "");
    for child in [first, second] {
        Ended::of(child).is(b"", "", 0);
    }
    assert_eq!(repository.calls(), "run -- replay\n");
}

#[test]
fn two_programs_of_a_pipeline_are_built_one_after_the_other() {
    let repository = Repository::with_rt(&format!("{RT}echo built >>../../calls\n"));
    let mut pipeline = repository.command("bash");
    pipeline.args(["-c", "set -o pipefail; \"$0\" | \"$1\""]);
    pipeline.args([repository.path("replay"), repository.path("to-trace")]);
    let ended = fed(pipeline, INPUT);
    assert_eq!((ended.out.as_slice(), ended.status), (INPUT, 0));
    let (one, other) = ("run -- replay\nbuilt\n", "run -- to_trace\nbuilt\n");
    let calls = repository.calls();
    assert!(calls == [one, other].concat() || calls == [other, one].concat());
}
