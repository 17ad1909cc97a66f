//! The traces of the lessons, which stand beside this crate, their lists, and what the programs
//! write of them. One lesson has damaged traces: they are made here.

use std::fs;
use std::ops::RangeInclusive;
use std::path::{Path, PathBuf};

use crate::access::{kind, Access};
use crate::convert::{list_of, trace_of};
use crate::replay::text;
use crate::rescue;
use crate::stored::Stored;
use crate::trace::trace;

const LESSONS: &str = concat!(env!("CARGO_MANIFEST_DIR"), "/../lessons");

/// How the files of a lesson end.
const TRACE: &str = "bin";
const LIST: &str = "list";
const ANSWERS: &str = "txt";
/// The lines of a rescue; and what the replay writes of the trace that is rescued.
const ENTRIES: &str = "entries";
const RESCUED: &str = "rescued.txt";

/// The capture of which the damaged traces have lost some bytes.
const WHOLE: &str = "09-whole-capture";
/// Of each its name, and what it has lost.
const LOST: [(&str, RangeInclusive<usize>); 3] = [
    ("09-lost-middle", 41..=86),
    ("09-lost-start", 0..=29),
    // the front of record 1 and the end of record 2 are kept as record 1 without doubt
    ("09-false-record", 30..=49),
];
/// The scan never gets back to a boundary, and nothing is doubtful.
const NEVER_BACK: &str = "09-never-back";
/// The line is up, and it is asked why.
const LINE_UP: &str = "10-line-up";

/// The files of the lessons, in the order of their names.
fn paths() -> Vec<PathBuf> {
    let entries = fs::read_dir(LESSONS).expect("the folder of the lessons");
    let mut paths: Vec<PathBuf> = entries.flatten().map(|entry| entry.path()).collect();
    paths.sort();
    paths
}

fn is_trace(path: &Path) -> bool {
    path.extension().is_some_and(|end| end == TRACE)
}

fn name(path: &Path) -> String {
    let name = path.file_stem().unwrap_or_default();
    name.to_string_lossy().into_owned()
}

fn is_damaged(name: &str) -> bool {
    name == NEVER_BACK || LOST.iter().any(|(lost, _)| *lost == name)
}

/// The undamaged traces by their names.
fn named() -> Vec<(String, Vec<u8>)> {
    let mut paths = paths();
    paths.retain(|path| is_trace(path) && !is_damaged(&name(path)));
    let trace = |path: PathBuf| (name(&path), fs::read(path).expect("a lesson's trace"));
    paths.into_iter().map(trace).collect()
}

/// The traces that are there to be replayed. Those of the rescue stand among its own cases, and so
/// does the one of which it is asked why a line is up.
pub fn traces() -> Vec<Vec<u8>> {
    let mut named = named();
    named.retain(|(name, _)| name != WHOLE && name != LINE_UP);
    named.into_iter().map(|(_, trace)| trace).collect()
}

/// An undamaged trace by its name.
fn of_name(wanted: &str) -> Vec<u8> {
    let found = named().into_iter().find(|(name, _)| name == wanted);
    found.unwrap_or_else(|| panic!("{wanted}: no trace")).1
}

/// The whole capture of the rescue's lesson.
fn whole() -> Vec<u8> {
    of_name(WHOLE)
}

/// The trace of which it is asked why a line is up.
pub fn of_why() -> Vec<u8> {
    of_name(LINE_UP)
}

/// The damaged traces by their names.
fn damaged() -> Vec<(&'static str, Vec<u8>)> {
    let whole = whole();
    let mut damaged: Vec<(&str, Vec<u8>)> = LOST
        .into_iter()
        .map(|(name, lost)| {
            let mut left = whole.clone();
            left.drain(lost);
            (name, left)
        })
        .collect();
    damaged.push((NEVER_BACK, never_back()));
    damaged
}

/// Records with a mark in A, and a number and zeros behind it. The first one's own mark is
/// overwritten.
fn never_back() -> Vec<u8> {
    let access = |i: u32| Access::new(kind::SHARED_READ, 0, 0, 0x5042 + 65_536 * i, 0, 0);
    let accesses: Vec<Access> = (0..4).map(access).collect();
    let mut trace = trace(&accesses);
    trace[0] = 0;
    trace
}

/// The traces of the rescue's lesson, the whole one first.
pub fn of_rescue() -> Vec<Vec<u8>> {
    let damaged = damaged().into_iter().map(|(_, trace)| trace);
    [whole()].into_iter().chain(damaged).collect()
}

/// What stands beside each undamaged trace: its list, and what the replay writes of it. The damaged
/// traces, and what a rescue writes of them and of the whole one.
pub fn files() -> Vec<Stored> {
    let mut files = Vec::new();
    for (name, trace) in named() {
        let (list, _) = list_of(&trace);
        assert!(trace_of(&list).0 == trace, "{name}: no list gives it");
        files.push(stored(&name, LIST, list));
        files.push(stored(&name, ANSWERS, text(&trace)));
    }
    files.push(stored(WHOLE, ENTRIES, rescue::lines_of(&whole()).0));
    for (name, trace) in damaged() {
        files.push(stored(name, ENTRIES, rescue::lines_of(&trace).0));
        // of the other one nothing true is left to be replayed
        if name != NEVER_BACK {
            let (rescued, _) = rescue::trace_of(&trace);
            files.push(stored(name, RESCUED, text(&rescued)));
        }
        files.push(stored(name, TRACE, trace));
    }
    files
}

/// A file that is no trace, and not one of these. It may be all that there is of a lesson, so it is
/// told of and not removed.
pub fn without_trace(files: &[Stored]) -> Option<String> {
    paths().iter().find_map(|path| {
        let file = path.file_name().unwrap_or_default().to_string_lossy();
        let path = format!("../lessons/{file}");
        let written = files.iter().any(|file| file.path == path);
        (!written && !is_trace(Path::new(&path))).then_some(path)
    })
}

/// A lesson's file, seen from the crates.
fn stored(name: &str, end: &str, bytes: Vec<u8>) -> Stored {
    Stored::new(format!("../lessons/{name}.{end}"), bytes)
}
