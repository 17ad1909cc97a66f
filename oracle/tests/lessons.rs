//! The tables of docs/LESSONS.md are the files of the lessons: the first column is the list of the
//! trace, the last one what the replay writes of it. Register accesses and bursts are in no trace: a
//! table of them is the stored list of that lesson. Of a damaged trace the lines of its rescue are
//! shown, and of the line that is up why it is. The picture of the bays has each index and label at
//! its row and column, that of the lanes each phase's bytes.

mod files;
mod shown;

use std::collections::BTreeSet;
use std::fs;
use std::ops::RangeInclusive;
use std::path::{Path, PathBuf};

use files::{entries, stem, text, ROOT};
use oracle::call::{Call, Given};
use oracle::replay;
use oracle::rescue::{lines_of, trace_of};
use oracle::why;
use oracle::{bays, narrow_bus, pins, zero_in_registers};
use shown::examples;

/// How the header of a table begins.
const ACCESSES: &str = "| kind side S A B C |";
const CALLS: &str = "| side offset direction dword |";
const BURSTS: &str = "| burst or access |";

/// The first column, and the last.
type Columns = (Vec<String>, Vec<String>);

fn spans(line: &str) -> Vec<&str> {
    line.split('`').skip(1).step_by(2).collect()
}

/// The traces that are named, in order.
fn names(document: &str) -> Vec<&str> {
    let spans = document.lines().flat_map(spans);
    spans
        .filter_map(|span| span.strip_prefix("lessons/")?.strip_suffix(".bin"))
        .collect()
}

/// The tables whose header begins so. A row begins with a span.
fn tables(document: &str, header: &str) -> Vec<Columns> {
    let mut tables: Vec<Columns> = Vec::new();
    let mut inside = false;
    for line in document.lines() {
        if line.starts_with(header) {
            tables.push(Default::default());
            inside = true;
        }
        inside &= line.starts_with('|');
        let spans = spans(line);
        if let ([first, .., last], true, Some(table)) = (&spans[..], inside, tables.last_mut()) {
            table.0.push(first.to_string());
            table.1.push(last.to_string());
        }
    }
    tables
}

/// The last lines of the replays, which stand below their tables.
fn ends(document: &str) -> Vec<&str> {
    let lines = document.lines();
    let ends = lines.filter(|line| line.starts_with("Then `end "));
    ends.map(|line| spans(line)[0]).collect()
}

fn lines(column: &[String]) -> String {
    column.iter().map(|line| format!("{line}\n")).collect()
}

/// The names of the traces, in order: the undamaged ones, which have a list, and the damaged ones.
fn traces() -> (Vec<String>, Vec<String>) {
    let files = entries(&Path::new(ROOT).join("lessons")).into_iter();
    let traces = files.filter(|path| path.extension().is_some_and(|end| end == "bin"));
    let (sound, damaged): (Vec<_>, Vec<_>) =
        traces.partition(|path| path.with_extension("list").exists());
    let names = |paths: Vec<_>| paths.iter().map(|path: &PathBuf| stem(path)).collect();
    (names(sound), names(damaged))
}

/// Whether the document has the lesson of a trace, which begins with the lesson's number.
fn has_lesson(document: &str, name: &str) -> bool {
    let number = name.split('-').next().unwrap_or_default();
    let heading = format!("## {}. ", number.trim_start_matches('0'));
    document.lines().any(|line| line.starts_with(&heading))
}

fn trace(name: &str) -> Vec<u8> {
    let path = Path::new(ROOT).join(format!("lessons/{name}.bin"));
    fs::read(path).expect("a lesson's trace")
}

#[test]
fn the_tables_are_the_lists_and_the_answers() {
    let root = Path::new(ROOT);
    let document = text(&root.join("docs/LESSONS.md"));
    let (mut names, tables, ends) = (
        names(&document),
        tables(&document, ACCESSES),
        ends(&document),
    );
    let (mut sound, damaged) = traces();
    // the lesson of a trace that is not told yet
    sound.retain(|name| name != LINE_UP || has_lesson(&document, name));
    let is_damaged = |name: &str| damaged.iter().any(|damaged| damaged == name);
    let named: BTreeSet<&str> = names
        .iter()
        .copied()
        .filter(|name| is_damaged(name))
        .collect();
    assert!(named.iter().eq(&damaged));
    names.retain(|name| !is_damaged(name));
    let mut sorted = names.clone();
    sorted.sort();
    assert_eq!(sorted, sound);
    assert_eq!(names.len(), tables.len());
    assert_eq!(names.len(), ends.len());
    for ((name, (list, answers)), end) in names.into_iter().zip(tables).zip(ends) {
        let file = |end| text(&root.join(format!("lessons/{name}.{end}")));
        assert_eq!(lines(&list), file("list"), "{name}");
        assert_eq!(lines(&answers) + end + "\n", file("txt"), "{name}");
    }
}

/// The lines of a rescue are shown below its command, as the README does it; and where the replay of
/// what is rescued is shown, that is right too.
#[test]
fn the_lines_of_each_rescue_are_shown() {
    let root = Path::new(ROOT);
    let document = text(&root.join("docs/LESSONS.md"));
    let examples = examples(&document);
    for name in traces().1 {
        let file = |end| text(&root.join(format!("lessons/{name}.{end}")));
        let rescue = format!("./rescue lessons/{name}.bin");
        let anew = format!("./rescue -t lessons/{name}.bin | ./replay");
        let shown = |line: &str| examples.iter().find(|(command, _)| *command == line);
        let (_, lines) = shown(&rescue).unwrap_or_else(|| panic!("{rescue}: not shown"));
        assert_eq!(*lines, file("entries"), "{rescue}");
        if let Some((_, lines)) = shown(&anew) {
            assert_eq!(*lines, file("rescued.txt"), "{anew}");
        }
    }
}

/// The capture without these bytes, and what its rescue writes.
#[track_caller]
fn is_without(name: &str, lost: RangeInclusive<usize>, lines: &[&str]) {
    let whole = trace("09-whole-capture");
    let (start, end) = (*lost.start(), *lost.end());
    let left = [&whole[..start], &whole[end + 1..]].concat();
    assert_eq!(trace(name), left);
    has_lines(name, lines);
    let file = Path::new(ROOT).join(format!("lessons/{name}.rescued.txt"));
    let rescued = replay::text(&trace_of(&left).0);
    assert_eq!(text(&file).into_bytes(), rescued);
}

#[track_caller]
fn has_lines(name: &str, lines: &[&str]) {
    let file = text(&Path::new(ROOT).join(format!("lessons/{name}.entries")));
    assert_eq!(file.lines().collect::<Vec<_>>(), lines);
    assert_eq!(file.into_bytes(), lines_of(&trace(name)).0);
}

#[test]
fn the_damaged_traces_have_lost_these_bytes() {
    // 46 bytes, from record 2's second byte to record 4's seventh
    let lines = [
        "kept 0 0",
        "kept 20 1",
        "skipped 40 14",
        "doubtful 54 5",
        "kept 74 6",
    ];
    is_without(
        "09-lost-middle",
        41..=86,
        &[&lines[..], &["end 4 1 14"]].concat(),
    );
    // the first 30
    let lines = [
        "doubtful 10 2",
        "kept 30 3",
        "kept 50 4",
        "kept 70 5",
        "kept 90 6",
    ];
    let lines = [&["skipped 0 10"], &lines[..], &["end 5 1 10"]].concat();
    is_without("09-lost-start", 0..=29, &lines);
    // 20, from the middle of record 1 to the middle of record 2
    let lines = ["doubtful 40 3", "kept 60 4", "kept 80 5", "kept 100 6"];
    let lines = [&["kept 0 0", "kept 20 1"], &lines[..], &["end 6 1 0"]].concat();
    is_without("09-false-record", 30..=49, &lines);
    let lines = [
        "skipped 0 8",
        "kept 8 0",
        "kept 28 1",
        "kept 48 2",
        "skipped 68 12",
    ];
    has_lines("09-never-back", &[&lines[..], &["end 3 0 20"]].concat());
}

/// An undamaged trace is kept whole, nothing doubtful.
#[test]
fn an_undamaged_trace_is_given_back() {
    let (sound, _) = traces();
    assert!(sound.len() >= 10);
    for name in sound {
        let trace = trace(&name);
        let (anew, counts) = trace_of(&trace);
        assert_eq!(anew, trace, "{name}");
        assert_eq!((counts.doubtful, counts.skipped), (0, 0), "{name}");
    }
}

const LINE_UP: &str = "10-line-up";

/// The questions of the lesson, side and position, and what is told.
const QUESTIONS: [(&str, &str, &str); 5] = [
    ("0", "4", "set by record 0\n"),
    ("1", "4", "why 42\n"),
    ("0", "3", "cleared by record 6\n"),
    ("1", "3", "never raised\n"),
    (
        "1",
        "6",
        "set: 2 held\nentry 7 put by record 8\nentry 0 put by record 10\n",
    ),
];

/// What is told of a trace of the lessons.
fn told(name: &str, side: &str, position: &str) -> String {
    let told = why::asked(&trace(name), side.as_bytes(), position.as_bytes());
    told.map_or(why::USAGE.to_string(), |told| why::lines(&told))
}

#[test]
fn the_line_is_up_for_these_reasons() {
    for (side, position, lines) in QUESTIONS {
        assert_eq!(told(LINE_UP, side, position), lines);
    }
}

/// What a command asks, if it is one question of a lesson's trace: name, side and position.
fn question(command: &str) -> Option<[&str; 3]> {
    let words: Vec<&str> = command.split(' ').collect();
    let ["./why", file, side, position] = words[..] else {
        return None;
    };
    let name = file.strip_prefix("lessons/")?.strip_suffix(".bin")?;
    Some([name, side, position])
}

/// Below each question stands what is told; and its lesson shows all of its own.
#[test]
fn what_is_told_is_shown() {
    let [readme, lessons] =
        ["README.md", "docs/LESSONS.md"].map(|path| text(&Path::new(ROOT).join(path)));
    for document in [&readme, &lessons] {
        for (command, shown) in examples(document) {
            if let Some([name, side, position]) = question(command) {
                assert_eq!(shown, told(name, side, position), "{command}");
            }
        }
    }
    if has_lesson(&lessons, LINE_UP) {
        let examples = examples(&lessons);
        let shown: Vec<_> = examples.iter().map(|(line, _)| question(line)).collect();
        for (side, position, _) in QUESTIONS {
            let asked = [LINE_UP, side, position];
            assert!(shown.contains(&Some(asked)), "{asked:?}: not shown");
        }
    }
}

/// The calls of a stored list, and what each gave.
fn columns(stored: Vec<(Call, Given)>) -> Columns {
    let columns = stored.into_iter();
    columns
        .map(|(call, given)| (call.to_string(), given.to_string()))
        .unzip()
}

#[test]
fn the_table_of_calls_is_the_stored_list() {
    let document = text(&Path::new(ROOT).join("docs/LESSONS.md"));
    assert_eq!(tables(&document, CALLS), [columns(zero_in_registers())]);
    assert_eq!(tables(&document, BURSTS), [columns(narrow_bus())]);
}

/// A line of the picture of lanes: mode and pins, then of both dwords the bytes that a phase carries
/// to its lanes, and whether the address advances behind it.
fn lanes_line(mode: u8, pins: u8, data: u32, second: bool) -> String {
    let decoded = pins::decode(mode, pins, data);
    let bytes = decoded.dword.to_le_bytes();
    let byte = |lane: usize| match decoded.lanes >> lane & 1 {
        0 => format!("{:02x}", bytes[lane]),
        _ => "..".to_string(),
    };
    let here = [0, 1, 2, 3].map(byte).join(" ");
    let none = [".."; 4].join(" ");
    let (first, second) = if second {
        (&none, &here)
    } else {
        (&here, &none)
    };
    let advances = match mode {
        0 => pins / 4 == 3,
        1 => pins / 8 == 1,
        _ => true,
    };
    let line = format!("    {mode}      {pins:04b}    │       {first} │       {second} │");
    line + if advances { " next dword" } else { "" }
}

#[test]
fn the_picture_of_lanes_is_the_bursts() {
    let document = text(&Path::new(ROOT).join("docs/LESSONS.md"));
    let is_phase = |line: &&str| line.starts_with("    ") && line.matches("..").count() >= 4;
    let pictured: Vec<&str> = document.lines().filter(is_phase).collect();
    let mut lines = Vec::new();
    for (call, _) in &narrow_bus()[..7] {
        let Call::BurstWrite(burst) = call else {
            continue;
        };
        let mut second = false;
        for phase in &burst.phases {
            let line = lanes_line(burst.mode, phase.pins as u8, phase.data, second);
            second |= line.ends_with("dword");
            lines.push(line);
        }
    }
    assert_eq!(pictured, lines);
}

/// The numbers in a line of the picture, if each of its cells is this word and a number.
fn cells(line: &str, word: &str) -> Option<Vec<u8>> {
    let (_, cells) = line.strip_suffix('│')?.split_once('│')?;
    let number = |cell: &str| cell.trim().strip_prefix(word)?.trim().parse().ok();
    cells.split('│').map(number).collect()
}

/// The lines of the picture whose cells are this word and a number.
fn pictured(document: &str, word: &str) -> Vec<Vec<u8>> {
    let lines = document.lines();
    lines.filter_map(|line| cells(line, word)).collect()
}

/// "four rows and six columns"
fn by_place(number: fn(u8, u8) -> u8) -> [[u8; 6]; 4] {
    [0, 1, 2, 3].map(|row| [0, 1, 2, 3, 4, 5].map(|column| number(row, column)))
}

#[test]
fn the_picture_is_the_bays() {
    let document = text(&Path::new(ROOT).join("docs/LESSONS.md"));
    let (labels, indexes) = (pictured(&document, "label "), pictured(&document, "index "));
    assert_eq!(labels, by_place(|row, column| 6 * row + column + 1));
    assert_eq!(indexes, by_place(|row, column| 4 * column + row));
    for (label, index) in labels.concat().into_iter().zip(indexes.concat()) {
        assert_eq!(bays::label(index), Some(label));
        assert_eq!(bays::index(label), Some(index));
    }
}
