//! Each must-fail edit is refused because a fact no longer holds, and not for how it is written.
//!
//! `rt ci` tells of each edit what came of it, in a line: `rt: must-fail CRATE/LABEL.edit: `, then
//! `refused, as it must be: ` and the first thing that the prover said of it and that stands by
//! itself, cut behind 160 characters. `.ci/run` keeps the lines in the file that `RT_CI_LOG` names.
//! What was said must not be one of these.
//!
//! 1. A name out of scope.
//! 2. A text that cannot be read.
//! 3. A goal, or a path to one, that the proof names and that is gone: the code has another shape.
//! 4. An error on the very line that the edit changed: what stands there has no type.
//!
//! Nor may it follow from another, or be left out: then a promise or a need must be left unproved.

mod files;

use files::{entries, stem, text, ROOT};
use std::collections::BTreeSet;
use std::path::Path;

// What rt ci says

/// A line of a file, from the folder of the crate.
type Place = (String, usize);

/// What came of an edit that was tried.
#[derive(Debug, PartialEq)]
enum Outcome<'a> {
    /// The first thing that was said.
    Refused(&'a str),
    /// For nothing but names in the files of a proof, which the edit took away.
    OnlyNames(&'a str),
    /// The prover gave no verdict, which counts for `rt ci`.
    AtLimit(&'a str),
    /// A bad edit, one that was not tried, or one that was not refused.
    Not(&'a str),
}

impl Outcome<'_> {
    fn read(said: &str) -> Outcome<'_> {
        let Some(rest) = said.strip_prefix("refused, as it must be") else {
            return Outcome::Not(said);
        };
        if rest.starts_with(" (only because a proof file names what the edit took away") {
            Outcome::OnlyNames(said)
        } else if rest.starts_with(" (only by a limit of the prover") {
            Outcome::AtLimit(said)
        } else {
            Outcome::Refused(rest.strip_prefix(": ").unwrap_or_default())
        }
    }
}

/// What `rt ci` says of the edit `CRATE/LABEL`.
fn said_of<'a>(log: &'a str, edit: &str) -> Option<&'a str> {
    let begins = format!("rt: must-fail {edit}.edit: ");
    log.lines().find_map(|line| line.strip_prefix(&begins))
}

struct Refusal<'a> {
    place: Place,
    /// In one line, and cut.
    text: &'a str,
}

impl Refusal<'_> {
    /// `PATH:LINE:COLUMN: error: TEXT`, with a path in the folder of the crate.
    fn read(said: &str) -> Option<Refusal<'_>> {
        let (place, text) = said.split_once(": error: ")?;
        let place = place.strip_prefix("./").unwrap_or(place);
        let (file, numbers) = place.split_once(':')?;
        let (line, _column) = numbers.split_once(':')?;
        Some(Refusal {
            place: (file.to_string(), line.parse().ok()?),
            text,
        })
    }

    /// The declaration that is named first, as in "`name`: text", and the rest. An error of a whole
    /// file names none.
    fn parts(&self) -> (Option<&str>, &str) {
        let named = self.text.strip_prefix('`');
        match named.and_then(|text| text.split_once("`: ")) {
            Some((name, rest)) if !name.contains('`') => (Some(name), rest),
            _ => (None, self.text),
        }
    }

    /// Whether something else is what was refused.
    fn is_consequence(&self) -> bool {
        self.text
            .contains(" which was not admitted, was not checked")
            || self.text.contains(" which was rejected, was not checked")
    }
}

/// Whether a promise or a need is left in a function whose proof is not the author's.
fn leaves_unproved(said: &str) -> bool {
    said.starts_with("note: ") && said.contains(": it is not proved that ")
}

// What an edit changes

/// The lines that an edit changes: `old` and `new` are one line each, so that no line moves.
fn changed_lines(edit: &str, read: impl Fn(&str) -> String) -> BTreeSet<Place> {
    let mut changed = BTreeSet::new();
    let (mut file, mut old) = ("", "");
    let mut text = String::new();
    for line in edit.lines() {
        if let Some(path) = line.strip_prefix("file: ") {
            file = path;
            text = read(file);
        } else if let Some(part) = line.strip_prefix("old: ") {
            old = part;
        } else if let Some(new) = line.strip_prefix("new:") {
            let new = new.strip_prefix(' ').unwrap_or(new);
            if let Some((before, after)) = text.split_once(old) {
                changed.insert((file.to_string(), before.matches('\n').count() + 1));
                text = format!("{before}{new}{after}");
            }
        }
    }
    changed
}

// Wrong reasons

/// What the prover writes around the terms that it quotes. A quoted term is left as one "`", and one
/// that is cut off as nothing.
fn prose(text: &str) -> String {
    let around: Vec<&str> = text.split('`').step_by(2).collect();
    around.join("`")
}

fn quoted(text: &str) -> impl Iterator<Item = &str> {
    text.split('`').skip(1).step_by(2)
}

fn is_goal(term: &str) -> bool {
    term.starts_with("goal.")
}

/// Whether a text begins so, or begins this as far as it is not cut.
fn begins(text: &str, with: &str) -> bool {
    text.starts_with(with) || with.starts_with(text)
}

/// A goal, a fact on the way to it or a whole proof is named that the code does not have.
fn names_what_is_gone(text: &str) -> bool {
    let said = prose(text);
    let quoted: Vec<&str> = quoted(text).collect();
    let first = quoted.first().copied().unwrap_or_default();
    let lost_path = begins(&said, "record ` has no field `") && first.contains(".Lts.");
    let lost_goal = begins(&said, "`: module ` has no ` that can be named") && is_goal(first);
    let lost_proof = begins(&said, "module ` has no ` that can be named")
        && first.contains(".proofs.")
        && quoted.get(1).is_none_or(|name| *name == "Goals");
    lost_path || lost_goal || lost_proof || is_in_anothers_place(&said, &quoted)
}

/// An answer does not belong where it stands: it is that of another goal.
fn is_in_anothers_place(said: &str, quoted: &[&str]) -> bool {
    let mismatch = said.starts_with("expected type `");
    let of_goals = mismatch && quoted.iter().take(2).any(|term| is_goal(term));
    let lambda = said.starts_with("this λ has ") || said.contains("on the face ` this λ's body");
    of_goals || lambda
}

fn is_out_of_scope(text: &str) -> bool {
    let said = prose(text);
    said.starts_with("` is not in scope")
        || said.contains("but no constructor ` is in scope")
        || said.starts_with("module ` has no ` that can be named")
}

/// An error of no declaration is one of reading. Some are found in a declaration, at its operators.
fn is_not_read(declaration: Option<&str>, text: &str) -> bool {
    let said = prose(text);
    let half_read = said.starts_with("an operand is missing") || said.contains("` to continue `");
    declaration.is_none() || half_read
}

/// Why an edit is refused, if it is not because a fact no longer holds.
fn wrong_reason(refusal: &Refusal<'_>, changed: &BTreeSet<Place>) -> Option<&'static str> {
    let (declaration, text) = refusal.parts();
    if names_what_is_gone(text) {
        Some("the proof names what is gone")
    } else if is_out_of_scope(text) {
        Some("a name out of scope")
    } else if is_not_read(declaration, text) {
        Some("a text that cannot be read")
    } else if changed.contains(&refusal.place) {
        Some("no type on the line that was changed")
    } else {
        None
    }
}

/// What is wrong with what came of an edit, and the words that say so.
fn complaint(said: &str, changed: &BTreeSet<Place>) -> Option<String> {
    let told = |reason: &str| {
        let start: String = said.chars().take(240).collect();
        Some(format!("{reason}: {start}"))
    };
    let first = match Outcome::read(said) {
        Outcome::Refused(first) => first,
        Outcome::OnlyNames(_) => return told("the proof names what is gone"),
        Outcome::AtLimit(_) => return told("no verdict of the prover"),
        Outcome::Not(_) => return told("not refused by the prover"),
    };
    if leaves_unproved(first) {
        return None;
    }
    match Refusal::read(first) {
        Some(refusal) if !refusal.is_consequence() => {
            wrong_reason(&refusal, changed).and_then(told)
        }
        _ => told("nothing is refused by itself"),
    }
}

// All edits

/// What is wrong with what came of an edit, by what the gate's run said.
fn complaint_of(log: &str, folder: &Path, edit: &Path) -> Option<String> {
    let name = format!("{}/{}", stem(folder), stem(edit));
    let changed = changed_lines(&text(edit), |file| text(&folder.join(file)));
    let complaint = match said_of(log, &name) {
        Some(said) => complaint(said, &changed),
        None => Some("nothing was said of it".to_string()),
    };
    complaint.map(|what| format!("{name}: {what}"))
}

#[test]
#[ignore = "reads what rt ci said: .ci/run calls it behind it"]
fn edits_are_refused_for_a_fact() {
    let log = std::env::var("RT_CI_LOG").expect("RT_CI_LOG names what rt ci said");
    let log = text(Path::new(&log));
    let root = Path::new(ROOT);
    let mut report = Vec::new();
    for folder in entries(&root.join("crates")) {
        for edit in entries(&folder.join("must-fail")) {
            report.extend(complaint_of(&log, &folder, &edit));
        }
    }
    assert!(
        report.is_empty(),
        "\n{}\n{} in all",
        report.join("\n"),
        report.len()
    );
}

// The parts

/// What is wrong with a refusal for which this is said first, of an edit that changes line 9 of
/// `specs/Bridge.antt`.
fn reason_of(first: &str) -> Option<String> {
    let changed = BTreeSet::from([("specs/Bridge.antt".to_string(), 9)]);
    let cut: String = first.chars().take(160).collect();
    let said = format!("refused, as it must be: {cut}");
    let complaint = complaint(&said, &changed)?;
    let reason = complaint.split(": ").next().unwrap_or_default();
    Some(reason.to_string())
}

fn assert_reason(reason: &str, first: &str) {
    assert_eq!(reason_of(first).as_deref(), Some(reason), "{first}");
}

#[test]
fn an_edit_by_its_line() {
    let log = "rt: bays: trying its must-fail edits (2)\n\
               rt: must-fail bays/wrong.edit: refused, as it must be: note: src/lib.rt:73:1: x\n\
               rt: must-fail bays/wrong_too.edit: BAD EDIT: an 'old:' text is in src/lib.rt 2 times\n\
               rt: ok; handles allowed: none; must-fail edits: 1 refused, 1 bad\n";
    let first = "refused, as it must be: note: src/lib.rt:73:1: x";
    assert_eq!(said_of(log, "bays/wrong"), Some(first));
    assert!(said_of(log, "bays/wrong_too").is_some_and(|said| said.starts_with("BAD EDIT")));
    assert_eq!(said_of(log, "bays/wron"), None);
    assert_eq!(said_of(log, "wrong"), None);
}

#[test]
fn what_counts_as_no_refusal() {
    for (said, reason) in [
        (
            "BAD EDIT: an 'old:' text is in src/lib.rt 2 times, and not once",
            "not refused by the prover",
        ),
        (
            "BAD EDIT: it did not reach the prover; the first lines of what it said:",
            "not refused by the prover",
        ),
        (
            "BAD EDIT: the prover cannot read the edited text, so no contract was tried: ./specs/ReadLaws.antt:116:23: error: `goes_on_lem`: `nowhere` is not in scope",
            "not refused by the prover",
        ),
        (
            "NOT TRIED: its check was killed, most likely for memory, so nothing is known of it: run this again",
            "not refused by the prover",
        ),
        (
            "NOT REFUSED: the crate is still proved with this edit (one that means the same as before cannot be refused: remove it)",
            "not refused by the prover",
        ),
        (
            "refused, as it must be (only because a proof file names what the edit took away, so this says little of the contract: change a value and keep the names): ./proofs/digits/Answers.antt:18:30: error: `returns`: record",
            "the proof names what is gone",
        ),
        (
            "refused, as it must be (only by a limit of the prover, which gave no verdict, so this says less of the contract: choose a change that it refuses sooner): antt ran out of stack",
            "no verdict of the prover",
        ),
        ("refused, as it must be", "nothing is refused by itself"),
    ] {
        let complaint = complaint(said, &BTreeSet::new());
        let begins = format!("{reason}: {}", said.split(':').next().unwrap());
        assert!(complaint.is_some_and(|told| told.starts_with(&begins)), "{said}");
    }
}

#[test]
fn the_place_and_the_text_of_a_refusal() {
    let said =
        "./proofs/closed/Answers.antt:8:30: error: `returns`: as printed, the two types differ";
    let refusal = Refusal::read(said).unwrap();
    assert_eq!(refusal.place, ("proofs/closed/Answers.antt".to_string(), 8));
    assert_eq!(
        refusal.parts(),
        (Some("returns"), "as printed, the two types differ")
    );
    let said = "specs/Bridge.antt:9:1: error: `)` cannot continue the declaration here";
    let refusal = Refusal::read(said).unwrap();
    assert_eq!(refusal.place, ("specs/Bridge.antt".to_string(), 9));
    assert_eq!(refusal.parts().0, None);
}

#[test]
fn what_is_not_proved_counts() {
    for unproved in [
        "note: src/lib.rt:73:1: it is not proved that what the function ensures holds when it returns (`returns-then-side-eq-HOST`); the facts known there allow values at which this goal",
        "note: src/lib.rt:144:29: it is not proved that the sum fits its type (at a range `..=n`, `n + 1`) (`overflow_add-at`)",
    ] {
        assert_eq!(reason_of(unproved), None);
    }
    assert_reason(
        "nothing is refused by itself",
        "note: src/lib.rt:73:1: no function with a body is declared, so nothing was lowered",
    );
}

#[test]
fn consequences() {
    for first in [
        "./proofs/digits/Answers.antt:6:5: error: 1 declaration that depends on `overflow_add-count`, which was not admitted, was not checked: overflow_add-count",
        "./proofs/main/Proof.antt:12:5: error: 1 declaration that depends on `invariant-loop`, which was rejected, was not checked: main_spec",
    ] {
        assert_reason("nothing is refused by itself", first);
    }
}

#[test]
fn facts_that_no_longer_hold() {
    for first in [
        "./proofs/closed/Answers.antt:15:5: error: `returns`: give a proof of that as the last argument, `rw L t` (`rw L ?` shows it as a hole's goal), or add what is missing to the list",
        "./proofs/Fifos/put/Answers.antt:6:31: error: `returns-then-fifo-lt-ROOM`: as printed, the two types differ only where one has `(Rattle.fifos.specs.Bridge.put_as record {fifos = c.args",
        "./proofs/all_sound/Answers.antt:13:5: error: `returns`: computed as far as they go, the two types differ only where one has `33` (expected) and the other has `32` (found)",
        "./proofs/label/Answers.antt:16:94: error: `returns`: `search`: no proof of `Reads.Post (Prim.tt {0})`",
        "./proofs/label/Answers.antt:24:82: error: `returns`: `omega`: the goal does not follow from what it read. All of that holds, and the goal fails, at `c.left` = 0",
        "./proofs/label/Answers.antt:8:13: error: `returns`: `rw`: no occurrence of the path's left endpoint in the goal: write the family yourself and transport",
        "./specs/Laws.antt:9:15: error: `bench_cases`: expected type `map given cases ≡ map expected cases`, but this has type `map given cases ≡ map given cases`",
        "./proofs/FifoRuns.antt:10:46: error: `labels`: expected type `List B`, but this has type `B`",
    ] {
        assert_eq!(reason_of(first), None);
    }
}

#[test]
fn names_out_of_scope() {
    for first in [
        "./specs/Reordering.antt:80:26: error: `disturbs`: `false` is not in scope: add `use Rattle.std.specs.Prelude.{false}`, or add `false` to a group",
        "./specs/Roles.antt:20:16: error: `open_after`: `begins` is applied to arguments in a pattern, but no constructor `begins` is in scope",
        "./specs/Bridge.antt:3:14: error: module `Rattle.std.specs.Prelude` has no `lebb` that can be named from here",
        "src/lib.rt:15:29: error: `ensures`: `label_ad` is not in scope; did you mean `label_at`?",
    ] {
        assert_reason("a name out of scope", first);
    }
}

#[test]
fn texts_that_cannot_be_read() {
    for first in [
        "./specs/Roles.antt:21:1: error: this line starts at column 1, at or left of the enclosing block's column 1, but the `(` opened at 20:45 is still open",
        "./specs/Roles.antt:20:57: error: `)` cannot continue the declaration here",
        "./specs/Bridge.antt:10:1: error: the `(` at 9:20 is never closed (reached end of file)",
        "./specs/Roles.antt:20:44: error: `open_after`: an operand is missing at the end",
        "./specs/Bridge.antt:9:52: error: `label_at`: expected `else` to continue `if◌then◌else◌` begun here",
    ] {
        assert_reason("a text that cannot be read", first);
    }
}

#[test]
fn goals_that_are_gone() {
    for first in [
        "./proofs/closed/Answers.antt:7:31: error: `returns-then-at-text`: record `Rattle.decimal.proofs.closed.Lts.View.In-After-unreadable` has no field `unreadabl`",
        "./proofs/digits/Invariants.antt:6:26: error: `invariant-loop-left`: record `Rattle.decimal.proofs.digits.Lts.Given.Live-loop-left` has no field `cont`",
        "./proofs/digits/Answers.antt:18:30: error: `returns-then-left-ge10`: `goal.returns-then-left-ge10`: module `Rattle.decimal.proofs.digits.Goals` has no `returns-then-left-ge10` that can be named from here",
        "./proofs/write_decimal/Answers.antt:26:68: error: `write_two_digits-requires-then-left-ge10-clause-at_in_bounds`: `goal.write_two_digits-requires-then-left-ge10-clause-at_in_bounds`",
        "./proofs/ended/Answers.antt:5:5: error: module `Rattle.bays.proofs.ended` has no `Goals` that can be named from here",
        "./proofs/read/Answers.antt:11:53: error: `returns`: expected type `goal.returns-then-a`, but this has type `goal.returns`",
        "./proofs/value/Answers.antt:16:39: error: `returns`: this λ has 2 binders, but its type has room for only 1",
    ] {
        assert_reason("the proof names what is gone", first);
    }
}

#[test]
fn changed_lines_without_a_type() {
    assert_reason(
        "no type on the line that was changed",
        "./specs/Bridge.antt:9:46: error: `goes_on`: expected type `Bool`, but this has type `ℕ`",
    );
}

#[test]
fn lines_of_an_edit() {
    let read = |file: &str| match file {
        "src/lib.rt" => "one\ntwo two\nthree\n".to_string(),
        _ => "a\nb = c\n".to_string(),
    };
    let edit = "# a note\n\
                file: src/lib.rt\n\
                old: three\n\
                new: two\n\
                old: two two\n\
                new:\n\
                file: specs/Bridge.antt\n\
                old: b = c\n\
                new: b = a\n";
    let place = |file: &str, line| (file.to_string(), line);
    let changed = [
        place("specs/Bridge.antt", 2),
        place("src/lib.rt", 2),
        place("src/lib.rt", 3),
    ];
    assert_eq!(changed_lines(edit, read), BTreeSet::from(changed));
}
