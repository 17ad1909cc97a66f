//! What the documents cite exists: definitions, theorems, functions, edits, crates and files.
//!
//! A citation is a code span of one of these forms.
//!
//! - `File · name`: declared in that file of crate `model`; `crate/File · name`: of that crate. It
//!   stands in the crate's `specs` or, a law of `model` or `reordering`, in its `proofs`.
//! - `crate::item`, `crate::Type::member`: declared in the code of that crate.
//! - `crate/label`: a must-fail edit of that crate; `crate/File`: a file of its `specs` or its
//!   `proofs`; any other path: a file or folder of the repository.
//! - `name`: in a table it belongs to the file, type or crate cited before it in its cell, in text
//!   to the one that it is listed behind. Where nothing is cited before it, it is declared
//!   somewhere, or is a crate or a file.
//!
//! Spans with a space, numbers and signs are no citations, nor is what stands in a quotation. The
//! tables of the map name every crate, and the promises cite every edit.

mod files;

use files::{entries, stem, text, ROOT};
use std::collections::{BTreeMap, BTreeSet};
use std::path::{Path, PathBuf};

const MAP: &str = "docs/ARCHITECTURE.md";
const PROMISES: &str = "docs/PROMISES.md";
/// They tell of the past, of names that are gone too.
const PAST: [&str; 3] = ["docs/CHANGES.md", "docs/DESIGN-PASS.md", "docs/PORT.md"];

/// Names that stand for any name, where a document says how it cites.
const PLACEHOLDERS: [&str; 6] = [
    "File · name",
    "File.antt",
    "cases/File",
    "crate/label",
    "crates/crate/must-fail",
    "name",
];

/// Words of the languages, the tools and the replay's text.
const WORDS: [&str; 18] = [
    "Err",
    "From",
    "None",
    "Ok",
    "Option",
    "Result",
    "Some",
    "end",
    "ensures",
    "log",
    "match",
    "port.py",
    "rattle-kit-13f",
    "rattle-kit-5",
    "requires",
    "rt",
    "self",
    "u16",
];

/// Words before the name of a crate.
const CRATE_WORDS: [&str; 4] = ["crate", "crates", "program", "programs"];

/// What stands between two names of one list.
const JOINERS: [&str; 5] = [", ", " and ", ", and ", " or ", " to "];

type Names = BTreeSet<String>;

// What there is

#[derive(Default)]
struct Repository {
    root: PathBuf,
    crates: Names,
    /// By `crate/File`, in `specs` or in `proofs`: what is declared there.
    specs: BTreeMap<String, Names>,
    /// By crate: `item` and `Type::member`.
    code: BTreeMap<String, Names>,
    /// `crate/label`.
    edits: Names,
}

impl Repository {
    fn read() -> Repository {
        let mut repository = Repository {
            root: PathBuf::from(ROOT),
            ..Repository::default()
        };
        for folder in entries(&repository.root.join("crates")) {
            repository.add_crate(&folder);
        }
        repository
    }

    fn add_crate(&mut self, folder: &Path) {
        let name = stem(folder);
        let files = ["specs", "proofs"].map(|part| entries(&folder.join(part)));
        // the folders in `proofs` are of functions
        for file in files.concat().iter().filter(|path| path.is_file()) {
            let declared = spec_names(&text(file));
            let of_file = self.specs.entry(format!("{name}/{}", stem(file)));
            of_file.or_default().extend(declared);
        }
        for file in entries(&folder.join("src")) {
            let items = self.code.entry(name.clone()).or_default();
            items.extend(code_names(&text(&file)));
        }
        for edit in entries(&folder.join("must-fail")) {
            self.edits.insert(format!("{name}/{}", stem(&edit)));
        }
        self.crates.insert(name);
    }

    /// A path from the root, an edit or a file of definitions.
    fn has_path(&self, path: &str) -> bool {
        self.edits.contains(path) || self.specs.contains_key(path) || self.is_file(path)
    }

    fn is_file(&self, path: &str) -> bool {
        !path.starts_with('/') && self.root.join(path).exists()
    }

    /// A file or folder, as `src`, that some crate has.
    fn is_part_of_a_crate(&self, name: &str) -> bool {
        let in_crate = |of: &String| self.is_file(&format!("crates/{of}/{name}"));
        self.crates.iter().any(in_crate)
    }

    /// Whether a name without a place is that of anything.
    fn has_name(&self, name: &str) -> bool {
        let is_last = |path: &String| path.rsplit("::").next() == Some(name);
        self.crates.contains(name)
            || self
                .specs
                .keys()
                .any(|file| file.ends_with(&format!("/{name}")))
            || self.specs.values().any(|names| names.contains(name))
            || self.code.values().flatten().any(is_last)
            || self.is_file(name)
            || self.is_part_of_a_crate(name)
    }
}

/// Definitions, theorems, records, fields, data and constructors: `names : type`, at any depth.
fn spec_names(text: &str) -> Names {
    text.lines().flat_map(spec_line_names).collect()
}

fn spec_line_names(line: &str) -> Vec<String> {
    let mut words: Vec<&str> = line.split_whitespace().collect();
    while words.first().is_some_and(|word| is_modifier(word)) {
        words.remove(0);
    }
    if let ["record" | "data", name, ..] = words[..] {
        return vec![name.to_string()];
    }
    let colon = words.iter().position(|word| *word == ":").unwrap_or(0);
    let names = &words[..colon];
    let plain = |name: &&str| !name.contains(['(', ')', '{', '}', '=', '.', '→']);
    if names.iter().all(plain) && !names.contains(&"--") {
        names.iter().map(|name| name.to_string()).collect()
    } else {
        Vec::new()
    }
}

fn is_modifier(word: &str) -> bool {
    ["pub", "abbrev", "unfoldable"].contains(&word)
}

/// Items at the margin, and the members of types: fields, cases and functions.
fn code_names(text: &str) -> Names {
    let mut names = Names::new();
    let mut owner: Option<String> = None;
    for line in text.lines() {
        let words = line.split(|c: char| !is_part_of_item(c));
        let words: Vec<&str> = words
            .filter(|word| !word.is_empty() && *word != "pub")
            .collect();
        let at_margin = !line.starts_with([' ', '}', '/']);
        match (words.as_slice(), at_margin, &owner) {
            (["impl", ..], true, _) => owner = implemented(line),
            (["struct" | "enum", name, ..], true, _) => {
                names.insert(name.to_string());
                owner = Some(name.to_string());
            }
            (["fn" | "const" | "type", name, ..], true, _) => {
                names.insert(name.to_string());
                owner = None;
            }
            (["fn", name, ..], false, Some(owner)) | ([name, ..], false, Some(owner))
                if is_member(line) =>
            {
                names.insert(format!("{owner}::{name}"));
            }
            _ => (),
        }
    }
    names
}

/// The type that an `impl` is for: behind its own parameters, and of a trait's behind `for`.
fn implemented(line: &str) -> Option<String> {
    let mut depth = 0;
    let at = line.find(|c: char| {
        depth += i32::from(c == '<') - i32::from(c == '>');
        depth == 0 && (c == ' ' || c == '>')
    })?;
    let of = line[at + 1..].split(" for ").last()?;
    let name = of.trim().split(|c: char| !is_part_of_item(c)).next()?;
    Some(name.to_string())
}

/// One step inside of a type or of its functions, and not deeper.
fn is_member(line: &str) -> bool {
    let depth = line.len() - line.trim_start().len();
    depth == 4 && !line.trim_start().starts_with(['/', '}', '{'])
}

fn is_part_of_item(c: char) -> bool {
    c.is_ascii_alphanumeric() || c == '_'
}

// What is cited

/// A code span, with the text between the one before it and itself.
#[derive(Debug, PartialEq)]
struct Span<'a> {
    before: &'a str,
    text: &'a str,
}

fn spans(text: &str) -> Vec<Span<'_>> {
    let parts: Vec<&str> = text.split('`').collect();
    parts
        .chunks_exact(2)
        .map(|pair| Span {
            before: pair[0],
            text: pair[1],
        })
        .collect()
}

#[derive(Debug, PartialEq)]
enum Form<'a> {
    Spec { file: &'a str, name: &'a str },
    Code(Vec<&'a str>),
    Path(&'a str),
    Name(&'a str),
    Other,
}

fn form(span: &str) -> Form<'_> {
    if PLACEHOLDERS.contains(&span) || WORDS.contains(&span) {
        Form::Other
    } else if let Some((file, name)) = span.split_once(" · ") {
        Form::Spec { file, name }
    } else if span.contains(char::is_whitespace) {
        Form::Other
    } else if span.starts_with("std::") {
        // supplied with the language
        Form::Other
    } else if span.contains("::") {
        Form::Code(span.split("::").collect())
    } else if span.contains('/') {
        Form::Path(span.trim_start_matches("./"))
    } else if span.starts_with(char::is_alphabetic) && span.chars().all(is_part_of_name) {
        Form::Name(span)
    } else {
        Form::Other
    }
}

fn is_part_of_name(c: char) -> bool {
    c.is_alphanumeric() || ['_', '-', '.', '\'', '′'].contains(&c)
}

/// What a name alone belongs to.
#[derive(Clone)]
enum Place {
    Anywhere,
    Crates,
    /// The `specs` and `proofs` of this crate.
    Files(String),
    Spec(String),
    Code {
        of: String,
        owner: Option<String>,
    },
}

impl Place {
    fn has(&self, name: &str, repository: &Repository) -> bool {
        let code = |of: &str, path: &str| {
            let names = repository.code.get(of);
            names.is_some_and(|names| names.contains(path))
        };
        match self {
            Place::Anywhere => repository.has_name(name),
            Place::Crates => repository.crates.contains(name),
            Place::Files(of) => repository.specs.contains_key(&format!("{of}/{name}")),
            Place::Spec(file) => {
                let names = repository.specs.get(file);
                names.is_some_and(|names| names.contains(name))
            }
            Place::Code { of, owner } => {
                let member = |owner: &String| code(of, &format!("{owner}::{name}"));
                code(of, name) || owner.as_ref().is_some_and(member)
            }
        }
    }

    fn named(&self) -> String {
        match self {
            Place::Anywhere => "nothing of this name".to_string(),
            Place::Crates => "no such crate".to_string(),
            Place::Files(of) => format!("no such file in specs or proofs of crates/{of}"),
            Place::Spec(file) => format!("not declared in {file}"),
            Place::Code { of, owner: None } => format!("not declared in crate {of}"),
            Place::Code {
                of,
                owner: Some(owner),
            } => format!("not declared in {of}::{owner}"),
        }
    }
}

/// Goes through spans that stand together, and keeps what is not there.
struct Reader<'a> {
    repository: &'a Repository,
    missing: Vec<String>,
}

impl Reader<'_> {
    /// The spans of a cell, whose names belong to what is cited before them in the cell.
    fn cell(&mut self, cell: &str, mut place: Place) {
        for span in spans(cell) {
            place = self.span(&span, place);
        }
    }

    /// The spans of a text, whose names belong to what they are listed behind.
    fn line(&mut self, line: &str) {
        let mut place = Place::Anywhere;
        for span in spans(line) {
            if !JOINERS.contains(&span.before) {
                place = Place::Anywhere;
            }
            place = self.span(&span, place);
        }
    }

    /// Looks for what is cited, and says what a name behind it belongs to.
    fn span(&mut self, span: &Span, place: Place) -> Place {
        let last_word = span.before.split_whitespace().next_back();
        let of_crate = last_word.is_some_and(|word| CRATE_WORDS.contains(&word));
        let place = if of_crate { Place::Crates } else { place };
        match form(span.text) {
            Form::Spec { file, name } => {
                let file = in_model(file);
                let place = Place::Spec(file);
                self.expect(name, &place, span);
                place
            }
            Form::Code(path) => self.code(&path, span),
            Form::Path(path) => {
                if !self.repository.has_path(path) {
                    self.miss(span, "no such edit, file or folder");
                }
                Place::Anywhere
            }
            Form::Name(name) => {
                self.expect(name, &place, span);
                place
            }
            Form::Other => place,
        }
    }

    fn code(&mut self, path: &[&str], span: &Span) -> Place {
        let (of, rest) = (path[0].to_string(), &path[1..]);
        let name = rest.join("::");
        let crate_alone = Place::Code {
            of: of.clone(),
            owner: None,
        };
        self.expect(&name, &crate_alone, span);
        let is_type = rest[0].starts_with(char::is_uppercase) && !is_constant(rest[0]);
        let owner = is_type.then(|| rest[0].to_string());
        Place::Code { of, owner }
    }

    fn expect(&mut self, name: &str, place: &Place, span: &Span) {
        if !place.has(name, self.repository) {
            self.miss(span, &place.named());
        }
    }

    fn miss(&mut self, span: &Span, why: &str) {
        self.missing.push(format!("`{}`: {why}", span.text));
    }
}

fn is_constant(name: &str) -> bool {
    name.len() > 1 && !name.contains(char::is_lowercase)
}

/// A file's key: one without a crate is a file of `model`.
fn in_model(file: &str) -> String {
    if file.contains('/') {
        file.to_string()
    } else {
        format!("model/{file}")
    }
}

// Documents

/// What a document cites and is not there, by line.
fn missing(document: &str, repository: &Repository) -> Vec<(usize, String)> {
    let mut found = Vec::new();
    let mut header: Option<Vec<&str>> = None;
    for (line, number) in document.lines().zip(1..) {
        let mut reader = Reader {
            repository,
            missing: Vec::new(),
        };
        if line.starts_with('|') {
            let cells = cells(line);
            let columns = header.get_or_insert_with(|| cells.clone());
            for (cell, column) in cells.iter().zip(columns) {
                if !cell.starts_with('"') {
                    reader.cell(cell, place_of_column(column));
                }
            }
        } else {
            header = None;
            if !line.starts_with("    ") {
                reader.line(&without_quotations(line));
            }
        }
        for path in document_paths(line).filter(|path| !repository.is_file(path)) {
            reader.missing.push(format!("{path}: no such document"));
        }
        found.extend(reader.missing.into_iter().map(|what| (number, what)));
    }
    found
}

/// The cells of a table's line. `\|` is no border.
fn cells(line: &str) -> Vec<&str> {
    let mut cells = Vec::new();
    let mut start = 0;
    for (at, _) in line.match_indices('|') {
        if !line[..at].ends_with('\\') {
            cells.push(line[start..at].trim());
            start = at + 1;
        }
    }
    // before the first border stands nothing
    cells.split_off(1)
}

/// What names in a column belong to, by the column's head.
fn place_of_column(head: &str) -> Place {
    if head.starts_with("Crate") || head.starts_with("Stands on") {
        Place::Crates
    } else if head == "File" {
        Place::Files("model".to_string())
    } else {
        Place::Anywhere
    }
}

/// Text without the sentences that it quotes, as *"this one"*.
fn without_quotations(line: &str) -> String {
    let mut kept = String::new();
    let mut rest = line;
    while let Some((before, quoted)) = rest.split_once("*\"") {
        kept += before;
        rest = quoted.split_once("\"*").map_or("", |(_, after)| after);
    }
    kept + rest
}

/// Documents that are named without a code span.
fn document_paths(line: &str) -> impl Iterator<Item = &str> {
    let words = line.split(|c: char| !is_part_of_name(c) && c != '/');
    words
        .map(|word| word.trim_end_matches('.'))
        .filter(|word| word.starts_with("docs/"))
}

/// The crates in the first columns of the map's tables.
fn crates_of_map(map: &str) -> BTreeSet<&str> {
    let mut of_crates = false;
    let mut found = BTreeSet::new();
    for line in map.lines() {
        let first = line.starts_with('|').then(|| cells(line)[0]);
        match first {
            Some("Crate") => of_crates = true,
            Some(cell) if of_crates => found.extend(spans(cell).iter().map(|span| span.text)),
            Some(_) => (),
            None => of_crates = false,
        }
    }
    found
}

/// The crates that `crates.txt` lists.
fn listed_crates(list: &str) -> impl Iterator<Item = &str> {
    let lines = list.lines().filter(|line| !line.starts_with('#'));
    lines.filter_map(|line| Some(line.split_once(':')?.0))
}

fn documents(root: &Path) -> Vec<String> {
    let files = entries(&root.join("docs")).into_iter();
    let in_docs = files.filter(|path| path.extension().is_some_and(|end| end == "md"));
    in_docs
        .map(|path| format!("docs/{}.md", stem(&path)))
        .filter(|path| !PAST.contains(&path.as_str()))
        .chain(["README.md".to_string()])
        .collect()
}

#[test]
fn what_is_cited_exists() {
    let repository = Repository::read();
    let read = |path: &str| text(&repository.root.join(path));
    let mut report = Vec::new();
    for path in documents(&repository.root) {
        for (line, what) in missing(&read(&path), &repository) {
            report.push(format!("{path}:{line}: {what}"));
        }
    }
    let (map, list) = (read(MAP), read("crates.txt"));
    let in_map = crates_of_map(&map);
    for name in listed_crates(&list).filter(|name| !in_map.contains(name)) {
        report.push(format!("{MAP}: `{name}`: a crate that no table names"));
    }
    let promises = read(PROMISES);
    let cited = promises.lines().flat_map(spans).map(|span| span.text);
    let cited: BTreeSet<&str> = cited.collect();
    for edit in repository
        .edits
        .iter()
        .filter(|edit| !cited.contains(edit.as_str()))
    {
        report.push(format!("{PROMISES}: `{edit}`: an edit that is not cited"));
    }
    assert!(
        report.is_empty(),
        "\n{}\n{} in all",
        report.join("\n"),
        report.len()
    );
}

// The parts

fn names(list: &[&str]) -> Names {
    list.iter().map(|name| name.to_string()).collect()
}

/// A crate `model` with files `State` and `Laws`, and a crate `card` with code and an edit.
fn small() -> Repository {
    let spec = |file: &str, list: &[&str]| (file.to_string(), names(list));
    Repository {
        root: PathBuf::from(ROOT),
        crates: names(&["model", "card"]),
        specs: BTreeMap::from([
            spec("model/State", &["World", "sound", "fifos"]),
            spec("model/Laws", &["stays_sound"]),
            spec("card/Bridge", &["card_as"]),
        ]),
        code: BTreeMap::from([spec("card", &["Card", "Card::raise", "fresh", "LIMIT"])]),
        edits: names(&["card/wrong"]),
    }
}

fn missing_in(document: &str) -> Vec<String> {
    let found = missing(document, &small());
    found
        .into_iter()
        .map(|(line, what)| format!("{line} {what}"))
        .collect()
}

fn assert_all_there(document: &str) {
    assert_eq!(missing_in(document), Vec::<String>::new(), "{document}");
}

#[test]
fn forms() {
    let spec = Form::Spec {
        file: "card/Bridge",
        name: "card_as",
    };
    assert_eq!(form("card/Bridge · card_as"), spec);
    assert_eq!(
        form("card::Card::raise"),
        Form::Code(vec!["card", "Card", "raise"])
    );
    assert_eq!(form("./replay/x"), Form::Path("replay/x"));
    assert_eq!(form("stays_sound"), Form::Name("stays_sound"));
    for other in [
        "10 0 0",
        "17..=255",
        "&[u8]",
        "let .. else",
        "end 0",
        ".txt",
        "0",
    ] {
        assert_eq!(form(other), Form::Other, "{other}");
    }
}

#[test]
fn there() {
    assert_all_there("`State · World`, `sound`; `card/Bridge · card_as`, `card::fresh`");
    assert_all_there("`card::Card`, `card::Card::raise`, `card::LIMIT`, `card/wrong`");
    assert_all_there("crate `card`, `oracle/`, `card/Bridge`, `stays_sound`, `State`");
    assert_all_there("| a | `State · World` (`fifos`): by `sound` alone |");
    assert_all_there("| a | `card::Card::raise` and later `fresh` |");
}

#[test]
fn not_there() {
    for (cited, why) in [
        ("`State · stays_sound`", "not declared in model/State"),
        ("`Nowhere · sound`", "not declared in model/Nowhere"),
        ("`card::Card::lower`", "not declared in crate card"),
        ("`other::fresh`", "not declared in crate other"),
        ("`card/right`", "no such edit, file or folder"),
        ("`lost_sound`", "nothing of this name"),
        ("crate `sound`", "no such crate"),
        ("docs/NOWHERE.md", "no such document"),
    ] {
        let span = cited.trim_start_matches("crate ");
        assert_eq!(missing_in(cited), [format!("1 {span}: {why}")]);
    }
}

#[test]
fn names_alone() {
    // in a cell they belong to what is cited before them
    let cell = "| a |\n|---|\n| `State · World`, not by `stays_sound` |";
    assert_eq!(
        missing_in(cell),
        ["3 `stays_sound`: not declared in model/State"]
    );
    // in text only where they are listed behind it
    assert_all_there("`State · World`, not by `stays_sound`");
    let listed = "`State · World` and `stays_sound`";
    assert_eq!(
        missing_in(listed),
        ["1 `stays_sound`: not declared in model/State"]
    );
    let programs = "programs `card`, `sound`";
    assert_eq!(missing_in(programs), ["1 `sound`: no such crate"]);
}

#[test]
fn columns() {
    let table = "| Crate | Stands on |\n|---|---|\n| `card` | `model`, `sound` |";
    assert_eq!(missing_in(table), ["3 `sound`: no such crate"]);
    let table = "| File | Section |\n|---|---|\n| `State`, `Bridge` | |";
    assert_eq!(
        missing_in(table),
        ["3 `Bridge`: no such file in specs or proofs of crates/model"]
    );
    assert_eq!(cells(r#"| "1 \| 2" | `a` |"#), [r#""1 \| 2""#, "`a`"]);
}

#[test]
fn quotations() {
    assert_all_there("| \"then `nothing` is written\" | |");
    assert_all_there("1. *\"`nothing` is written\"*. Read so.");
    assert_all_there("    a drawing with `nothing`");
}

#[test]
fn declarations_of_specs() {
    let text = "use a.B.{c}\n\
                -- a note : of this\n\
                abbrev pub untouched : Settings → State\n\
                untouched s = record { a = s }\n\
                pub data Place (T : Type 0) : Type 0 where\n  \
                here there : T → Place\n\
                record Pair : Type 0 where\n  \
                pub of_host : Bool\n\
                pub stays_sound : (s : State) → Type 0\n";
    let declared = [
        "untouched",
        "Place",
        "here",
        "there",
        "Pair",
        "of_host",
        "stays_sound",
    ];
    assert_eq!(spec_names(text), names(&declared));
}

#[test]
fn declarations_of_code() {
    let text = "// a card\n\
                pub struct Card {\n    pub base: u32,\n}\n\n\
                impl Card {\n    // raises\n    pub fn raise(self) -> Card\n        ensures { a }\n    {\n        let x = 1;\n    }\n}\n\n\
                impl<W: Copy> Turn<W> {\n    pub fn first(work: W) -> Turn<W> {\n    }\n}\n\n\
                impl From<u8> for Bay {\n    fn from(byte: u8) -> Bay {\n    }\n}\n\n\
                pub enum Read {\n    Refused(u8),\n}\n\n\
                pub type Answer = Result<Done, Refusal>;\n\n\
                pub const LIMIT: u8 = 3;\n\n\
                pub fn fresh(base: u32) -> Card\n{\n    let y = base;\n}\n";
    let declared = [
        "Card",
        "Card::base",
        "Card::raise",
        "Turn::first",
        "Bay::from",
        "Read",
        "Read::Refused",
        "Answer",
        "LIMIT",
        "fresh",
    ];
    assert_eq!(code_names(text), names(&declared));
}

#[test]
fn crates_of_tables() {
    let map =
        "| Crate | Holds |\n|---|---|\n| `card` | `x` |\n\n| File | |\n|---|---|\n| `State` | |";
    assert_eq!(crates_of_map(map), BTreeSet::from(["card"]));
    let list: Vec<&str> = listed_crates("# the card\ncard: model\nmodel:\n").collect();
    assert_eq!(list, ["card", "model"]);
}
