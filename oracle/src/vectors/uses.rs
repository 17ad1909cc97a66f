//! The `use` lines of a file: of all names that stand elsewhere, those that the file uses.

use std::collections::BTreeSet;

/// Modules, and what may be used of each.
const OFFERED: [(&str, &[&str]); 18] = [
    (
        "Rattle.std.specs.Prelude",
        &["refl", "true", "false", "List", "[]", "◌∷◌", "replicate"],
    ),
    ("Rattle.model.specs.Lanes", &["read_dword", "write_dword"]),
    ("Rattle.model.specs.Transfer", &["running"]),
    (
        "Rattle.model.specs.State",
        &[
            "World",
            "sound",
            "fresh_card",
            "fresh_world",
            "with_fifos",
            "with_arbitration",
            "with_mailboxes",
            "with_interrupts",
            "with_transfer",
            "with_dma",
        ],
    ),
    ("Rattle.model.specs.Runs", &["Entry"]),
    (
        "Rattle.model.specs.Accesses",
        &["Access", "Answer", "access"],
    ),
    ("Rattle.model.specs.Registers", &["register_access"]),
    (
        "Rattle.model.specs.Source",
        &["shared_memory", "window_memory", "source"],
    ),
    ("Rattle.model.specs.Pins", &["decode"]),
    ("Rattle.model.specs.Bursts", &["burst"]),
    ("Rattle.model.specs.Bays", &["at", "no_bay"]),
    (
        "Rattle.model.specs.Rescue",
        &[
            "scan",
            "listed",
            "after",
            "entries",
            "numbers_of",
            "rescue",
            "kept",
            "skipped",
            "count",
            "refused",
        ],
    ),
    (
        "Rattle.model.specs.Bench",
        &[
            "q",
            "r",
            "◌gives◌",
            "d",
            "g",
            "p",
            "bw",
            "br",
            "◌gets◌",
            "◌gets◌leaving◌",
            "CallCase",
            "bench",
        ],
    ),
    ("Rattle.model.specs.Trace", &["read_record"]),
    ("Rattle.model.specs.Replay", &["replay_records", "replay"]),
    ("Rattle.model.specs.Convert", &["written"]),
    (
        "Rattle.model.specs.Why",
        &[
            "never",
            "cleared_by",
            "set_by",
            "held",
            "history",
            "accesses_from",
            "refused",
            "because",
            "why",
        ],
    ),
    (
        "Rattle.cases.specs.Vectors",
        &[
            "settings",
            "pair",
            "mail",
            "interrupts",
            "request",
            "dma",
            "untouched",
            "world",
            "bytes",
            "part",
            "RunAgrees",
            "CallsAgree",
            "SourceCase",
            "source_case",
            "SourcesAgree",
            "PinCase",
            "pin_case",
            "PinsAgree",
            "BayCase",
            "bay_case",
            "BaysAgree",
            "EntriesCase",
            "entries_case",
            "EntriesAgree",
            "ListCase",
            "list_case",
            "ListsAgree",
            "WhyCase",
            "why_case",
            "holding",
            "WhysAgree",
            "SoundCase",
            "sound_case",
            "SoundnessAgrees",
            "FreshCase",
            "fresh_case",
            "FreshAgrees",
        ],
    ),
];

/// The lines for a text, which names nothing but what is offered or its own.
pub fn uses(text: &str) -> String {
    let words = words(text);
    OFFERED
        .iter()
        .filter_map(|(module, names)| use_line(module, names, &words))
        .collect()
}

/// The words outside of comments, but for the names that the text declares itself.
fn words(text: &str) -> BTreeSet<&str> {
    let lines = text.lines().filter(|line| !line.starts_with("--"));
    let mut words: BTreeSet<&str> = lines
        .clone()
        .flat_map(|line| line.split([' ', '(', ')', ',']))
        .collect();
    for (own, _) in lines.filter_map(|line| line.split_once(" : ")) {
        words.remove(own);
    }
    words
}

/// A name that several modules offer tells nothing of which one is meant: it is used of the one of
/// which another name is used too.
fn use_line(module: &str, names: &[&'static str], words: &BTreeSet<&str>) -> Option<String> {
    // an operator is offered as `◌∷◌` and written without its places, in one sign or more
    let signs = |name: &'static str| name.split('◌').filter(|sign| !sign.is_empty());
    let used = |name: &&&'static str| signs(name).all(|sign| words.contains(sign));
    let names: Vec<&str> = names.iter().filter(used).copied().collect();
    let is_meant = names.iter().any(|name| is_offered_once(name));
    is_meant.then(|| format!("use {module}.{{{}}}\n", names.join(", ")))
}

fn is_offered_once(name: &str) -> bool {
    let offers = |(_, names): &&(&str, &[&str])| names.contains(&name);
    OFFERED.iter().filter(offers).count() == 1
}

#[cfg(test)]
mod tests {
    use super::uses;

    #[test]
    fn only_what_is_used() {
        let text = "-- a list of mail\nlast : World\nlast = world (untouched x) (bytes [])\n";
        let lines = "use Rattle.std.specs.Prelude.{[]}\n\
                     use Rattle.model.specs.State.{World}\n\
                     use Rattle.cases.specs.Vectors.{untouched, world, bytes}\n";
        assert_eq!(uses(text), lines);
    }

    #[test]
    fn nothing_of_its_own() {
        let text = "entries : List Entry\nentries = []\nx : Access\nunfolding entries source\n";
        let lines = "use Rattle.std.specs.Prelude.{List, []}\n\
                     use Rattle.model.specs.Runs.{Entry}\n\
                     use Rattle.model.specs.Accesses.{Access}\n\
                     use Rattle.model.specs.Source.{source}\n";
        assert_eq!(uses(text), lines);
    }

    #[test]
    fn operators_by_their_sign() {
        let text = "x = q 1 gives r 0 ∷ y";
        let lines = "use Rattle.std.specs.Prelude.{◌∷◌}\n\
                     use Rattle.model.specs.Bench.{q, r, ◌gives◌}\n";
        assert_eq!(uses(text), lines);
    }

    #[test]
    fn calls_by_their_letters() {
        let text = "x = d 1 gets r 0 ∷ g 0x04bc gets r 0 ∷ y";
        let lines = "use Rattle.std.specs.Prelude.{◌∷◌}\n\
                     use Rattle.model.specs.Bench.{r, d, g, ◌gets◌}\n";
        assert_eq!(uses(text), lines);
    }

    #[test]
    fn bursts_by_their_words() {
        let text =
            "x = bw 1 0 0 [] gets r 0 0 0 ∷ br 1 0 0 (p 0 0 ∷ y) [] gets r 14 0 0 leaving []";
        let lines = "use Rattle.std.specs.Prelude.{[], ◌∷◌}\n\
                     use Rattle.model.specs.Bench.{r, p, bw, br, ◌gets◌, ◌gets◌leaving◌}\n";
        assert_eq!(uses(text), lines);
    }

    #[test]
    fn what_several_offer_by_what_stands_beside_it() {
        let text = "x = why_case [] [] 2 0 (refused 43)\nunfolding why";
        let lines = "use Rattle.std.specs.Prelude.{[]}\n\
                     use Rattle.model.specs.Why.{refused, why}\n\
                     use Rattle.cases.specs.Vectors.{why_case}\n";
        assert_eq!(uses(text), lines);
        let text = "x = list_case [] [] (refused 60) []\nunfolding rescue";
        let lines = "use Rattle.std.specs.Prelude.{[]}\n\
                     use Rattle.model.specs.Rescue.{rescue, refused}\n\
                     use Rattle.cases.specs.Vectors.{list_case}\n";
        assert_eq!(uses(text), lines);
    }
}
