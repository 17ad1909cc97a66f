#!/usr/bin/env python3
"""Moves the laws of model and reordering from specs/ to proofs/, where an edit of a definition is refused by them.

usage, once, at the top of the repository:  python3 tools/split_laws.py

A definition that contracts cite and that stood among laws goes to the page of specs/ on its subject first.
"""
import glob
import os
import re

LAWS = {
    "model": [n for n in sorted(os.path.basename(p)[:-5] for p in glob.glob("crates/model/specs/*.antt"))
              if re.search(r"(Laws|Cases)$", n) or n in ("FifoRuns", "WhyRuns", "Refusals", "RegisterRefusals", "Soundness")],
    "reordering": ["BurstExchange", "CallExchange", "Commute", "Ending", "Exchange", "Flattening", "Kinds", "Moving", "Premise", "Stepping"],
}
# a definition, where it stood, where it goes
MOVED = [
    ("two_digits", "TextLaws", "Text"),
    ("is_up", "ReasonLaws", "Why"), ("held_by", "ReasonLaws", "Why"), ("turned", "ReasonLaws", "Why"), ("Moved", "ReasonLaws", "Why"),
    ("settled_by", "ReasonLaws", "Why"), ("stored_bit", "ReasonLaws", "Why"),
    ("value_in", "BurstLaws", "Bursts"), ("left_by", "BurstLaws", "Bursts"), ("done_entry", "BurstLaws", "Bursts"),
    ("entries_from", "BurstLaws", "Bursts"), ("shared_from", "BurstLaws", "Bursts"),
    ("reading_number", "TraceLaws", "Trace"),
    ("kept_first", "ScanLaws", "Rescue"), ("size_of", "ScanLaws", "Rescue"), ("sizes", "ScanLaws", "Rescue"), ("entries_from", "ScanLaws", "Rescue"),
    ("does", "KindLaws", "Accesses"), ("All", "TestLaws", "Choice"), ("replay_chunks", "ReplayLaws", "Replay"),
]


def read(p):
    return open(p, encoding="utf-8").read()


def write(p, t):
    open(p, "w", encoding="utf-8").write(t)


for name, old, new in MOVED:
    path, to = f"crates/model/specs/{old}.antt", f"crates/model/specs/{new}.antt"
    lines = read(path).split("\n")
    i = next(i for i, l in enumerate(lines) if re.match(rf"(?:(?:abbrev|unfoldable|pub|record|data) )+{name} ", l))
    first = i
    while lines[first - 1].startswith("-- "):
        first -= 1
    end = i + 1
    while end < len(lines) and lines[end].strip():
        end += 1
    block = lines[first:end]
    del lines[first:end + 1]
    write(path, "\n".join(lines))
    write(to, read(to).rstrip("\n") + "\n\n" + "\n".join(block) + "\n")
    # who imported it from the laws imports it from the page, and the laws themselves do
    for p in glob.glob("crates/*/specs/**/*.antt", recursive=True) + glob.glob("crates/*/proofs/**/*.antt", recursive=True) + glob.glob("crates/*/src/**/*.rt", recursive=True):
        text = read(p)
        m = re.search(rf"(?m)^((?:ghost )?use Rattle\.model\.specs\.){old}\.\{{([^}}]*)\}}(;?)$", text)
        line = None
        if m and name in [w.strip() for w in m[2].split(",")]:
            rest = [w.strip() for w in m[2].split(",") if w.strip() != name]
            line = f"{m[1]}{new}.{{{name}}}{m[3]}"
            text = text.replace(m[0], (f"{m[1]}{old}.{{{', '.join(rest)}}}{m[3]}\n" if rest else "") + line)
            write(p, text)
    text = read(path)
    last = max(m.end() for m in re.finditer(r"(?m)^use .*$", text))
    write(path, text[:last] + f"\nuse Rattle.model.specs.{new}.{{{name}}}" + text[last:])

for crate, names in LAWS.items():
    os.makedirs(f"crates/{crate}/proofs", exist_ok=True)
    lib = read(f"crates/{crate}/specs/Lib.antt").rstrip("\n").split("\n")
    keep = [l for l in lib if not any(l == f"pub mod {n}" for n in names)]
    gone = [l for l in lib if l not in keep]
    write(f"crates/{crate}/specs/Lib.antt", "\n".join(keep) + "\n")
    write(f"crates/{crate}/proofs/Lib.antt", "\n".join(gone) + "\n")
    for n in names:
        os.rename(f"crates/{crate}/specs/{n}.antt", f"crates/{crate}/proofs/{n}.antt")
    alternatives = "|".join(names)
    for p in glob.glob("crates/*/specs/**/*.antt", recursive=True) + glob.glob("crates/*/proofs/**/*.antt", recursive=True) + glob.glob("crates/*/src/**/*.rt", recursive=True) + glob.glob("docs/*.md"):
        text = read(p)
        turned = re.sub(rf"Rattle\.{crate}\.specs\.({alternatives})(?![\w])", rf"Rattle.{crate}.proofs.\1", text)
        if turned != text:
            write(p, turned)
