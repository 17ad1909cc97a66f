#!/usr/bin/env python3
"""Takes `if◌then◌else◌` from the library, where the repository had its own of the same meaning.

usage, once, at the top of the repository:  python3 tools/library_if.py
"""
import glob
import re

NAME = "if◌then◌else◌"
for p in glob.glob("crates/*/specs/**/*.antt", recursive=True) + glob.glob("crates/*/proofs/**/*.antt", recursive=True) + glob.glob("crates/*/src/**/*.rt", recursive=True):
    text = open(p, encoding="utf-8").read()
    m = re.search(r"(?m)^((?:ghost )?use )Rattle\.model\.specs\.Choice\.\{([^}]*)\}(;?)\n", text)
    if not m or NAME not in m[2]:
        continue
    rest = [w.strip() for w in m[2].split(",") if w.strip() != NAME]
    text = text.replace(m[0], f"{m[1]}Rattle.model.specs.Choice.{{{', '.join(rest)}}}{m[3]}\n" if rest else "")
    prelude = re.search(r"(?m)^(?:ghost )?use Rattle\.std\.specs\.Prelude\.\{([^}]*)\}", text)
    common = re.search(r"(?m)^(?:ghost )?use Rattle\.std\.proofs\.Common\.\{([^}]*)\}", text)
    at = prelude or common
    if at:
        text = text[: at.end(1)] + ", " + NAME + text[at.end(1):]
    else:
        i = re.search(r"(?m)^(?:ghost )?use ", text).start()
        text = text[:i] + f"{m[1]}Rattle.std.specs.Prelude.{{{NAME}}}{m[3]}\n" + text[i:]
    open(p, "w", encoding="utf-8").write(text)

p = "crates/model/specs/Choice.antt"
text = open(p, encoding="utf-8").read()
text = re.sub(r"infix 4 if◌then◌else◌\n.*\n.*\n.*\n\n", "", text)
open(p, "w", encoding="utf-8").write(text)
