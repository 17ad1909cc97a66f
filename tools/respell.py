#!/usr/bin/env python3
"""Spells the names of this repository's definitions, lemmas, fields and variables in snake case, as the library spells its own.

usage, at the top of the repository:  python3 tools/respell.py [--dry]

A name is turned where a text of specs/ or proofs/ declares or binds it and no library does. What Rattle makes from the source
(`goal.`, `tie.` and what stands behind the name of a step) stays. In comments only names in lower camel case are turned.
A lemma that would have the name of a function gets `_lem`. Names of one file that fall together are printed: a Rust function and
a definition may have the same name, two definitions may not.
"""
import glob
import re
import sys

NAME = r"[^\s(){}.;,@\"«»`]+"
ODD = re.compile(r"[a-z0-9]-|[a-z][A-Z]")
OWN = set(re.findall(r"(?m)^(\w+):", open("crates.txt").read()))
KEEP = {"if-then-else", "--"}


def snake(name):
    return re.sub(r"(?<=[a-z0-9])[A-Z]", lambda m: "_" + m[0].lower(), name).replace("-", "_")


def code_of(line):
    m = re.search(r"(^|\s)--(\s|$)", line)
    return (line[: m.start()], line[m.start():]) if m else (line, "")


texts = {p: open(p, encoding="utf-8").read() for p in sorted(
    glob.glob("crates/*/specs/**/*.antt", recursive=True) + glob.glob("crates/*/proofs/**/*.antt", recursive=True))}
sources = {p: open(p, encoding="utf-8").read() for p in sorted(glob.glob("crates/*/src/**/*.rt", recursive=True))}


def is_walk(path):
    return path.endswith(("Proof.antt", "Answers.antt", "Invariants.antt"))


lent, own = set(), set()
for path, text in list(texts.items()) + list(sources.items()):
    for m in re.finditer(r"\buse ([^\s;{]+?)\.?\{([^}]*)\}", text):
        steps = m[1].split(".")
        if not (steps[0] == "Rattle" and steps[1] in OWN):
            lent |= {w.split(" as ")[0].strip() for w in m[2].split(",")}
for path, text in texts.items():
    if is_walk(path):
        for line in text.split("\n"):
            m = re.match(rf"\s*(?:(?:abbrev|pub|unfoldable) )*({NAME}) :\s", line)
            if m and not re.search(r":\s*(tie|goal)\.", line):
                own.add(m[1])
        continue
    for line in text.split("\n"):
        code = code_of(line)[0]
        if re.match(r"\s*(pub )?use ", code):
            continue
        # a word behind a dot is a field, which its own record declares
        own |= set(re.findall(rf"(?<![^\s(){{}};,@«»`]){NAME}", code))
own = {w for w in own if ODD.search(w) and (w[0].islower() or w[0] == "◌") and w not in lent | KEEP and not w.startswith("--")}
turned = {w: snake(w) for w in own if snake(w) != w}
for w in list(turned):
    if w.startswith("◌"):
        turned[w.strip("◌")] = turned[w].strip("◌")

# A lemma that would have its function's name gets `_lem`: one spelled with dashes beside a function in camel case or beside a
# library's function, and one that is spelled so already.
declared = {}
for path, text in texts.items():
    for line in text.split("\n"):
        m = re.match(rf"\s*(?:(abbrev|unfoldable|record|data|pub) )*({NAME}) :\s", code_of(line)[0])
        if m:
            declared.setdefault(m[2], set()).add(path)
back = {}
for w in turned:
    back.setdefault(turned[w], set()).add(w)
lemmas = {}
for word, many in sorted(back.items()):
    dashed = [w for w in many if "-" in w]
    if (len(many) > 1 and dashed) or (dashed and word in lent):
        for w in dashed:
            turned[w] = word + "_lem"
    if word in declared and any("-" not in w for w in many):
        lemmas[word] = word + "_lem"
    elif word in declared and word in (w for p in declared[word] for w in texts[p].split()) and dashed:
        for w in dashed:
            turned[w] = word + "_lem"

fell = []
for path, text in list(texts.items()) + list(sources.items()):
    words = set()
    for line in text.split("\n"):
        code = code_of(line)[0] if path.endswith(".antt") else line.split("//")[0]
        words |= set(re.findall(rf"(?<![.\w-]){NAME}" if path.endswith(".antt") else r"[\w'-]+", code))
    for w in words & set(turned):
        if turned[w] in words and turned[w] not in lemmas:
            fell.append((path, w, turned[w]))
for f in fell:
    print("look: falls together:", *f)
print("lemmas:", lemmas)
print("lemmas beside functions:", {w: t for w, t in turned.items() if t.endswith("_lem")})


def turn_word(m):
    return turned.get(m[0]) or lemmas.get(m[0], m[0])


def turn_field(m):
    return turned.get(m[0], m[0])


def turn_rust(m):
    return turned.get(m[0], m[0])


def turn_text(path, text):
    out = []
    for line in text.split("\n"):
        code, comment = code_of(line)
        if is_walk(path):
            # behind `tie.` and `goal.`, and behind a step's dot, stand names that Rattle makes
            code = re.sub(rf"(?<![^\s(){{}};,@«»`]){NAME}", lambda m: m[0] if re.match(r"(tie|goal)$", m[0]) else turn_word(m), code) \
                if not re.search(r":\s*(tie|goal)\.", code) else code
            code = re.sub(rf"(?<=\.)[a-z]+(?:[A-Z]\w*)+(?![\w-])", turn_field, code)
        else:
            code = re.sub(rf"(?<!\.){NAME}", turn_word, code)
            code = re.sub(rf"(?<=\.){NAME}", turn_field, code)
        comment = re.sub(r"(?<![\w-])[a-z]+(?:[A-Z]\w*)+(?![\w-])", turn_word, comment)
        comment = re.sub(r"`[^`]*`", lambda m: re.sub(NAME, turn_word, m[0]), comment)
        out.append(code + comment)
    return "\n".join(out)


def turn_source(text):
    parts = re.split(r'("(?:[^"\\\n]|\\.)*")', text)
    return "".join(p if p.startswith('"') else re.sub(r"(?<![\w\"'-])[\w']+(?:-[\w']+)*(?![\w-])", turn_rust, p) for p in parts)


if "--dry" in sys.argv:
    print(len(turned), "names")
    print(" ".join(sorted(turned)))
    sys.exit(0)
count = 0
for path, text in texts.items():
    new = turn_text(path, text)
    if new != text:
        count += 1
        open(path, "w", encoding="utf-8").write(new)
for path, text in sources.items():
    new = turn_source(text)
    if new != text:
        count += 1
        open(path, "w", encoding="utf-8").write(new)
print(len(turned), "names turned in", count, "files")
