#!/usr/bin/env python3
"""Counts, in crates/*/src and crates/*/proofs, the places that docs/DESIGN-PASS.md speaks of, point by point.

    python3 tools/design_census.py [FOLDER] [-v]

FOLDER is the top of a checkout, this one if it is left out; -v lists each place. It finds places by their text alone; which of them are what the
point means, the page says."""
import collections
import pathlib
import re
import sys

args = [a for a in sys.argv[1:] if not a.startswith('-')]
TOP = pathlib.Path(args[0] if args else '.')
VERBOSE = '-v' in sys.argv


def code(text):
    """Without comments, and without the clauses of contracts."""
    out, clause = [], False
    for line in text.split('\n'):
        bare = line.split('//')[0].rstrip()
        if re.match(r'\s*(requires|ensures|ghost)\b', bare) or clause:
            clause = not re.search(r'[};]\s*$', bare)
            out.append('')
            continue
        out.append(bare)
    return '\n'.join(out)


FILES = {}
CLAUSES = {}
for path in sorted(TOP.glob('crates/*/src/*.rt')):
    name = str(path.relative_to(TOP))
    FILES[name] = code(path.read_text())
    CLAUSES[name] = re.findall(r'^\s*requires(?: \w+)? \{(.*)\}\s*$', path.read_text(), re.M)


def functions():
    for name, text in FILES.items():
        for m in re.finditer(r'^( *)(?:pub )?fn (\w+)', text, re.M):
            end = re.search(r'^%s\}' % m.group(1), text[m.end():], re.M)
            if end:
                yield name, text[:m.start()].count('\n') + 1, m.group(2), text[m.start():m.end() + end.end()]


def said(point, what, places):
    print('%-3s %-78s %4d' % (point, what, len(places)))
    if VERBOSE:
        for place in places:
            print('        ' + place)


def lines(pattern, files=FILES):
    found = []
    for name, text in files.items():
        for n, line in enumerate(text.split('\n'), 1):
            if re.search(pattern, line):
                found.append('%s:%d %s' % (name, n, line.strip()))
    return found


def blocks(kind):
    for name, text in FILES.items():
        for m in re.finditer(r'^(?:pub )?%s (\w+)(?:<[^>]*>)? \{\n(.*?)^\}' % kind, text, re.M | re.S):
            yield name, m.group(1), [x.strip() for x in m.group(2).split('\n') if x.strip()]


# 1
said('1', 'enums of two variants, one at least with a value',
     ['%s %s' % (f, n) for f, n, b in blocks('enum') if len(b) == 2 and any('(' in x for x in b)])
said('1', 'structs with a bool beside other fields',
     ['%s %s' % (f, n) for f, n, b in blocks('struct') if len(b) > 1 and any(re.search(r': bool,', x) for x in b)])
said('1', 'constants that number a refusal', lines(r'^pub const (?!HOST|LOCAL)\w+: u8 = \d+;', {k: v for k, v in FILES.items() if '/access/' in k}))
said('1', 'numbered checks, one inside another', lines(r'\bwhen\($|\bwhen\((access::)?[A-Z_]+,'))
said('1', 'tests of a number that is 0 where nothing is refused', lines(r'\b(n|number|refusal|damage) (!=|==) (0|access::)'))
said('1', 'a value that stands for none', lines(r'\b(NO_ENTRY|NO_DIGIT|unreadable\(\)|isize)\b'))
said('1', 'kinds as bare numbers', lines(r'\basked\((\d+),|\bkind: \d+'))
# 2
tokens = collections.defaultdict(list)
shapes = collections.defaultdict(list)
for f, n, name, body in functions():
    text = re.sub(r'\b%s\b' % name, 'F', body)
    text = re.sub(r'\bpub (?:fn)', 'fn', text)
    same = re.sub(r'\b\d+\w*\b', 'N', text)
    tokens[' '.join(re.findall(r'\w+|\S', same))].append('%s:%d %s' % (f, n, name))
    words = re.findall(r'\w+|\S', re.sub(r'\b[a-z_]\w*\b', lambda m: m.group() if m.group() in
                       ('fn', 'if', 'else', 'match', 'while', 'for', 'in', 'return', 'let', 'mut', 'self', 'as', 'loop') else 'i', same))
    if len(words) >= 60:
        shapes[' '.join(re.sub(r'\b[A-Z]\w*\b', 'T', ' '.join(words)).split())].append('%s:%d %s' % (f, n, name))
mains = lambda g: all(x.endswith(' main') for x in g)
said('2', 'functions the same but for their own name and numbers', [x + ' = ' + g[0] for g in tokens.values() if len(g) > 1 for x in g[1:]])
said('2', 'longer functions the same but for names, types and numbers', [x + ' = ' + g[0] for g in shapes.values() if len(g) > 1 and not mains(g) for x in g[1:]])
# 3
said('3', '`while` and `loop`', lines(r'^\s*(while|loop)\b'))
said('3', 'of these, with a line that steps a place or a count by a constant', [
    '%s:%d %s' % (f, n, name) for f, n, name, body in functions()
    if re.search(r'^\s*(while|loop)\b', body, re.M) and re.search(r'^\s*\w+ [-+]= (\d+|size);', body, re.M)])
# 4
said('4', 'fields given by a variable of their name, written twice', lines(r'^\s*(\w+): \1,$'))
said('4', 'fields copied to a local of their name', lines(r'^\s*let (\w+) = [\w.]+\.\1;$'))
said('4', 'conversions from and to a byte by functions', lines(r'fn (of_byte|number)\('))
said('4', 'values of zeros written out', ['%s:%d %s' % (f, n, name) for f, n, name, body in functions()
     if name in ('fresh', 'zero', 'none', 'empty', 'start', 'first') and '()' in body.split('\n')[0] and ': 0,' in body])
# 5
facts = collections.Counter()
for name, clauses in CLAUSES.items():
    for clause in clauses:
        for part in clause.split('×'):
            facts[re.sub(r'[()\s]+', ' ', part).strip()] += 1
said('5', 'facts that three `requires` or more state', ['%3d %s' % (k, fact) for fact, k in facts.most_common() if k >= 3])
pairs = collections.Counter()
for f, n, name, body in functions():
    head = re.search(r'\((.*?)\)(?: ->|\s*$|\s*\{)', body, re.S)
    params = [p.strip() for p in head.group(1).split(',') if ':' in p] if head else []
    for a, b in zip(params, params[1:]):
        pairs[a + ', ' + b] += 1
said('5', 'neighbouring parameters that three functions or more have', ['%3d %s' % (k, p) for p, k in pairs.most_common() if k >= 3])
# 6
said('6', 'a buffer with its count beside it, or two of one type, in a struct', [
    '%s %s' % (f, n) for f, n, b in blocks('struct')
    if any('[' in x for x in b) and (any(re.search(r'\b(count|len|size): ', x) for x in b) or sum('[' in x for x in b) > 1)])
said('6', 'numbers packed into one another', lines(r'4294967296 \+|/ 4294967296|<< 32|>> 32'))
# 7
said('7', 'which step to run, by a value', lines(r'\bmatch (from|output)\b|\bif (how|what|reading|burst\.reads|head\.what)\b'))
# 8
answers = sorted(TOP.glob('crates/*/proofs/**/Answers.antt'))
invariants = sorted(TOP.glob('crates/*/proofs/**/Invariants.antt'))
said('8', 'files of answers', [str(p.relative_to(TOP)) for p in answers])
print('    %-78s %4d' % ('their lines', sum(len(p.read_text().splitlines()) for p in answers)))
said('8', 'files of invariants', [str(p.relative_to(TOP)) for p in invariants])
print('    %-78s %4d' % ('their lines', sum(len(p.read_text().splitlines()) for p in invariants)))
print('    %-78s %4d' % ('lines of src/', sum(len((TOP / f).read_text().splitlines()) for f in FILES)))
