#!/usr/bin/env python3
"""Counts the places of the design pass (docs/DESIGN-PASS.md) in crates/*/src: python3 tools/design.py [POINT..] [-v].

Each point has one or more counts. What a count finds by its words alone (a cast, a loop, an enum) it finds by a pattern;
twins and things that travel together are found by comparing all functions. -v prints the places."""
import collections
import glob
import re
import sys

ARGS = [a for a in sys.argv[1:] if not a.startswith('-')]
VERBOSE = '-v' in sys.argv
FILES = sorted(glob.glob('crates/*/src/*.rt'))
TEXT = {f: open(f, encoding='utf-8').read() for f in FILES}
WORD = re.compile(r'[A-Za-z_]\w*|\d+|[^\s\w]')


def places(pattern, only_code=True):
    out = []
    for f, text in TEXT.items():
        for n, line in enumerate(text.split('\n'), 1):
            code = line.split('//')[0] if only_code else line
            if re.search(pattern, code):
                out.append((f, n, line.strip()))
    return out


def functions():
    """(file, line, name, parameters, clauses, body) of every function."""
    for f, text in TEXT.items():
        for m in re.finditer(r'(?m)^ *(?:pub )?(?:extern "C" )?fn (\w+)(?:<[^(]*>)?\(', text):
            at, depth = m.end(), 1
            while depth:
                depth += {'(': 1, ')': -1}.get(text[at], 0)
                at += 1
            parameters = text[m.end():at - 1]
            rest = text[at:]
            b = re.search(r'\n *\{\n|(?<!requires) \{\n', rest)
            end = re.search(r'(?m)^' + re.match(r' *', text[m.start():]).group() + r'\}$', rest)
            if not b or not end or b.start() > end.start():
                continue
            line = text[:m.start()].count('\n') + 1
            yield f, line, m.group(1), parameters, rest[:b.start()], rest[b.end():end.start()]


FUNCTIONS = list(functions())


def shape(body):
    """The words of a body, names and numbers as they come first."""
    names, out = {}, []
    keep = {'if', 'else', 'while', 'for', 'in', 'let', 'mut', 'return', 'match', 'as', 'true', 'false'}
    for w in WORD.findall(re.sub(r'//.*', '', body)):
        if re.match(r'[A-Za-z_0-9]', w) and w not in keep:
            w = names.setdefault(w, 'n%d' % len(names))
        out.append(w)
    return out


def twins():
    """Functions whose bodies have one shape, whatever the names: at least twelve words."""
    groups = collections.defaultdict(list)
    for f, line, name, _, _, body in FUNCTIONS:
        s = shape(body)
        if len(s) >= 12:
            groups[' '.join(s)].append((f, line, name))
    return [p for g in groups.values() if len(g) > 1 for p in g]


def near():
    """Functions whose bodies have nine words in ten in common, in their order, with others that are no twins."""
    import difflib
    done = {(f, line) for f, line, _ in twins()}
    items = [(f, line, name, [w for w in WORD.findall(re.sub(r'//.*', '', body))]) for f, line, name, _, _, body in FUNCTIONS]
    items = [i for i in items if len(i[3]) >= 30]
    out = {}
    for i, a in enumerate(items):
        for b in items[i + 1:]:
            if min(len(a[3]), len(b[3])) < 0.75 * max(len(a[3]), len(b[3])):
                continue
            if difflib.SequenceMatcher(None, a[3], b[3], autojunk=False).ratio() >= 0.8:
                for x in (a, b):
                    if (x[0], x[1]) not in done:
                        out[(x[0], x[1])] = x[:3]
    return sorted(out.values())


def tables():
    """Functions that only give an array of one value."""
    return [(f, line, name) for f, line, name, _, _, body in FUNCTIONS if re.fullmatch(r'\s*\[\w+; \w+\]\s*', body)]


def together():
    """Parameters, by name and type, that stand side by side in three functions or more: the pairs."""
    seen = collections.Counter()
    for _, _, _, parameters, _, _ in FUNCTIONS:
        ps = [re.sub(r"\s+|'\w+ ?", '', p) for p in parameters.split(',') if ':' in p]
        for i, a in enumerate(ps[:-1]):
            seen[(a, ps[i + 1])] += 1
    return [('%d functions' % n, a, b) for (a, b), n in seen.most_common() if n >= 3]


def repeated():
    """Facts that stand in the requires of three functions or more."""
    seen = collections.Counter()
    for _, _, _, _, clauses, _ in FUNCTIONS:
        for r in re.findall(r'requires \w* ?\{(.*?)\}\n', clauses + '\n', re.S):
            for fact in set(re.split(r' × (?![^(]*\))', re.sub(r'\s+', ' ', r).strip())):
                seen[fact] += 1
    return [('%d functions' % n, a, '') for a, n in seen.most_common() if n >= 3]


COUNTS = [
    ('1', 'own enums', lambda: places(r'^(pub )?enum ')),
    ('1', 'a number that stands for none, by the comments', lambda: places(
        r'//.*\b(256|0) (stands for|where|for none|is none)|//.*\bor (as )?(256|0)\b|//.*0, where none|// .* with 0\.', False)),
    ('1', 'a Boolean beside a value, in a struct', lambda: places(r'^    pub \w+: bool,')),
    ('1', 'numbers of kinds and refusals', lambda: places(
        r'\bkind(: u8|\b.*[=(,] ?\d)|fn \w*number\w*\(|Record::\w+.*=> \[\d|^ +\d => read_')),
    ('2', 'functions of one shape', twins),
    ('2', 'functions that are nearly one', near),
    ('2', 'tables of one value', tables),
    ('3', 'while loops', lambda: places(r'^\s*while ')),
    ('3', 'for loops', lambda: places(r'^\s*(\'\w+: )?for ')),
    ('4', 'casts', lambda: places(r' as (u8|u16|u32|u64|usize)\b')),
    ('4', 'order, copy, bytes and digits by hand', lambda: places(
        r'fn (lesser|rows_alike|still_alike|put_\w+|number|write_bytes|write_decimal|wide|clear_\w+|no_\w+|value_or|\w+_number)\(')),
    ('5', 'parameters side by side in three functions or more', together),
    ('5', 'facts in the requires of three functions or more', repeated),
    ('6', 'a buffer and a place or a length beside it', lambda: places(
        r'^\s*(at|start|length|n|from|listed): (usize|&\[u8\]),?$|\b(listing|output|flags|links): &(mut )?\[u\d+\], (at|n)')),
    ('6', 'parallel arrays', lambda: places(r'\b(selves|earlies|earlier|later|forward|backward|w[0-3]): (&|\[|u64)')),
    ('7', 'a test that chooses the way', lambda: places(r'scale == 1|match kind|read_\w+_first\(')),
]

for point, what, find in COUNTS:
    if ARGS and point not in ARGS:
        continue
    found = find()
    print('%s  %-52s %4d' % (point, what, len(found)))
    if VERBOSE:
        for p in found:
            print('     ', *p)
