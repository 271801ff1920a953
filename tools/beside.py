#!/usr/bin/env python3
"""Writes the end of docs/DESIGN-PASS.md: what changed since a commit, old beside new.

python3 tools/beside.py CONTRACTS: CONTRACTS is what the kit's port/contracts.py says of the two trees, with --json
(python3 /opt/rattle/port/contracts.py OLD-TREE . --json > CONTRACTS). It prints Markdown: public signatures, clauses,
definitions and the statements of laws; of a law whose proof alone changed it prints nothing."""
import json
import re
import sys
import textwrap

d = json.load(open(sys.argv[1], encoding='utf-8'))


def block(sign, text):
    lines = textwrap.wrap(text, 112, break_long_words=False, break_on_hyphens=False)
    return '\n'.join((sign + ' ' if i == 0 else '    ') + line for i, line in enumerate(lines))


def beside(title, old, new):
    return '%s\n\n```\n%s\n%s\n```\n' % (title, block('-', old), block('+', new))


def statement(name, text):
    """What a declaration says: of a law its type, of a definition all of it."""
    text = ' '.join(text) if isinstance(text, list) else text
    text = re.sub(r'\s+', ' ', text).strip()
    if re.match(r'(abbrev|unfoldable|pub data|pub record|data|record|const)', text):
        return text
    head = re.match(r'(pub )?\S+ :', text)
    if not head:
        return text
    tail = text[head.end():]
    cut = re.search(r' unfolding | where |(?<= )' + re.escape(name) + r' (?=[^→×≡]*=)|(?<= )' + re.escape(name) + r' =', tail)
    return text[:head.end()] + (tail[:cut.start()].rstrip() if cut else tail)


print('### Signatures\n')
for name, old, new in d['signatures changed']:
    print(beside('`%s`' % name, old, new))
print('### Clauses\n')
for name, *sides in d['contracts changed']:
    def flat(side):
        return '; '.join((c[0] + ' ' if c[0] else '') + c[1] for part in side for c in (part if part and isinstance(part[0], list) else [part]) if c)
    half = len(sides) // 2
    print(beside('`%s`' % name, ' ;; '.join(flat([s]) for s in sides[:half]), ' ;; '.join(flat([s]) for s in sides[half:])))
print('### Definitions and statements\n')
for crate, name, old, new in [(x[0], x[1], x[2], x[3]) for x in d['definitions']['changed']]:
    a, b = statement(name, old), statement(name, new)
    if a != b:
        print(beside('%s, `%s`' % (crate, name), a, b))
