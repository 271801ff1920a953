#!/usr/bin/env python3
"""Brings the repository's own definitions and lemmas to the spelling of today's Rattle.

Run once at the top of the repository, behind the kit's port.py. The names and their new spelling stand in respell.txt.
Whole words alone are changed: in definitions and proofs, in the clauses and `ghost use` lines of Rattle code, in the
changes of must-fail/, and in comments and pages where a word is unmistakably such a name. A second run changes nothing.
"""
import os
import re
import subprocess
import sys

HERE = os.path.dirname(os.path.abspath(__file__))
PART = r"[^\s(){}\[\],;.:λ«»`\"]+"
WORD = re.compile(PART)
# what a proof that walks the code is handed: a name behind these was made from Rust's
MADE = {"c", "before", "args", "tie"}


def read_table():
    table, fields = {}, set()
    with open(os.path.join(HERE, "respell.txt"), encoding="utf-8") as f:
        for line in f:
            words = line.split()
            if not words or words[0].startswith("#"):
                continue
            table[words[0]] = words[1]
            if words[2:] == ["field"]:
                fields.add(words[0])
    return table, fields


TABLE, FIELDS = read_table()


def respell(text, walk):
    """Code without comments: each word of the table that does not stand behind a dot, and each field."""

    def new(m):
        word = m.group()
        if word not in TABLE:
            return word
        at = m.start()
        if at >= 2 and text[at - 1] == "." and re.match(r"[^\s.]", text[at - 2]):
            behind = re.search(PART + r"$|[)\]}]$", text[: at - 1])
            head = behind.group() if behind else ""
            if text[: at - 1].endswith("λ " + head) or re.search(r"λ[^.()]*$", text[: at - 1]):
                return TABLE[word]
            if word not in FIELDS or (walk and head in MADE):
                return word
        return TABLE[word]

    return WORD.sub(new, text)


def told(text):
    """Prose: names in backticks, and elsewhere those with a capital inside."""

    def ticked(m):
        return "`" + WORD.sub(lambda w: TABLE.get(w.group(), w.group()), m.group(1)) + "`"

    def plain(m):
        word = m.group()
        return TABLE[word] if word in TABLE and re.search("[A-Z]", word) else word

    out, at = [], 0
    for m in re.finditer(r"`([^`\n]*)`", text):
        out.append(WORD.sub(plain, text[at : m.start()]))
        out.append(ticked(m))
        at = m.end()
    out.append(WORD.sub(plain, text[at:]))
    return "".join(out)


def by_lines(text, comment, code):
    """The lines' code and their comments, which begin with a mark, each changed by its own rule."""
    out = []
    for line in text.split("\n"):
        m = comment.search(line)
        at = m.start(1) if m else len(line)
        out.append(code(line[:at]) + told(line[at:]))
    return "\n".join(out)


ANTT = re.compile(r"(?:^|\s)(--(?:\s.*)?)$")
RUST = re.compile(r"(//.*)$")


def quoted(line, walk=False):
    """Code whose strings stay."""
    parts = re.split(r'("(?:[^"\\]|\\.)*")', line)
    return "".join(p if i % 2 else respell(p, walk) for i, p in enumerate(parts))


def change(path, text):
    if path.endswith(".antt"):
        walk = path.endswith("Proof.antt")
        return by_lines(text, ANTT, lambda s: respell(s, walk))
    if path.endswith(".rt"):
        return by_lines(text, RUST, quoted)
    if path.endswith(".edit"):
        out = []
        for line in text.split("\n"):
            if line.startswith("#"):
                out.append(told(line))
            elif line.startswith("file:"):
                out.append(line)
            else:
                out.append(by_lines(line, RUST, quoted))
        return "\n".join(out)
    return told(text)


def main():
    listed = subprocess.run(["git", "ls-files", "-z"], capture_output=True, check=True).stdout.decode("utf-8")
    changed = 0
    for path in sorted(p for p in listed.split("\0") if p):
        page = path.endswith(".md") and (path == "README.md" or path.startswith("docs/"))
        if not (page or (path.startswith("crates/") and path.endswith((".antt", ".rt", ".edit")))):
            continue
        with open(path, encoding="utf-8", newline="") as f:
            old = f.read()
        text = change(path, old)
        if text != old:
            with open(path, "w", encoding="utf-8", newline="") as f:
                f.write(text)
            changed += 1
    print(f"{len(TABLE)} names, {changed} files changed")


if __name__ == "__main__":
    sys.exit(main())
