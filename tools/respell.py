#!/usr/bin/env python3
"""Brings the repository's own words in antt to snake case: isLast -> is_last, getD-paste -> get_or-paste.

usage: tools/respell.py [--check] [TOP]

Types and modules keep their upper camel case, names of Rust code are in snake case already. The words are those of crates/*/specs and
crates/*/proofs; they are turned there, in the clauses of crates/*/src, in must-fail edits and in the pages below. It refuses to run where
two words would become one.
"""
import os
import re
import sys

PAGES = ["README.md", "docs/ARCHITECTURE.md", "docs/CASES.md", "docs/CLAIMS.md", "docs/DECISIONS.md", "docs/IDLE.md",
         "docs/PERFORMANCE.md", "docs/REPLAY.md", "docs/RULES.md", "docs/SAFETY.md", "docs/TRACE.md"]
# Words that are std's under another name, or that would be another word's.
OWN = {"getD-paste": "get_or-paste", "getD-union": "get_or-union", "fieldPut": "put_field", "fixedAnswer": "constant_answer", "oneMore": "one_added", "readBack": "reread"}
TOKEN = re.compile(r"[^\s(){}\[\].;,:@\"«»λ`/|]+")
HUMP = re.compile(r"(?<=[a-z0-9])(?=[A-Z])")


def files(top):
    for folder, dirs, names in os.walk(os.path.join(top, "crates")):
        dirs[:] = sorted(d for d in dirs if d != "out")
        for name in sorted(names):
            if name.endswith((".antt", ".rt", ".edit")):
                yield os.path.join(folder, name)


def is_word(token):
    """A name in camel case; in-DraftName is none, since DraftName is a variant, whose name stays."""
    parts = [part for part in token.split("-") if HUMP.search(part)]
    return token[0].islower() and any(part[0].islower() for part in parts) and re.fullmatch(r"[\w'′₀-₉≢≡<≤-]+", token) is not None


def snake(word):
    if word in OWN:
        return OWN[word]
    return re.sub(r"[A-Z]", lambda m: m.group().lower(), HUMP.sub("_", word))


def words(top):
    """The words to turn, and what a file has of two words that would become one."""
    humps, clashes = set(), []
    for path in files(top):
        if path.endswith(".antt"):
            with open(path, encoding="utf-8") as f:
                text = re.sub(r"--[^\n]*", "", f.read())
            tokens = set(TOKEN.findall(re.sub(r"Rattle(?:\.\w+)+|\.[\w-]+", " ", text)))
            own = {t for t in TOKEN.findall(text) if is_word(t)}
            humps |= own
            clashes += [f"{path}: {t} and {snake(t)}" for t in sorted(own) if snake(t) in tokens]
    return humps, clashes


def main(argv):
    check = "--check" in argv
    rest = [a for a in argv if a != "--check"]
    top = rest[0] if rest else os.path.dirname(os.path.dirname(os.path.realpath(__file__)))
    humps, clashes = words(top)
    table, taken = {}, {}
    for word in sorted(humps):
        table[word] = snake(word)
        taken.setdefault(table[word], []).append(word)
    clashes += [f"{new}: {' and '.join(olds)}" for new, olds in sorted(taken.items()) if len(olds) > 1]
    for line in clashes:
        print(line)
    bad = len(clashes)
    if bad or check:
        print(f"{len(table)} words, {bad} fall together")
        return 1 if bad else 0
    changed = 0

    def turned(text):
        return TOKEN.sub(lambda m: table.get(m.group(), m.group()), text)

    for path in list(files(top)) + [os.path.join(top, p) for p in PAGES]:
        if not os.path.exists(path):
            continue
        with open(path, encoding="utf-8") as f:
            old = f.read()
        new = turned(old)
        if new != old:
            changed += 1
            with open(path, "w", encoding="utf-8") as f:
                f.write(new)
    print(f"{len(table)} words, {changed} files")
    return 0


if __name__ == "__main__":
    sys.exit(main(sys.argv[1:]))
