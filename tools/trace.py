#!/usr/bin/env python3
"""Holds docs/RULES.md, the numbered rules, and docs/TRACE.md, the map from them to the proofs, to each other and to the repository.

Of the rules: each row is a number and a text, under its section's letters, and the numbers of a section rise. Of the map: its
rows have the numbers of the rules, each once and in their order. Everything in backticks there is a file, or a file and a name
in it after a colon; it fails if a file is gone, if a name is not defined in its file, or if a row lacks a cell. A law of
`proofs/` is one that docs/CLAIMS.md lists, since any other could be weakened unseen. Of every file, these two too: a rule's
number that is cited is there, or, in a patch, is that of a rule which it adds. The edits that docs/IDLE.md names have to be
there as well.
"""
import os
import re
import sys

ROOT = os.path.join(os.path.dirname(os.path.abspath(__file__)), "..")
RULES = "docs/RULES.md"
PAGE = "docs/TRACE.md"
IDLE = "docs/IDLE.md"
CLAIMS = "docs/CLAIMS.md"
CELLS = 4       # rule, definition, promise or theorem, edit or test
NUMBER = r"([A-VX-Z]|W\d\d\d)-(\d+)"
HEADING = re.compile(r"## (\w+): .")
# A number that is cited. UTF-8, a change request such as W-205 and a difference such as T2-T1 are none.
CITED = re.compile(rf"(?<![\w-]){NUMBER}(?![\w-])")
# Folders that hold nothing of ours, or what a tool made; and the tests of this check, which cite what is not there.
PASSED_OVER = {".git", "target", "out", "__pycache__", "trace_test.py"}

# How a line that defines a name begins, by the file's ending. A case file has no names: a comment there begins with the text.
DEFINED = {
    ".antt": r"\s*(?:(?:pattern|pub|abbrev|unfoldable)\s+)*(?:(?:record|data)\s+{0}(?![^\s(]).*|{0}) :(?:\s|$)",
    ".rt": r".*\b(?:fn|struct|enum|const)\s+{0}(?![\w])",
    ".rs": r".*\b(?:fn|struct|enum|const)\s+{0}(?![\w])",
    ".py": r"\s*(?:def|class)\s+{0}(?![\w])",
    ".h": r".*\b{0}\(",
    "": r"# {0}(?![\w])",
}


def read(path):
    with open(os.path.join(ROOT, path), encoding="utf-8", errors="replace") as text:
        return text.read()


def find(path):
    """A path from the repository's top, or one of a crate, where `crates/` is left off."""
    for place in (path, os.path.join("crates", path)):
        if os.path.exists(os.path.join(ROOT, place)):
            return place
    return None


def fault(name):
    """What is wrong with a name, or nothing."""
    path, _, inner = name.partition(":")
    place = find(path)
    if place is None:
        return f"no file {path}"
    if not inner:
        return None
    ending = os.path.splitext(path)[1]
    if ending not in DEFINED or os.path.isdir(os.path.join(ROOT, place)):
        return f"names can't be looked up in {path}"
    defined = re.compile(DEFINED[ending].format(re.escape(inner)))
    if any(defined.match(line) for line in read(place).split("\n")):
        return None
    return f"{path} does not define {inner}"


def rows(text):
    """Each row of the page's tables: its line's number, the letters of the section that it stands in, and its cells."""
    letters = None
    for number, line in enumerate(text.split("\n"), 1):
        if line.startswith("#"):
            heading = HEADING.match(line)
            letters = heading.group(1) if heading else None
        elif line.startswith("|") and not re.match(r"\| (?:no\.|rule) \||\|[-|]+$", line):
            yield number, letters, [cell.strip() for cell in line.strip().strip("|").split("|")]


def rule_faults(text):
    """The numbers of the rules, in their order, and what is wrong with the page."""
    found, faults, last = [], [], {}
    for line, letters, cells in rows(text):
        number = re.fullmatch(NUMBER, cells[0])
        if len(cells) != 2 or not all(cells) or not number:
            faults.append(f"{RULES}:{line}: not a row of a number and a rule")
            continue
        if number.group(1) != letters:
            faults.append(f"{RULES}:{line}: {cells[0]} does not stand in its section")
        if int(number.group(2)) <= last.get(number.group(1), 0):
            faults.append(f"{RULES}:{line}: {cells[0]} does not rise")
        last[number.group(1)] = int(number.group(2))
        found.append(cells[0])
    return found, faults or ([] if found else [f"{RULES}: no rules"])


def map_faults(text, rules):
    """What is wrong with the rows of the map: one for each rule, in the order of the rules."""
    faults, mapped = [], []
    for line, _, cells in rows(text):
        if len(cells) != CELLS or not all(cells):
            faults.append(f"{PAGE}:{line}: not a row of {CELLS} cells")
        elif cells[0] not in rules:
            faults.append(f"{PAGE}:{line}: {cells[0]} is no rule of {RULES}")
        elif cells[0] in mapped:
            faults.append(f"{PAGE}:{line}: a second row for {cells[0]}")
        mapped.append(cells[0])
    faults += [f"{PAGE}: no row for {rule} of {RULES}" for rule in rules if rule not in mapped]
    if not faults and mapped != rules:
        [first, *_] = [rule for rule, row in zip(rules, mapped) if rule != row]
        faults.append(f"{PAGE}: {first} does not stand where it does in {RULES}")
    return faults


def name_faults(text, claimed):
    """The names of the map, and what is wrong with them."""
    names, faults = set(), []
    for number, line in enumerate(text.split("\n"), 1):
        if line.count("`") % 2:
            faults.append(f"{PAGE}:{number}: a backtick without its pair")
        for name in re.findall(r"`([^`]*)`", line):
            names.add(name)
            wrong = fault(name)
            if not wrong and re.match(r"\w+/proofs/\w+\.antt:", name) and name not in claimed:
                wrong = f"{name} is not among {CLAIMS}'s proofs"
            if wrong:
                faults.append(f"{PAGE}:{number}: {wrong}")
    return names, faults


def added(patch):
    """The rules that a patch adds."""
    page = patch.partition(f"\n+++ b/{RULES}\n")[2].partition("\ndiff --git ")[0]
    return {match.group(1) for match in re.finditer(rf"^\+\| ({NUMBER}) \|", page, re.M)}


def citation_faults(path, text, rules):
    """The rules that a file cites, and those of them that are not there."""
    own = added(text) if path.endswith(".patch") else set()
    cited = {match.group(0) for match in CITED.finditer(text)} - own
    return cited, [f"{path}: {number} is no rule of {RULES}" for number in sorted(cited - set(rules))]


def texts():
    """Every text of the repository."""
    for folder, inner, files in os.walk(ROOT):
        inner[:] = sorted(name for name in inner if name not in PASSED_OVER)
        for name in sorted(set(files) - PASSED_OVER):
            path = os.path.relpath(os.path.join(folder, name), ROOT)
            yield path, read(path)


def idle_faults(text):
    """The edits that docs/IDLE.md names, as `CRATE/NAME`, and that are not there. `crates/CRATE` is a folder."""
    edits = re.findall(r"`(?!crates/)(\w+)/(\w+)`", text)
    if not edits:
        return [f"{IDLE}: no edits"]
    return [f"{IDLE}: no edit {crate}/{name}" for crate, name in edits if not find(f"{crate}/must-fail/{name}.edit")]


def main():
    rules, faults = rule_faults(read(RULES))
    page, cited = read(PAGE), set()
    names, wrong = name_faults(page, set(re.findall(r"`(\w+/proofs/[^`]*)`", read(CLAIMS))))
    faults += map_faults(page, rules) + wrong + idle_faults(read(IDLE))
    for path, text in texts():
        here, wrong = citation_faults(path, text, rules)
        cited |= here if path not in (RULES, PAGE) else set()
        faults += wrong
    if faults:
        print("\n".join(faults))
        return 1
    print(f"trace: {len(rules)} rules, each with its row, {len(names)} names, all there; {len(cited)} rules are cited elsewhere")
    return 0


if __name__ == "__main__":
    sys.exit(main())
