#!/usr/bin/env python3
"""Holds docs/CLAIMS.md, the list of all that is claimed beside the contracts, to the files.

A claim is a closed type of `specs/`, so that all that it assumes stands in it, and its proof has exactly that type. Fails, with a
line for each fault, if

- a claim is not defined so, or a crate or a file on the way to it is not listed, so that nothing would check it;
- its proof is not declared once, at column 0, with the claim's name and nothing more as its type: an argument, a longer
  signature or a module's parameter would be one more hypothesis;
- the name that the proof has as its type is not the claim: brought from elsewhere, under another name, or made in the file;
- a closed type of `specs/`, a definition or a record, is in no row, so that a claim might be left out, or a row's place is not there.
"""

import pathlib
import re
import sys
from typing import NamedTuple

sys.dont_write_bytecode = True      # no generated folder beside the sources
import antt_text        # noqa: E402

PAGE = "docs/CLAIMS.md"
CLAIMS = ("claim", "says", "proof")
TYPES = ("type", "what it is")
# The first name of every path to a claim: what else has it would lead elsewhere.
LIBRARY = "Rattle"
PLACE = re.compile(r"`(\w+)/(specs|proofs)/(\w+)\.antt:([^`\s]+)`")


class Place(NamedTuple):
    crate: str
    folder: str
    module: str
    name: str

    @property
    def file(self):
        return f"crates/{self.crate}/{self.folder}/{self.module}.antt"


class Repository(NamedTuple):
    texts: dict     # each antt file's, by its path
    crates: set     # those that crates.txt lists


def rows(page):
    """The rows of the page's tables, each with its line's number and the table's head."""
    head = None
    for number, line in enumerate(page.split("\n"), 1):
        cells = tuple(cell.strip() for cell in line.strip().strip("|").split("|"))
        if not line.startswith("|"):
            head = None
        elif head is None:
            head = cells
        elif set("".join(cells)) - set("-: "):
            yield number, head, cells


def place(cell, folder):
    found = PLACE.fullmatch(cell)
    return Place(*found.groups()) if found and found[2] == folder else None


def listed_crates(text):
    """The names that lines of crates.txt begin with. A kind may stand between a name and its colon."""
    lines = (line.split("#")[0] for line in text.split("\n"))
    return {line.split()[0].rstrip(":") for line in lines if ":" in line}


def is_closed(declared):
    """A type that takes nothing."""
    return declared.kind != "data" and not declared.before and declared.type == "Type 0"


def is_claim(declared):
    marks = ("pub",) if declared.kind else ("abbrev pub", "unfoldable pub")
    return is_closed(declared) and declared.marks in marks


def made(text, name):
    """The lines, at any column, that declare a name, escaped or not."""
    word = rf"(?:{re.escape(name)}|«{re.escape(name)}»)"
    marked = rf"\s*(?:{antt_text.MARK} )*(?:{word}(?: \{{[^}}=]*\}})?|(?:record|data) {word}(?: .*)?) :(?:\s|$)"
    return [line for line in antt_text.without_comments(text).split("\n") if re.match(marked, line)]


def place_faults(at, repository):
    """Whether a place's file is checked: its crate is listed, and its module in the folder's root."""
    if at.crate not in repository.crates:
        yield f"crates.txt does not list {at.crate}"
    if at.file not in repository.texts:
        yield f"no file {at.file}"
    root = f"crates/{at.crate}/{at.folder}/Lib.antt"
    modules = [antt_text.joined(lines) for _, lines in antt_text.items(repository.texts.get(root, ""))]
    if not {f"mod {at.module}", f"pub mod {at.module}"} & set(modules):
        yield f"{root} does not list {at.module}"


def claim_faults(claim, text):
    declared = [d for d in antt_text.declarations(text) if d.name == claim.name]
    if len(declared) != 1 or len(made(text, claim.name)) != 1 or not is_claim(declared[0]):
        yield f"{claim.file} does not define {claim.name}, once and at column 0, as a closed type"


def type_faults(claim, proof, text):
    """Whether the claim's name means the claim in the proof's file."""
    brought = list(antt_text.imports(text))
    named = [item for item in brought if item.module and claim.name in (item.local, item.name)]
    plain = [item for item in named if item.local == item.name and antt_text.specs_file(item.module) == claim.file]
    if len(named) != 1 or len(plain) != 1:
        yield f"{proof.file} does not bring {claim.name} from {claim.file}, and from there alone, by its own name"
    if any(item.local == LIBRARY for item in brought):
        yield f"{proof.file} brings something by the library's name"
    for number, lines in antt_text.items(text):
        item = antt_text.joined(lines)
        if re.search(rf"(?:\bas|^(?:pub )?mod) «?{LIBRARY}»?(?![^\s,}}])", item):
            yield f"{proof.file}:{number} gives the library's name to something else"
        if re.match(r"(?:pub )?open ", item) and claim.name in re.split(r"[\s(){},.«»]+", item):
            yield f"{proof.file}:{number} opens something as {claim.name}"
        if re.match(r"(?:module|mutual)\b", item) and (len(lines) == 1 or item.endswith(" where")):
            yield f"{proof.file}:{number} begins a block whose body is not indented"
    if made(text, claim.name):
        yield f"{proof.file} has a {claim.name} of its own"


def proof_faults(claim, proof, text):
    declared = [d for d in antt_text.declarations(text) if d.name == proof.name]
    wanted = ("pub", "", "", claim.name)
    right = [d for d in declared if (d.marks, d.kind, d.before, d.type) == wanted]
    if len(right) != 1 or len(made(text, proof.name)) != 1:
        yield f"{proof.file} does not declare, once and at column 0, `pub {proof.name} : {claim.name}` and nothing more"
    yield from type_faults(claim, proof, text)


def row_faults(claim, proof, repository):
    for at in (claim, proof):
        yield from place_faults(at, repository)
    if claim.file in repository.texts:
        yield from claim_faults(claim, repository.texts[claim.file])
    if proof.file in repository.texts:
        yield from proof_faults(claim, proof, repository.texts[proof.file])


def closed_types(repository):
    """The closed types of `specs/`, definitions and records, each as its file and name."""
    for file, text in repository.texts.items():
        if re.match(r"crates/\w+/specs/", file):
            yield from ((file, d.name) for d in antt_text.declarations(text) if is_closed(d))


def faults(page, repository):
    """The number of claims, and what is wrong."""
    claims, types, wrong = [], [], []
    for number, head, cells in rows(page):
        first = place(cells[0], "specs")
        second = place(cells[-1], "proofs")
        found = []
        if head not in (CLAIMS, TYPES) or len(cells) != len(head) or not all(cells):
            found = [f"not a row of a table | {' | '.join(CLAIMS)} | or | {' | '.join(TYPES)} |"]
        elif not first or (head == CLAIMS and not second):
            found = ["a place is not `CRATE/specs/FILE.antt:NAME`, or a proof's not `CRATE/proofs/FILE.antt:NAME`"]
        elif first in claims + types:
            found = [f"{cells[0]} stands in another row, too"]
        elif head == CLAIMS:
            claims.append(first)
            found = row_faults(first, second, repository)
        else:
            types.append(first)
        wrong += [f"{PAGE}:{number}: {fault}" for fault in found]
    closed = set(closed_types(repository))
    listed = {(at.file, at.name) for at in claims + types}
    wrong += [f"{PAGE}: no row for {name} of {file}" for file, name in sorted(closed - listed)]
    wrong += [f"{PAGE}: {at.file} defines no closed type {at.name}" for at in types if (at.file, at.name) not in closed]
    return len(claims), wrong + ([] if claims else [f"{PAGE}: no claims"])


def read(top):
    files = [path for folder in ("specs", "proofs") for path in sorted(top.glob(f"crates/*/{folder}/**/*.antt"))]
    texts = {path.relative_to(top).as_posix(): path.read_text(encoding="utf-8") for path in files}
    return Repository(texts, listed_crates((top / "crates.txt").read_text(encoding="utf-8")))


def verdict(count, wrong):
    """Prints what is wrong, or how many claims there are, and gives the exit status."""
    for line in wrong:
        print(f"claims: {line}")
    if wrong:
        return 1
    print(f"claims: {count} claims, each proved under exactly its type")
    return 0


def main():
    top = pathlib.Path(__file__).resolve().parent.parent
    return verdict(*faults((top / PAGE).read_text(encoding="utf-8"), read(top)))


if __name__ == "__main__":
    sys.exit(main())
