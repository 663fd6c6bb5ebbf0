"""Rattle text as far as the check of contracts reads it: public functions with their clauses, methods of public traits that ask
something of their callers, and what `ghost use` brings.

All functions are over text.
"""

import re
from typing import NamedTuple

import antt_text

START = re.compile(r'\bpub\s+(?:(?:const|async|unsafe|extern\s+"[^"]*")\s+)*fn\s+(\w+)')
# The brackets before and of the parameters. In those of generics an arrow closes none.
GENERIC = re.compile(r"->|[<>(]")
RETURN = re.compile(r"\s*(?:->\s*(.*?))?\s*(?:\bwhere\b.*?)?(?=\b(?:ghost|requires|ensures)\b|\{)", re.S)
CLAUSE = re.compile(r"\s*(ghost|(?:requires|ensures)\b\*?)\s*\w*\s*:?\s*\{")
GHOST = re.compile(r"\bghost\s+use\s+([^;]*);")
PARAMETER = re.compile(r"(&(?:'\w+\s+)?(?:mut\s+)?)?(?:mut\s+)?(\w+)(?:\s*:\s*(.*))?", re.S)
MUTABLE = re.compile(r"&(?:'\w+\s+)?mut\b")
STRING = r'"(?:[^"\\]|\\.)*"'
TRAIT = re.compile(r"\bpub\s+(?:unsafe\s+)?trait\s+(\w+)[^{]*\{")
METHOD = re.compile(r"\bfn\s+(\w+)")
REQUIRES = re.compile(r"\brequires\b\*?")
OPENED = re.compile(rf"{STRING}|\{{")
COMMENT = re.compile(rf"({STRING}|'(?:[^'\\]|\\.)')|//[^\n]*|/\*.*?\*/", re.S)


class Function(NamedTuple):
    name: str
    parameters: list        # each its name and whether it is lent to be changed
    returns: bool
    clauses: list           # each its kind, with the star of an assertion, and its text


def without_comments(text):
    return COMMENT.sub(lambda found: found[1] or antt_text.blank(found[0]), text)


def matching(text, at):
    """Where the bracket that opens at `at` is closed."""
    pair, depth = text[at] + {"(": ")", "{": "}"}[text[at]], 0
    for found in re.compile(rf"{STRING}|[{re.escape(pair)}]").finditer(text, at):
        depth += (found[0] == pair[0]) - (found[0] == pair[1])
        if not depth:
            return found.start()
    return len(text)


def split_commas(text):
    parts, depth = [""], 0
    for character in text:
        depth += (character in "([<{") - (character in ")]>}")
        if character == "," and not depth:
            parts.append("")
        else:
            parts[-1] += character
    return [part.strip() for part in parts if part.strip()]


def parameters(text):
    for part in split_commas(text):
        found = PARAMETER.fullmatch(part)
        # What can't be read counts as a parameter that no contract names, so that it is a fault.
        lent, name, kind = found.groups() if found else ("", part, "")
        yield name, bool(MUTABLE.search(lent or "") or MUTABLE.search(kind or ""))


def parameters_at(text, at):
    """Where the bracket of a function's parameters opens, after its name."""
    depth = 0
    for found in GENERIC.finditer(text, at):
        if found[0] == "(" and not depth:
            return found.start()
        depth += (found[0] == "<") - (found[0] == ">")
    raise ValueError(f"no parameters after {text[:at].split()[-1]}")


def functions(text):
    """The public functions of a file, with the clauses that stand before each body."""
    text = without_comments(text)
    for start in START.finditer(text):
        opened = parameters_at(text, start.end())
        closed = matching(text, opened)
        returned = RETURN.match(text, closed + 1)
        at, clauses = returned.end() if returned else len(text), []
        while clause := CLAUSE.match(text, at):
            end = matching(text, clause.end() - 1)
            clauses.append((clause[1], text[clause.end():end]))
            at = end + 1
        if not text[at:].lstrip().startswith("{"):
            clauses.append(("clause that can't be read", ""))
        returns = returned is not None and returned[1] not in (None, "()")
        yield Function(start[1], list(parameters(text[opened + 1:closed])), returns, clauses)


def outside_braces(text):
    kept, at = [], 0
    for found in OPENED.finditer(text):
        if found[0] == "{" and found.start() >= at:
            kept.append(text[at:found.start()])
            at = matching(text, found.start()) + 1
    return " ".join([*kept, text[at:]])


def asking_methods(text):
    """Each method of a public trait that has a `requires`, with that word. What stands in braces is no method's own: terms and bodies."""
    text = without_comments(text)
    for trait in TRAIT.finditer(text):
        block = outside_braces(text[trait.end():matching(text, trait.end() - 1)])
        starts = list(METHOD.finditer(block))
        ends = [start.start() for start in starts[1:]] + [len(block)]
        for start, end in zip(starts, ends):
            for found in dict.fromkeys(REQUIRES.findall(block, start.end(), end)):
                yield f"{trait[1]}::{start[1]}", found


def brought(text):
    """What each name of a file's contracts may mean: the modules that bring it, each with its name there."""
    scope = {}
    for use in GHOST.findall(without_comments(text)):
        for item in antt_text.brought(use):
            if item.module:
                scope.setdefault(item.local, set()).add((item.module, item.name))
    return scope
