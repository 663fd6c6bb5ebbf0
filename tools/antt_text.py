"""antt text as far as the checks of contracts and claims read it: comments, imports, and what is declared at column 0.

All functions are over text. A body of `module _ (..) where` is indented and takes the module's parameters as hypotheses, so that
only what stands at column 0 says all that it assumes.
"""

import re
from typing import NamedTuple

BARE = r'[^\s(){}.;,@"«»]+'
NAME = rf"(?:«[^»]*»|{BARE})"
# What is a name only where it is escaped. Any other escaped name is the bare one.
RESERVED = set("""data record deriving module where use mod pub package open as unfoldable abbrev axiom unfold unfolding ruleset
    mutual infix infixl infixr elim let in do Type coe fcoe tcoe hcom com λ ∀ 𝕀 𝔽 ∨ ∧""".split())
# A quoted text and an escaped name hold no comment, and `--` opens one only where a name could begin.
PIECE = re.compile(rf'"(?:[^"\\]|\\.)*"|«[^»]*»|(?P<block>\{{-)|(?P<line>--[^\n]*)|{BARE}|.', re.S)
EDGE = re.compile(r"\{-|-\}")
MARK = r"(?:pattern|unfoldable|abbrev|axiom|pub)"
MARKED = re.compile(rf"((?:{MARK} )*)((?:record|data) )?({NAME})(.*)")
SIGNED = re.compile(r"( \{[^}]*\})? : (.*)")


class Declaration(NamedTuple):
    line: int
    marks: str      # as `abbrev pub`
    kind: str       # `record`, `data`, or nothing for a definition
    name: str
    before: str     # parameters or levels between the name and the colon
    type: str


class Brought(NamedTuple):
    module: str     # nothing where a module itself is brought
    name: str
    local: str      # the name that it has in the file


def blank(text):
    return re.sub(r"[^\n]", " ", text)


def unescaped(name):
    bare = name.strip("«»")
    return f"«{bare}»" if bare in RESERVED else bare


def block_end(text, at):
    """Where the block comment that opens at `at` ends. Such comments nest."""
    depth = 0
    for edge in EDGE.finditer(text, at):
        depth += 1 if edge[0] == "{-" else -1
        if not depth:
            return edge.end()
    return len(text)


def without_comments(text):
    """The text with spaces for its comments, so that lines and columns stay."""
    kept, at = [], 0
    while at < len(text):
        piece = PIECE.match(text, at)
        end = block_end(text, at) if piece["block"] else piece.end()
        kept.append(blank(text[at:end]) if piece["block"] or piece["line"] else text[at:end])
        at = end
    return "".join(kept)


def opened(line):
    """How many brackets a line leaves open, or closes where it is negative."""
    bare = re.sub(r'"(?:[^"\\]|\\.)*"|«[^»]*»', "", line)
    return sum(map(bare.count, "({")) - sum(map(bare.count, ")}"))


def items(text):
    """What begins at column 0, each as the number of its line and its lines. An open bracket goes on at any column."""
    found, depth = [], 0
    for number, line in enumerate(without_comments(text).split("\n"), 1):
        if not line.strip():
            continue
        if found and (line[0].isspace() or depth > 0):
            found[-1][1].append(line)
        else:
            found.append((number, [line]))
        depth += opened(line)
    return found


def joined(lines):
    return " ".join(" ".join(lines).split())


def at_colon(text):
    """The text before and after the first colon outside brackets."""
    depth = 0
    for at, character in enumerate(text):
        depth += (character in "({") - (character in ")}")
        if not depth and text.startswith(" : ", at):
            return text[:at].strip(), text[at + 3:]
    return None


def declarations(text):
    """The definitions, records and data types at column 0, each with its whole signature."""
    for number, lines in items(text):
        marked = MARKED.fullmatch(joined(lines))
        if not marked:
            continue
        marks, kind, name, rest = (part or "" for part in marked.groups())
        if kind:
            split = at_colon(rest.split(" where")[0])
        else:
            signed = SIGNED.fullmatch(rest)
            split = signed and ((signed[1] or "").strip(), signed[2])
        if split:
            yield Declaration(number, marks.strip(), kind.strip(), unescaped(name), split[0], split[1].strip())


def leaves(text):
    """What stands between commas outside braces."""
    parts, depth = [""], 0
    for character in text:
        depth += (character == "{") - (character == "}")
        if character == "," and not depth:
            parts.append("")
        else:
            parts[-1] += character
    return parts


def brought(tree):
    """What a `use` brings: the items between its braces, or, without braces, a module."""
    path, brace, rest = " ".join(tree.split()).partition(".{")
    if not brace:
        name, _, local = path.partition(" as ")
        name = name.split(".")[-1]
        yield Brought("", name, local or name)
        return
    for leaf in map(str.strip, leaves(rest.removesuffix("}"))):
        if ".{" in leaf:
            yield from brought(f"{path}.{leaf}")
        elif leaf:
            words = leaf.split()
            *below, name = re.findall(NAME, words[0])
            local = words[2] if words[1:2] == ["as"] else name
            yield Brought(".".join([path, *below]), unescaped(name), unescaped(local))


def imports(text):
    """What the `use` lines of an antt file bring."""
    for _, lines in items(text):
        use = re.match(r"(?:(?:unfoldable|pub) )*use (.*)", joined(lines))
        if use:
            yield from brought(use[1])


def specs_file(module):
    """The file of a module of `specs/`, by the path that every crate writes."""
    named = re.fullmatch(r"Rattle\.(\w+)\.specs\.([\w.]+)", module)
    return f"crates/{named[1]}/specs/{named[2].replace('.', '/')}.antt" if named else None
