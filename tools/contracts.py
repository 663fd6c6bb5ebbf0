#!/usr/bin/env python3
"""Fails if a public function has no contract that is one equation with a definition of `specs/` and fixes its outcome.

The prover accepts a function without an `ensures`, or with one that says nothing, and promises nothing of it, so that a lost
contract would go unnoticed. Of each public function is asked that it has no `requires` and one `ensures`, `A ≡ B`,

- where A and B differ as texts, and `≡` and the operators beside it are the library's;
- which names the result, what is left of each `&mut` parameter, and every parameter;
- of which one side has neither the result nor what is left: the rule, in terms of what came in;
- of which one side is a call of a definition that stands in a file of `specs/`.

`IfOk result (λ r. A ≡ B)` is such an equation of r, what a call that succeeds returns, and lacks what holds of one that fails.
`(x : X) → A ≡ B` is one for every x, where x is no other name of the function or its file. A `From` or `TryFrom` is held to the
same, by its ghost member, which may join equations by `×`. A method of a `pub trait` has no `requires` either.
"""

import functools
import pathlib
import re
import sys

sys.dont_write_bytecode = True      # no generated folder beside the sources
import antt_text        # noqa: E402
import rattle_text      # noqa: E402


def headed(left, right):
    return f"is headed by `{left}` and `{right}`, of which none is a definition of specs/"


def unnamed(parameter):
    return f"does not name its parameter `{parameter}`"


def not_left(parameter):
    return f"does not say what is left of `{parameter}`"


RESULT_LOST = "does not name its result"
PARTLY = "says nothing of a call that fails"

# What the contract of a function lacks, and why that is right. An entry that is not needed in full fails.
WRITER = {unnamed("to"), not_left("to")}
OF_RESULT = {PARTLY, headed("r", "tt")}
SILENT = {*WRITER, *OF_RESULT}
# A `Row` has the writer, and the row whose line is printed.
ROW = {unnamed("row")}
SILENT_ROW = {unnamed("self"), *OF_RESULT}
PRINTED = "the result tells of the writer alone; the row is the form of the printed line, and what is left does not depend on it"
PRINTS = "it prints, what is written is not stated, and its signature lends it nothing to change but the writer"
KIT = "the kit's definition is the plain statement: one of specs/ would only rename it"
EXEMPT = {
    "actions/src/lib.rt:run": ({*ROW, RESULT_LOST}, PRINTED),
    "changes/src/lib.rt:run": ({*ROW, RESULT_LOST}, PRINTED),
    "print/src/lib.rt:answered": ({*SILENT_ROW, *map(unnamed, ("said", "octets"))}, PRINTS),
    "print/src/lib.rt:failure": ({*SILENT, *map(unnamed, ("what", "error"))}, PRINTS),
    "print/src/lib.rt:line": ({*SILENT_ROW, *map(unnamed, ("values", "octets"))}, PRINTS),
    "print/src/lib.rt:numbered": ({*SILENT_ROW, *map(unnamed, ("number", "values", "octets"))}, PRINTS),
    "print/src/lib.rt:result": ({*SILENT_ROW, *map(unnamed, ("outcome", "octets"))}, PRINTS),
    "print/src/lib.rt:text": ({*SILENT, unnamed("text")}, PRINTS),
    "queries/src/lib.rt:run": ({*ROW, *OF_RESULT, *map(unnamed, ("query", "line", "table"))}, PRINTS),
    "rows/src/lib.rt:call_of": ({*WRITER, PARTLY, unnamed("number")}, "only the writer fails, and the line's number is only printed"),
    "source/src/lib.rt:start": ({*OF_RESULT, *map(unnamed, ("rt", "program"))}, "what a program writes is not stated, and nothing is lent to it to change"),
    "text/src/lib.rt:rest": ({headed("result", "drop")}, KIT),
    "words/src/octet_word.rt:octets_of": ({not_left("buffer")}, "the buffer is lent on in the result, and has no value at exit"),
}

TOKEN = re.compile(rf'"(?:[^"\\]|\\.)*"|[(){{}};,@⌜⌝⟦⟧]|\.{antt_text.NAME}|\.|«[^»]*»|[^\s(){{}}.;,@"«»⌜⌝⟦⟧]+')
# The operators that bind closer than `≡`; beside any other an equation is only a part of the contract.
CLOSER = {"+", "%"}
# With a name of its own in it, a contract could write a parameter's name and not mean the parameter.
BINDERS = {"λ", "∀", "let", "in", "do", "elim", "unfold", "←", ":", "→", "⌜", "⌝", "⟦", "⟧"}
LIBRARY = "Rattle.std.specs.Prelude"
RESULT = "result"


class NotAnEquation(Exception):
    pass


def tokens(text):
    found = TOKEN.findall(antt_text.without_comments(text))
    return [antt_text.unescaped(token) if token.startswith("«") else token for token in found]


def tree(said):
    """The tokens with a list for what stands in brackets, brackets included."""
    stack = [[]]
    for token in said:
        if token in "({":
            stack.append([token])
        elif token in ")}" and len(stack) > 1:
            group = stack.pop() + [token]
            stack[-1].append(group)
        else:
            stack[-1].append(token)
    if len(stack) > 1:
        raise NotAnEquation
    return stack[0]


def flat(term):
    return [token for part in term for token in (flat(part) if isinstance(part, list) else [part])]


def unwrapped(term):
    """A term without the brackets around all of it. A tuple keeps them."""
    while len(term) == 1 and isinstance(term[0], list) and term[0][0] == "(" and len(term[0]) > 2 and "," not in term[0]:
        term = term[0][1:-1]
    return term


def split(term, operator):
    parts = [[]]
    for part in term:
        if part == operator:
            parts.append([])
        else:
            parts[-1].append(part)
    return parts


def is_plain(token, words):
    """Whether a token outside brackets is a name, a number, a projection, or an operator that binds closer than `≡`."""
    if token in CLOSER or token == "[]" or (token[0] == "." and len(token) > 1):
        return True
    return (token[0].isalnum() or token[0] == "«") and token not in words


def equation(term, words):
    sides = split(unwrapped(term), "≡")
    for token in sum(sides, []):
        if isinstance(token, str) and not is_plain(token, words):
            raise NotAnEquation
    if len(sides) != 2 or not all(sides):
        raise NotAnEquation
    return sides


def head(side):
    """What a side is a call of, or a part of such a call's result: a name, an operator, or `(` for a tuple."""
    side = unwrapped(side)
    while len(side) > 1 and isinstance(side[0], list) and "," not in side[0] and all(str(part)[0] == "." for part in side[1:]):
        side = unwrapped(side[:1])
    operators = [part for part in side if isinstance(part, str) and part in CLOSER]
    return operators[0] if operators else side[0][0] if isinstance(side[0], list) else side[0]


def names(side):
    """The names that a side uses. One before `=` is a field's."""
    found = flat(side)
    return {token for token, after in zip(found, found[1:] + [""]) if after != "="}


def leaves(side, parameter):
    """Whether a side has the value of a parameter at exit."""
    return re.search(rf"(?:^| ){re.escape(antt_text.unescaped(parameter))} \.new(?: |$)", " ".join(flat(side))) is not None


def equation_faults(function, result, sides, is_definition):
    """What one equation of a contract lacks."""
    left, right = sides
    used = names(left) | names(right)
    taken = {antt_text.unescaped(name) for name, _ in function.parameters} | {result}
    if flat(unwrapped(left)) == flat(unwrapped(right)):
        yield "has the same text on both sides"
    if function.returns and result not in used:
        yield RESULT_LOST
    for name, is_lent in function.parameters:
        if antt_text.unescaped(name) not in used:
            yield unnamed(name)
        if is_lent and not (leaves(left, name) or leaves(right, name)):
            yield not_left(name)
    outcome = [result in names(side) or any(leaves(side, name) for name, _ in function.parameters) for side in sides]
    if all(outcome):
        yield "has what it returns or leaves on both sides"
    heads = [head(side) for side in sides]
    if not any(name not in taken and is_definition(name) for name in heads):
        yield headed(*heads)


def succeeding(said):
    """The result's name and the rest of a contract that speaks of a call that succeeds alone."""
    if said[:4] == ["IfOk", RESULT, "(", "λ"] and said[5:6] == ["."] and said[-1] == ")" and RESULT not in said[2:]:
        return said[4], said[6:-1]
    return None


# The types of what a contract may bind at its start: data, so that what follows is not promised under a condition.
EVERY = (["ℕ"], ["List", "ℕ"])


def for_every(said):
    """The names that a contract binds at its start, and the rest, which is to hold for every value of these."""
    bound = []
    while said[:1] == ["("] and ":" in said and ")" in said:
        colon, closed = said.index(":"), said.index(")")
        if said[colon + 1:closed] not in EVERY or said[closed + 1:closed + 2] != ["→"]:
            break
        bound += map(antt_text.unescaped, said[1:colon])
        said = said[closed + 2:]
    return bound, said


def promise_faults(function, promise, scope, is_definition):
    bound, said = for_every(tokens(promise))
    for name in bound:
        if name in scope or name in {RESULT, *(antt_text.unescaped(name) for name, _ in function.parameters)}:
            yield f"binds `{name}`, which is a name already"
    part = succeeding(said)
    result, inner = part or (RESULT, said)
    if part:
        yield PARTLY
        if scope.get("IfOk") != {(LIBRARY, "IfOk")}:
            yield "has an `IfOk` that is not the library's"
    if BINDERS & set(inner):
        yield "binds a name in its equation"
    for name in dict.fromkeys((RESULT, result)):
        if name in {antt_text.unescaped(name) for name, _ in function.parameters}:
            yield f"calls its result as its parameter `{name}`"
        if name in scope:
            yield f"calls its result as what it brings, `{name}`"
    for operator in ["≡", *sorted(CLOSER & set(inner))]:
        if scope.get(f"◌{operator}◌") != {(LIBRARY, f"◌{operator}◌")}:
            yield f"has an `{operator}` that is not the library's"
    words = {word for name in scope for word in name.split("◌") if "◌" in name} - CLOSER - {"≡"}
    try:
        equations = [equation(part, words) for part in split(unwrapped(tree(inner)), "×")]
    except NotAnEquation:
        yield "is not an equation at its top level"
        return
    if len(equations) != 1:
        yield f"has {len(equations)} equations and not one"
    for sides in equations:
        yield from equation_faults(function, result, sides, is_definition)


CONVERSION = re.compile(r"\bimpl\b[^{;]*?\b(Try)?From<[^{;]*?\bfor\s+([^{;]*?)\s*(?:\bwhere\b[^{;]*)?\{")
MEMBER = re.compile(r"\s*λ\s+(\S+)\s+(\S+)\.(.*)", re.S)


def conversion_faults(text, scope, is_definition):
    """Each `From` and `TryFrom` of a file, with what it lacks. The library's trait promises what the impl's ghost member says: here
    one equation, or several joined by `×`, of what is given and what comes of it."""
    text = rattle_text.without_comments(text)
    for found in CONVERSION.finditer(text):
        member = "try_from_gives" if found[1] else "from_gives"
        block = text[found.end() - 1:rattle_text.matching(text, found.end() - 1)]
        at = re.search(rf"\bghost\s+{member}\s*=\s*\{{", block)
        said = at and MEMBER.fullmatch(block[at.end():rattle_text.matching(block, at.end() - 1)])
        yield f"{found[1] or ''}From for {' '.join(found[2].split())}", list(given_faults(said, scope, is_definition)) if said else [
            f"has no `{member}` that says what it gives"]


def given_faults(said, scope, is_definition):
    given = rattle_text.Function("from", [(said[1], False)], True, [])
    bound, inner = for_every(tokens(said[3]))
    if BINDERS & set(inner) or {said[1], said[2], *bound} & set(scope) or len({said[1], said[2], *bound}) != len(bound) + 2:
        yield "binds a name that is one already"
    try:
        words = {word for name in scope for word in name.split("◌") if "◌" in name} - CLOSER - {"≡"}
        equations = [equation(part, words) for part in split(unwrapped(tree(inner)), "×")]
    except NotAnEquation:
        yield "is not an equation at its top level"
        return
    for sides in equations:
        yield from equation_faults(given, said[2], sides, is_definition)


def faults(text, definitions):
    """Each public function and each conversion of a file, with what its contract lacks, and each method of a public trait that asks
    something. `definitions` has the names that a file of `specs/` defines."""
    scope = rattle_text.brought(text)

    def is_definition(name):
        sources = scope.get(name, set())
        files = [(antt_text.specs_file(module), inner) for module, inner in sources]
        return len(files) == 1 and files[0][0] is not None and files[0][1] in definitions(files[0][0])

    yield from conversion_faults(text, scope, is_definition)
    for function in rattle_text.functions(text):
        found = [f"has a `{kind}`" for kind, _ in function.clauses if kind != "ensures"]
        promises = [said for kind, said in function.clauses if kind == "ensures"]
        if len(promises) == 1:
            found += promise_faults(function, promises[0], scope, is_definition)
        else:
            found.append(f"has {len(promises)} `ensures` and not one")
        yield function.name, list(dict.fromkeys(found))
    for name, clause in rattle_text.asking_methods(text):
        yield name, [f"has a `{clause}`"]


def defined(text):
    """The public definitions of a file of `specs/`. Records, data types and their constructors are none."""
    return {d.name for d in antt_text.declarations(text) if not d.kind and "pub" in d.marks.split()}


def unexempted(found, allowed):
    """The faults that are not allowed, and those that are allowed in vain."""
    yield from (fault for fault in found if fault not in allowed)
    yield from (f"has an exemption that is not needed: {fault}" for fault in sorted(allowed - set(found)))


def verdict(seen, wrong):
    """Prints what is wrong, or what was seen, and gives the exit status."""
    wrong = wrong + [f"tools/contracts.py: an exemption for {place}, which is not there" for place in EXEMPT if place not in seen]
    for line in wrong:
        print(f"contracts: {line}")
    if wrong or not seen:
        return 1
    print(f"contracts: {len(seen)} public functions and conversions, each fixed by equations, {len(EXEMPT)} with an exemption")
    return 0


def main():
    top = pathlib.Path(__file__).resolve().parent.parent

    @functools.cache
    def definitions(file):
        path = top / file
        return defined(path.read_text(encoding="utf-8")) if path.is_file() else set()

    seen, wrong = [], []
    for path in sorted(top.glob("crates/*/src/**/*.rt")):
        file = path.relative_to(top / "crates").as_posix()
        for name, found in faults(path.read_text(encoding="utf-8"), definitions):
            seen.append(f"{file}:{name}")
            allowed, _ = EXEMPT.get(seen[-1], (set(), ""))
            wrong += [f"crates/{file}: `{name}` {fault}" for fault in unexempted(found, allowed)]
    return verdict(seen, wrong)


if __name__ == "__main__":
    sys.exit(main())
