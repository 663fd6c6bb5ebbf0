#!/usr/bin/env python3
"""Says why each must-fail edit was refused, and fails if one shows nothing.

usage: refused_by_fact.py LOG       what `rt ci` printed

`rt ci` has a line for each edit, with the first error that is no name which a proof file misses. An edit is worth something if that is
a fact that no longer holds. Where there is none, or where it says that a name or an argument is gone or new, the edit only made the proof
file unfit for the code; and a limit of the prover is no verdict.
"""
import pathlib
import re
import sys

TOP = pathlib.Path(__file__).resolve().parent.parent
REFUSED = re.compile(r"rt: must-fail (\w+/[\w.-]+)\.edit: refused, as it must be(?:: (.*)| (\(.*))?")
UNFIT = re.compile(r"has no `|has no field |is not in scope|was not admitted|is no name|takes \d+ argument|no clause covers|write the clause"
                   r"|operand is missing|expected the end|cannot continue")


def is_fact(error):
    return bool(error) and not error.startswith("(") and not UNFIT.search(error)


def refusals(said):
    """By edit, CRATE/LABEL, why it was refused."""
    found = [REFUSED.fullmatch(line) for line in said.splitlines()]
    return {line[1]: line[2] or line[3] or "" for line in found if line}


def main():
    why = refusals(pathlib.Path(sys.argv[1]).read_text(errors="replace"))
    edits = sorted(f"{edit.parent.parent.name}/{edit.stem}" for edit in TOP.glob("crates/*/must-fail/*.edit"))
    unfit = [edit for edit in edits if not is_fact(why.get(edit, ""))]
    for edit in unfit:
        print(f"{edit}: " + (f"refused for its shape only: {why[edit][:200] or 'no error line'}" if edit in why else "not refused"))
    print(f"{len(edits)} edits, {len(edits) - len(unfit)} were refused because a fact no longer holds")
    return 1 if unfit or not edits else 0


if __name__ == "__main__":
    sys.exit(main())
