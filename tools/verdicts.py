#!/usr/bin/env python3
"""Looks at what `rt ci` proved and counted, and at what each verdict rests on.

usage: verdicts.py LOG              what `rt ci` printed
       verdicts.py --kept LOG       what `rt lib` printed of the library for C

Every crate of crates.txt is proved there, or kept: an earlier run of `rt ci` on this machine proved the same files, under the same kit,
which keeps no verdict that rests on more than the kit. Every crate and edit is counted, and no edit is bad.

A verdict may rest on the kit's logic and libraries as they are built, and on the crates below, proved in the same run; not on a cache, on
another logic or on C functions of our own. The programs `cases` and `replay` may besides rest on the contracts that the kit assumes of C
functions (`axioms=`): they read their arguments and open files. `rt lib` goes on from what earlier checks kept (`incremental=`).
"""
import pathlib
import re
import sys

TOP = pathlib.Path(__file__).resolve().parent.parent
ALLOWED = re.compile(r"logic=proved|tests=\d+|functions=\d+|target=x86_64-unknown-linux-gnu|cpu=x86-64-v2|sum=[0-9a-f]+"
                     r"|native=nat,char,string|logic-built=trusted|libraries-built=trusted|statements=trusted")
PROGRAM = re.compile(r"cases|replay|\w+: its tests")


def fault(crate, verdicts, more=""):
    """What is wrong with the verdict on a crate, which is to be one, or nothing. It may have the word `more` besides."""
    if len(verdicts) != 1:
        return f"{len(verdicts)} verdicts"
    words = [word for word in verdicts[0].split() if word != more and not (PROGRAM.fullmatch(crate) and re.fullmatch(r"axioms=\d+", word))]
    rests = [word for word in words if not ALLOWED.fullmatch(word)]
    if rests or "logic=proved" not in words:
        return "the verdict has " + (" ".join(rests) or "no logic=proved")
    return None


def verdict_faults(said, crates):
    """What is wrong with the verdicts among the lines that `rt ci` printed, and how many crates are kept."""
    verdicts, proved, kept, section = {}, set(), set(), "no crate"
    for line in said.splitlines():
        if begun := re.fullmatch(r"== (\w+(?:: its tests)?)", line):
            section = begun[1]
        elif line.startswith("logic="):
            verdicts.setdefault(section, []).append(line)
        elif ended := re.fullmatch(r"rt: (\w+) proved", line):
            proved.add(ended[1])
        elif taken := re.match(r"rt: (\w+) is kept: ", line):
            kept.add(taken[1])
    found = {crate: fault(crate, lines) for crate, lines in verdicts.items()}
    found |= {crate: "neither proved nor kept" for crate in crates if crate not in kept | (proved & set(verdicts))}
    return [f"{crate}: {why}" for crate, why in sorted(found.items()) if why], len(kept.intersection(crates))


def count_faults(said, checks, edits):
    """What is wrong with the counts of `rt ci`, of so many crates and edits together and edits alone. Its last line passes over an edit
    that is bad, and counts one that is refused by a limit of the prover alone; the line `rt: ok` tells of both."""
    lines = said.splitlines() or [""]
    found = [] if lines[-1] == f"{checks} passed, 0 failed" else [f"the last line is '{lines[-1]}', and there are {checks} crates and edits"]
    well = [line for line in lines if line.startswith("rt: ok;")]
    if len(well) != 1 or f"; must-fail edits: {edits} refused;" not in well[0]:
        found.append(f"rt says {well or 'nowhere that all is well'}, and there are {edits} edits")
    return found


def main():
    said = pathlib.Path(sys.argv[-1]).read_text(errors="replace")
    if sys.argv[1] == "--kept":
        why = fault("ntp5_c", [line for line in said.splitlines() if line.startswith("logic=")][-1:], "incremental=trusted")
        print(why or "the library is proved")
        return 1 if why else 0
    crates = re.findall(r"^(\w+)[^#\n]*:", (TOP / "crates.txt").read_text(), re.M)
    edits = len(list(TOP.glob("crates/*/must-fail/*.edit")))
    wrong, kept = verdict_faults(said, crates)
    wrong += count_faults(said, len(crates) + edits, edits)
    if wrong or not crates:
        print("\n".join(wrong) or "no crates")
        return 1
    print(f"verdicts: {len(crates)} proved, {kept} of them in earlier runs of rt ci, resting on nothing but the kit")
    return 0


if __name__ == "__main__":
    sys.exit(main())
