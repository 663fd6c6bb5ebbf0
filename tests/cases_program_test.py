#!/usr/bin/env python3
"""Runs the program `cases` on arguments and inputs, good and bad, and the recipe for scripts that docs/CASES.md has.

usage: cases_program_test.py [PROGRAM]
"""
import os
import pathlib
import resource
import subprocess
import sys
import tempfile
from random import Random

sys.dont_write_bytecode = True      # no generated folder beside the sources
from cases_model import CALLS, calls_of      # noqa: E402
from program_checks import Checks as ProgramChecks, arguments, full_output, standard_input       # noqa: E402

TOP = pathlib.Path(__file__).resolve().parent.parent
LINES, RESULTS = b"measure 10 10 10 11\nmeasure 1 1 1 1\n", "measure 0 -1 1\nmeasure 0 0 0\n"


class Checks(ProgramChecks):
    def recipe(self, what, file, expected, program=None, **given):
        """Whether the recipe takes a file's run for a whole one."""
        script = recipe_text().replace("target/bin/cases", f'"{program or self.program}"') + '\nran "$1" "$2"'
        command = ["sh", "-c", script, "sh", file, str(self.folder / "output")]
        done = subprocess.run(command, capture_output=True, timeout=60, **given)
        self.same(f"the recipe, {what}", done.returncode == 0, expected)


def recipe_text():
    """The shell function `ran` of docs/CASES.md."""
    lines = (TOP / "docs" / "CASES.md").read_text(encoding="utf-8").split("\n")
    first = lines.index("    ran() {")
    return "\n".join(lines[first:lines.index("    }", first) + 1])


def limit_output():
    """Leaves room for one result: the write of the next one fails."""
    resource.setrlimit(resource.RLIMIT_FSIZE, (16, 16))


def recipe(checks):
    checks.recipe("a whole run", checks.whole, True)
    checks.recipe("a missing file", str(checks.folder / "none"), False)
    checks.recipe("a directory", str(checks.folder), False)
    checks.recipe("a file that was cut", checks.file("cut", LINES.split(b"\n")[0]), False)
    checks.recipe("a line that is no call", checks.file("bad", b"measures 1 1 1 1\n" + LINES), False)
    checks.recipe("an output that is full", checks.whole, False, preexec_fn=limit_output, restore_signals=False)
    script = f"#!/bin/sh\nprintf '{RESULTS}'\necho '{checks.whole}: Input/output error' >&2\n"
    failing = checks.file("failing", script.encode())
    os.chmod(failing, 0o700)
    checks.recipe("a read that fails at the end", checks.whole, False, program=failing)


def long_lines(checks):
    """Result lines about as long as the 4,096 octets that are written at a time, and about twice as long."""
    random = Random(208)
    lines = "".join(f"add {random.randbytes(size).hex()} {'00' * 15}\n" for size in (*range(2040, 2053), 4090, 4096)).encode()
    expected = "".join(f"{name} {CALLS[name][1](*values)}\n" for _, (name, values), _ in calls_of(lines))
    checks.run("long result lines", [checks.file("long", lines)], expected, "")


def main():
    program = os.path.abspath(sys.argv[1] if len(sys.argv) > 1 else TOP / "target" / "bin" / "cases")
    with tempfile.TemporaryDirectory() as folder:
        checks = Checks(program, pathlib.Path(folder), "cases", LINES, RESULTS)
        arguments(checks)
        full_output(checks)
        standard_input(checks, b"measure 1 1 1 1", "line")
        recipe(checks)
        long_lines(checks)
    return checks.told("cases_program_test")


if __name__ == "__main__":
    sys.exit(main())
