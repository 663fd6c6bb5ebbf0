#!/usr/bin/env python3
"""Runs the program `replay` on traces, sound and wrong, small and large, from files and pipes, and on its arguments.

usage: replay_program_test.py [REPLAY [CASES]]

What it prints is held to trace_model.py, and to what the program `cases` prints for the same calls (replay_and_cases.py). The stored
trace and the examples are held to the programs that make them.
"""
import io
import os
import pathlib
import sys
import tempfile
from random import Random

sys.dont_write_bytecode = True      # no generated folder beside the sources
from case_lines import response     # noqa: E402
from fed_program import Fed         # noqa: E402
from program_checks import Checks as ProgramChecks, arguments, full_output, standard_input       # noqa: E402
from random_trace import LENGTHS, RandomTrace       # noqa: E402
from replay_and_cases import same_calls             # noqa: E402
from trace_examples_make import EXAMPLES            # noqa: E402
from trace_make import stored_trace                 # noqa: E402
from trace_model import replay                      # noqa: E402
from trace_records import Trace, close_record       # noqa: E402
from wrong_traces import SHORT, wrong_traces        # noqa: E402

TOP = pathlib.Path(__file__).resolve().parent.parent
# A trace as document 02 has it and what is printed of it, by hand and not by the model; then a wrong record, a poll of mode 2, and
# one that is not run.
BY_HAND = bytes.fromhex("""
    4e35 01 00 0004 0000000000000000  07 00 0010
    4e35 02 00 000a 00000000000003e7  0102030405060708 06 00
    4e35 03 00 0000 000000000000000a
    4e35 04 00 0030 0000000000000028  2c0106ec0000000000000000000000000000000000000000
                                      0102030405060708 0000000000000014 000000000000001e
    4e35 04 00 0000 0000000000000028
    4e35 03 10 0000 000000000000000a
    4e35 05 00 0000 0000000000000000
    4e35 05 00 0000 0000000000000000""")
PRINTED = """\
1 open 0
2 poll 0 100 2b000600*21,010203040506070800*16,f5ff001f64726166742d6d6c6963687661722d6e74702d6e747076352d303700f503001400*16
3 sent 0
4 receive 0 judgement=0 chunk=2 offset=0 delay=20
5 receive 1
6 sent 6
7 close 0
8 close 7
"""
WRONG = bytes.fromhex("4e35 02 00 000a 0000000000000000  0102030405060708 06 02  4e35 05 00 0000 0000000000000000")
LONGEST = 65535         # octets of a receive's data
LARGE_RECORDS = 120     # with so many
SMALL, LARGE = 300_000, 3_000_000       # octets of a trace
GROWTH = 512            # KiB that the larger of them may take more; the system counts memory in steps of up to 256


def expected(trace):
    return "".join(f"{line}\n" for line in replay(io.BytesIO(trace)))


class Checks(ProgramChecks):
    def replay(self, what, trace):
        """The program prints of a trace what the model expects."""
        self.run(what, [], expected(trace), "", input=trace)

    def fed(self, what, trace, size):
        with Fed(self.program) as run:
            run.give(trace, size)
            self.same(f"{what} in pieces of {size}", run.printed(), (expected(trace), 0))


def small_traces(checks):
    checks.run("a trace by hand", [], f"{PRINTED}record 9: wrong kind\n", "", input=BY_HAND + WRONG)
    checks.same("the model, of a trace by hand", expected(BY_HAND + WRONG), f"{PRINTED}record 9: wrong kind\n")
    checks.run("an empty trace", [], "", "", input=b"")
    checks.run("an empty file", [checks.file("empty", b"")], "", "")
    for what, trace in wrong_traces():
        checks.replay(what, trace)
    checks.replay("more than 1,000 records", close_record(0) * 1100)


def stored_files(checks):
    """What the makers write is what is stored, and the program prints of it what the model does."""
    stored = TOP / "crates" / "replay"
    checks.same("crates/replay/stdin", (stored / "stdin").read_bytes(), stored_trace())
    checks.same("crates/replay/stdout", (stored / "stdout").read_text(), expected(stored_trace()))
    checks.run("crates/replay/stdin", [stored / "stdin"], expected(stored_trace()), "")
    with open(stored / "stdin", "rb") as file:
        checks.run("crates/replay/stdin as standard input", [], expected(stored_trace()), "", stdin=file)
    for name, make in EXAMPLES.items():
        path = TOP / "examples" / name
        checks.same(name, path.read_bytes(), make())
        checks.run(name, [path], expected(make()), "")
    checks.same("the examples that are stored", sorted(path.name for path in (TOP / "examples").glob("*.trace")), sorted(EXAMPLES))


def large_records(count):
    """Receives of 65,535 octets between exchanges. Their octets are records too, for a program that loses its place."""
    trace = Trace()
    inner = (close_record(0) * LONGEST)[:LONGEST]
    trace.open(0, 7, 0, 16)
    for cookie in range(1, count + 1):
        trace.poll(0, cookie)
        trace.receive((0, 1, 16)[cookie % 3], cookie % 5, inner[cookie % 14:] + bytes(cookie % 14))
        trace.sent(0, 100 * cookie)
        trace.receive(0, 100 * cookie + 31, response(cookie, receive=100 * cookie + 10, transmit=100 * cookie + 20))
    return trace.octets()


def random_trace(octets):
    """Random calls, at least so many octets of them; the first is one of the largest."""
    trace = RandomTrace(Random(2080), (*LENGTHS, 1276, 4000, 20_000))
    trace.receive(0, 1, bytes(LONGEST))
    length = 0
    while length < octets:
        known = len(trace.records)
        trace.one()
        length += sum(map(len, trace.records[known:]))
    return trace.octets()


def pieces(checks):
    """How a trace arrives makes no difference."""
    for name, make in EXAMPLES.items():
        checks.fed(name, make(), 1)
    for size in (13, 14, 15):
        checks.fed("the stored trace", stored_trace(), size)
    large = large_records(12)
    for size in (4096, LONGEST, LONGEST + 1):
        checks.fed("large records", large, size)
    wrong = b"".join(SHORT[:3]) + bytes(20) + large
    checks.fed("a wrong record, and more than a pipe holds behind it,", wrong, LONGEST)


def large_traces(checks):
    trace = large_records(LARGE_RECORDS)
    checks.run("large records from a file", [checks.file("records", trace)], expected(trace), "")
    checks.replay("large records", trace)
    trace = random_trace(LARGE)
    checks.run("a large trace from a file", [checks.file("large", trace)], expected(trace), "")
    peaks = []
    for octets in (random_trace(SMALL), trace):
        with Fed(checks.program) as run:
            run.give(octets)
            peaks.append(run.peak())
            checks.same(f"a trace of {len(octets)} octets from a pipe", run.printed(), (expected(octets), 0))
    small, large = peaks
    checks.same(f"the peak memory of a large trace is that of a small one, {large} and {small} KiB",
                None not in peaks and large <= small + GROWTH, True)


def main():
    programs = sys.argv[1:] + [TOP / "target" / "bin" / name for name in ("replay", "cases")][len(sys.argv[1:]):]
    program, cases = map(os.path.abspath, programs)
    with tempfile.TemporaryDirectory() as folder:
        checks = Checks(program, pathlib.Path(folder), "replay", BY_HAND, PRINTED)
        arguments(checks)
        full_output(checks)
        standard_input(checks, WRONG[:13], "record")
        small_traces(checks)
        stored_files(checks)
        pieces(checks)
        large_traces(checks)
        same_calls(checks, cases)
    return checks.told("replay_program_test")


if __name__ == "__main__":
    sys.exit(main())
