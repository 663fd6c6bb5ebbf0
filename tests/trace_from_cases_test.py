#!/usr/bin/env python3
"""Shows what tools/trace_from_cases.py makes of case lines."""
import pathlib
import subprocess
import sys
import tempfile
import unittest

from counted import counted     # the first: it lets tools/ be imported from
import trace_from_cases
from trace_from_cases import trace_of

TOP = pathlib.Path(__file__).resolve().parent.parent
LINES = b"""\
clear   # before the first record it is nothing
open 15 7 3 0x200
poll 15 0x0102030405060708 -2 interleaved 00*99
sent 255 0xfffffffffffffffe
receive 0 40 2b00*3
\tclose 1\r

open 2 1 255 16"""
RECORDS = """\
4e35 01 0f 0004 {0}  07 03 0200
4e35 02 0f 000a {0}  0102030405060708 fe 01
4e35 03 ff 0000 fffffffffffffffe
4e35 04 00 0004 0000000000000028  2b000000
4e35 05 01 0000 {0}
4e35 01 02 0004 {0}  01 ff 0010"""


def trace(time=0):
    return bytes.fromhex(RECORDS.format(f"{time:016x}"))


class Lines(unittest.TestCase):
    def test_each_call_is_its_record(self):
        self.assertEqual(trace_of(LINES), (trace(), []))
        self.assertEqual(trace_of(b""), (b"", []))
        self.assertEqual(trace_of(b"poll 0 1 127 basic -")[0][-10:].hex(), "00000000000000017f00")

    def test_the_ignored_times(self):
        self.assertEqual(trace_of(LINES, time=0x1122334455667788), (trace(0x1122334455667788), []))

    def test_lines_that_are_no_calls(self):
        for line, told in ((b"polls", "word 1: unknown call"), (b"open 1 7 0", "word 5: missing"), (b"close 1 1", "word 3: left over"),
                           (b"close 256", "word 2: number out of range"), (b"sent 0 x", "word 3: not a number"),
                           (b"poll 0 1 6 2 00", "word 5: neither basic nor interleaved"),
                           (b"receive 0 1 0g", "word 4: odd number of hexadecimal digits"),
                           (b"receive 0 1 00*4097", "word 4: more than 4096 octets"), (b" " * 65537, "longer than 65536 octets")):
            for only_client in (False, True):
                self.assertEqual(trace_of(b"#\n" + line + b"\n" + line, only_client)[1], [f"line 2: {told}", f"line 3: {told}"])

    def test_calls_that_have_no_record(self):
        lines = b"store 4\nclear\nclose 0\nverdict 0 00*15\npublish 0 00*15 -\nmeasure 1 1 1 1\nclose 1\n"
        told = [f"line {number}: {name}: no record of a trace"
                for number, name in ((1, "store"), (4, "verdict"), (5, "publish"), (6, "measure"))]
        self.assertEqual(trace_of(lines)[1], told)
        self.assertEqual(trace_of(lines, only_client=True), (trace_of(b"close 0\nclose 1")[0], []))

    def test_a_clear_in_the_middle(self):
        for only_client in (False, True):
            told = trace_of(b"clear\nclear\nclose 0\nclear\nclose 0\n", only_client)[1]
            self.assertEqual([line[:15] for line in told], ["line 4: clear: "])


class Program(unittest.TestCase):
    def run_tool(self, *arguments, **given):
        done = subprocess.run([TOP / "tools" / "trace_from_cases.py", *arguments], capture_output=True, **given)
        return done.stdout, done.stderr.decode(), done.returncode

    def test_input_and_options(self):
        self.assertEqual(self.run_tool(input=LINES), (trace(), "", 0))
        self.assertEqual(self.run_tool("--time", "0x99", input=LINES), (trace(0x99), "", 0))
        with tempfile.TemporaryDirectory() as folder:
            path = pathlib.Path(folder, "lines")
            path.write_bytes(LINES + b"\nverdict 0 -\n")
            self.assertEqual(self.run_tool("--only-client", path), (trace(), "", 0))
            self.assertEqual(self.run_tool(path), (b"", "line 9: verdict: no record of a trace\n", 1))
            self.assertEqual(self.run_tool(folder), (b"", f"{folder}: Is a directory\n", 1))
        self.assertEqual(self.run_tool(path), (b"", f"{path}: No such file or directory\n", 1))

    def test_help_and_usage(self):
        self.assertEqual(self.run_tool("-h"), (trace_from_cases.__doc__.encode(), "", 0))
        for arguments in (("--time", "x"), ("--time", "18446744073709551616"), ("--other",), ("one", "two")):
            printed, said, status = self.run_tool(*arguments, input=b"")
            self.assertEqual((printed, status), (b"", 2))
            self.assertTrue(said.startswith("usage: trace_from_cases.py "))


if __name__ == "__main__":
    sys.exit(counted("traces from case lines"))
