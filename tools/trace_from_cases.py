#!/usr/bin/env python3
"""Write a trace, which the program `replay` reads, from case lines (docs/CASES.md).

usage: trace_from_cases.py [--only-client] [--time T] [FILE] > TRACE

The lines come from FILE, or from standard input. An open, poll, sent, receive or close becomes a record. A poll's OUTPUT does not
stand in a trace: a replay lends every poll 1,280 octets, so that one which was refused with 11 is accepted there. Nor does a clear
before the first record, since a replay begins on a cleared table.

  --only-client  leave out the calls that don't change the client's table: verdict, publish, header, answer and so on
  --time T       the time in the records of open, poll and close, which a replay ignores; 0 if it is not given
  -h, --help     print this text

Lines that can't stand in a trace are told on standard error with their numbers; no trace is then written, and the status is 1:
  - what is no call, told as the case program tells it
  - a call that has no record, unless --only-client leaves it out
  - a clear after the first record, also with --only-client: what follows it has to be a trace of its own
"""
import argparse
import pathlib
import sys

sys.dont_write_bytecode = True      # no generated folder beside the sources
sys.path.append(str(pathlib.Path(__file__).resolve().parent.parent / "tests"))
from cases_model import U64, Problem, calls_of      # noqa: E402
from trace_records import close_record, open_record, poll_record, receive_record, sent_record       # noqa: E402

# The record of each call, from its values and the time that is ignored.
RECORDS = {
    "open": lambda values, time: open_record(*values, time),
    "poll": lambda values, time: poll_record(*values[:-1], time),
    "sent": lambda values, _: sent_record(*values),
    "receive": lambda values, _: receive_record(*values),
    "close": lambda values, time: close_record(*values, time),
}


def trace_of(lines, only_client=False, time=0):
    """The trace of case lines in octets, and what is told of the lines that can't stand in it."""
    records, told = [], []
    for number, call, problem in calls_of(lines):
        name, values = call or (None, None)
        if name in RECORDS:
            records.append(RECORDS[name](values, time))
        elif name == "clear" and records:
            told.append(f"line {number}: clear: no record clears the table, write a trace of its own from here")
        elif problem:
            told.append(f"line {number}: {problem}")
        elif name != "clear" and not only_client:
            told.append(f"line {number}: {name}: no record of a trace")
    return b"".join(records), told


def time_of(word):
    """The time that an option names, a number as in a case line."""
    try:
        return U64(word)
    except Problem as problem:
        raise argparse.ArgumentTypeError(f"{problem}")


def arguments():
    parser = argparse.ArgumentParser(usage="trace_from_cases.py [--only-client] [--time T] [FILE] > TRACE")
    parser.format_help = lambda: __doc__
    parser.add_argument("--only-client", action="store_true")
    parser.add_argument("--time", type=time_of, default=0)
    parser.add_argument("file", nargs="?")
    return parser.parse_args()


def main():
    given = arguments()
    try:
        lines = sys.stdin.buffer.read() if given.file is None else pathlib.Path(given.file).read_bytes()
    except OSError as error:
        name = "standard input" if given.file is None else given.file
        print(f"{name}: {error.strerror}", file=sys.stderr)
        return 1
    trace, told = trace_of(lines, given.only_client, given.time)
    if told:
        print("\n".join(told), file=sys.stderr)
        return 1
    sys.stdout.buffer.write(trace)
    return 0


if __name__ == "__main__":
    sys.exit(main())
