"""Holds the programs `replay` and `cases` to each other: the client's calls among the stored cases, as traces and as lines."""
import pathlib
import re
import subprocess
import sys
from collections import Counter

TOP = pathlib.Path(__file__).resolve().parent.parent
sys.path.append(str(TOP / "tools"))
from cases_model import calls_of, octets_of, text_of        # noqa: E402
from trace_from_cases import RECORDS, trace_of      # noqa: E402
from trace_model import ROOM        # noqa: E402

STORED = TOP / "crates" / "cases" / "stdin"
IGNORED = 0x0123456789ABCDEF        # the time of open, poll and close in a trace
# How often each has to be met: if the stored cases are no longer compared, it is to be seen.
AT_LEAST = {"parts": 50, "lines": 1800, "chunks taken": 120, "open 0": 90, "open 6": 30, "open 7": 5, "close 0": 20, "close 6": 1,
            "close 7": 5, "poll 0": 700, "poll 6": 5, "poll 7": 5, "poll 8": 20, "sent 0": 300, "sent 6": 5, "sent 7": 10,
            "receive 0": 350, "receive 1": 3, "receive 2": 2, "receive 3": 2, "receive 4": 10, "receive 5": 10, "receive 6": 5,
            "receive 7": 3, "receive 9": 20, "receive 10": 20, "receive 13": 20}


def client_parts(octets):
    """The lines of a case file that have a record, in parts that each begin on a cleared table. Calls that do not change the client's
    table, and lines that are no calls, are left out. A poll is lent what a replay lends it."""
    lines, parts = octets.decode("latin-1").split("\n"), [[]]
    for number, call, _ in calls_of(octets):
        name = call and call[0]
        if name == "clear":
            parts.append([])
        elif name in RECORDS:
            words = lines[number - 1].split("#")[0].split()
            parts[-1].append(" ".join([*words[:-1], f"00*{ROOM}"] if name == "poll" else words))
    return [part for part in parts if part]


def as_replayed(result):
    """A result of `cases` as `replay` prints it: of a poll's buffer the octets written alone."""
    words = result.split(" ")
    if words[:2] == ["poll", "0"]:
        words[3] = text_of(octets_of(words[3])[:int(words[2])])
    return " ".join(words)


def printed(program, octets):
    done = subprocess.run([program], input=octets, capture_output=True, timeout=60)
    return (done.stdout + done.stderr).decode("latin-1").split("\n")[:-1]


def same_calls(checks, cases):
    """Each part's results are the same, and there are enough of every kind."""
    met = Counter()
    for number, part in enumerate(client_parts(STORED.read_bytes()), 1):
        lines = "\n".join(part).encode()
        trace, told = trace_of(lines, time=IGNORED)
        results = printed(cases, lines)
        expected = [f"{place} {as_replayed(result)}" for place, result in enumerate(results, 1)]
        checks.same(f"part {number} of the stored cases: what is told of it, and its results", (told, len(results)), ([], len(part)))
        checks.same(f"part {number} of the stored cases", "\n".join(printed(checks.program, trace)), "\n".join(expected))
        met.update(re.match(r"\w+ \d+", result)[0] for result in results)
        met.update({"parts": 1, "lines": len(part), "chunks taken": sum("chunk=1 " in result for result in results)})
    few = {what: met[what] for what, least in AT_LEAST.items() if met[what] < least}
    checks.same("what is met too seldom in the stored cases", few, {})
