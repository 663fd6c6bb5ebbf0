#!/usr/bin/env python3
"""What the program `replay` should print for a trace, from a reading of change request W-208 alone.

usage: trace_model.py < TRACE > EXPECTED

Plain Python, written from the requirements, and from nothing of the Rattle code. What the calls answer is in client_model.py;
the form of a record and its faults are here.
"""
import itertools
import sys

sys.dont_write_bytecode = True      # no generated folder beside the sources
from cases_model import received_text, text_of      # noqa: E402
from client_model import Table      # noqa: E402
from page_model import number       # noqa: E402

MARK = b"\x4e\x35"
HEAD = 14           # octets before the data: mark (2), kind, association, data length (2), time (8)
NAMES = {1: "open", 2: "poll", 3: "sent", 4: "receive", 5: "close"}
DATA_LENGTHS = {"open": 4, "poll": 10, "sent": 0, "close": 0}       # a receive's data have any length
ROOM = 1280         # octets that a poll is lent


class Wrong(Exception):
    """What is wrong with a record."""


def read_record(stream):
    """The next record's name, association, time and data, or none at the end. Of several faults the first is told."""
    head = stream.read(HEAD)
    if not head:
        return None
    if len(head) < HEAD:
        raise Wrong("cut")
    if head[:2] != MARK:
        raise Wrong("wrong mark")
    if head[2] not in NAMES:
        raise Wrong("wrong kind")
    name, length = NAMES[head[2]], number(head[4:6])
    if length != DATA_LENGTHS.get(name, length):
        raise Wrong("wrong data length")
    data = stream.read(length)
    if len(data) < length:
        raise Wrong("cut")
    if name == "poll" and data[9] > 1:
        raise Wrong("wrong kind")
    return name, head[3], number(head[6:]), data


def opened(table, association, _, data):
    """Edition, timescale, and the chunk size in 16 bits."""
    return f"{table.open(association, data[0], data[1], number(data[2:]))}"


def polled(table, association, _, data):
    """The cookie, the exponent, which is signed, and the mode. Of the buffer the octets written are printed."""
    exponent = int.from_bytes(data[8:9], "big", signed=True)
    refusal, length, output = table.poll(association, number(data[:8]), exponent, data[9] == 1, bytes(ROOM))
    return f"{refusal}" if refusal else f"0 {length} {text_of(output[:length])}"


RESULTS = {
    "open": opened,
    "poll": polled,
    "sent": lambda table, association, t1, _: f"{table.sent(association, t1)}",
    "receive": lambda table, association, t4, data: received_text(*table.receive(association, t4, data)),
    "close": lambda table, association, *_: f"{table.close(association)}",
}


def replay(stream):
    """Each line that is printed, of a trace that is read from a stream of octets."""
    table = Table()
    for place in itertools.count(1):
        try:
            record = read_record(stream)
        except Wrong as wrong:
            yield f"record {place}: {wrong}"
            return
        if record is None:
            return
        name, *words = record
        yield f"{place} {name} {RESULTS[name](table, *words)}"


def main():
    for line in replay(sys.stdin.buffer):
        print(line)


if __name__ == "__main__":
    main()
