#!/usr/bin/env python3
"""Write the traces of examples/, which the program `replay` reads.

usage: trace_examples_make.py FOLDER

rack.trace   The trial that the bought unit got wrong. Both halves of two servers' filters arrive mixed, in chunks of 256 octets.
             Server 0 follows this controller: its filter has the controller's own ID, some of the ten positions in each half.
             Server 1 does not. After the trace the verdict on association 0 with the own ID, 0102030405060708090a0b0c0d0e0f, is
             loop (2), and on association 1 clear (3). A unit that puts the chunks of both into one buffer, by their arrival or by
             the offsets asked, says clear for server 0. The last poll of each asks for offset 0: the pass begins again.
mixed.trace  A server of edition 7, association 3, and one of edition 1, association 12, both in interleaved mode. An answer of
             server 3 is lost, a late copy of another is refused (9); association 12 is closed, and a poll of it refused (7).
wrong.trace  A sound start, then a record, the sixth, whose mark is damaged. The two records after it are sound, and are not run.

The answers that travel are those of the model in responder_model.py.
"""
import itertools
import pathlib
import sys

sys.dont_write_bytecode = True      # no generated folder beside the sources
from case_lines import filter_of                # noqa: E402
from client_model import CLEAR, LOOP            # noqa: E402
from page_model import positions                # noqa: E402
from rack_make import CLOCK, INFORMATION, NEIGHBOUR, OWN, SECOND, VALUES        # noqa: E402
from responder_model import SERVER, Store       # noqa: E402
from trace_records import Trace, close_record   # noqa: E402

SIZE = 256              # octets of a chunk
START = 6000 * SECOND   # of the first poll
TURN = 16 * SECOND      # from one poll to the next
EXPONENT = 4            # which says so: 2^4 s


class Server:
    """A server that one association polls: so many units ahead of us, and its answers take 16 units."""

    def __init__(self, trace, association, filter_octets, edition=7, ahead=0):
        self.trace, self.association, self.edition, self.ahead, self.filter = trace, association, edition, ahead, filter_octets
        self.store, self.turn = Store(), 0
        self.store.clear(4)
        trace.open(association, edition, 0, SIZE)

    def poll(self, mode=0):
        """A request of the next turn, and its send; the answer to it, whose send the server reports."""
        self.turn += 1
        self.sent = START + self.turn * TURN
        request = self.trace.poll(self.association, 0x100 * (self.association + 1) + self.turn, EXPONENT, mode)
        self.trace.sent(self.association, self.sent)
        came, fresh = self.sent + self.ahead + 40, 0x50 + self.turn
        values = [VALUES[name] for name in SERVER]
        _, _, self.answer = self.store.answer(self.edition, request, came, came + 16, fresh, *values, self.filter, INFORMATION,
                                              bytes(len(request)))
        self.store.report(fresh, came + 24)

    def receive(self, after=100):
        """The answer to the last poll comes so many units after it was sent."""
        self.trace.receive(self.association, self.sent + after, self.answer)


def has_own(octets):
    return all(octets[p // 8] & 2 ** (p % 8) for p in positions(OWN))


def rack():
    looping, clear = filter_of(NEIGHBOUR, OWN), filter_of(CLOCK)
    halves = [octets[at:at + SIZE] for octets in (looping, clear) for at in (0, SIZE)]
    together = [pair for pair in itertools.product(range(4), repeat=2) if has_own(halves[pair[0]] + halves[pair[1]])]
    assert together == [(0, 1)], "the own ID shows where halves are not put together right"

    trace = Trace()
    servers = [Server(trace, 0, looping), Server(trace, 1, clear, ahead=SECOND)]
    for _ in range(2):
        for server in servers:
            server.poll()
        for server in servers:
            server.receive()
    for server in servers:
        server.poll()
    assert [trace.table.verdict(association, OWN) for association in (0, 1)] == [(0, LOOP), (0, CLEAR)]
    assert [trace.table.places[association].outstanding.offset for association in (0, 1)] == [0, 0]
    return trace.octets()


def mixed():
    trace = Trace()
    new = Server(trace, 3, filter_of(CLOCK), ahead=SECOND)
    old = Server(trace, 12, filter_of(NEIGHBOUR), edition=1, ahead=-SECOND // 2)
    for turn in range(1, 6):
        new.poll(mode=1)
        old.poll(mode=1)
        old.receive(after=90)
        if turn != 3:
            new.receive()
    new.receive(after=200)
    trace.close(12)
    trace.poll(12, 0xD06, EXPONENT, 1)
    trace.close(12)
    new.poll(mode=1)
    new.receive()
    return trace.octets()


def wrong():
    trace = Trace()
    server = Server(trace, 0, filter_of(CLOCK), ahead=SECOND)
    server.poll()
    server.receive()
    server.poll()
    records = trace.records[:-1] + [b"\x4e\x00" + trace.records[-1][2:], close_record(0), close_record(0)]
    return b"".join(records)


EXAMPLES = {"rack.trace": rack, "mixed.trace": mixed, "wrong.trace": wrong}


def main():
    if len(sys.argv) != 2:
        sys.exit("usage: trace_examples_make.py FOLDER")
    for name, make in EXAMPLES.items():
        pathlib.Path(sys.argv[1], name).write_bytes(make())


if __name__ == "__main__":
    main()
