"""The part of the case file for W211-1 to W211-5: polls that no response comes to, on the client's table.

The number of missed polls shows in the server cookie that an interleaved poll sends: the saved one, or 0 from four on.
"""
from collections import Counter

from case_lines import OWN_ID, Lines as ClientLines, chunk
from half_era_make import HALF_ERA
from responder_make import Lines as ResponderLines, exchanges

ROOM = "00*100"     # for a poll with chunks of 16 octets
TAKEN, ANOTHER_SIZE = chunk(b"\x11" * 16), chunk(b"\x22" * 15)


class Lines(ClientLines):
    """The lines so far. In a group the client cookies of an association are 1, 2 and so on."""

    def __init__(self, edition=7):
        super().__init__(edition)
        self.last = Counter()       # the last client cookie of each association
        self.short = "00*47" if edition == 1 else "00*99"       # too little room for a poll

    def polls(self, association, count, mode="interleaved"):
        for _ in range(count):
            self.last[association] += 1
            self.poll(association, self.last[association], ROOM, mode)

    def answered(self, association, server_cookie, *fields, **values):
        """A response to the last poll, whose T1 is reported before."""
        self.add(f"sent {association} 10")
        self.receive(association, 40, self.response(self.last[association], *fields, server_cookie=server_cookie, **values))

    def begin(self, comment, *associations):
        """A group on a cleared table with these open, each with its own number as the saved server cookie."""
        self.last.clear()
        self.fresh(comment, *((association, 0, 16) for association in associations))
        for association in associations:
            self.polls(association, 1)
            self.answered(association, association)


def ends(interleaved):
    """How a run of polls ends: how many they are, and the response to the last."""
    return [(2, (TAKEN,), interleaved), (5, (TAKEN,), {}), (3, (), {}), (5, (), {}), (4, (), interleaved), (5, (ANOTHER_SIZE,), {}),
            (5, (TAKEN,), {"leap": 3}), (5, (), {"stratum": 0}), (5, (TAKEN,), {"timescale": 1}), (5, (), {"transmit": 0}),
            (5, (TAKEN,), {"receive": HALF_ERA + 10}), (12, (TAKEN,), {})]


def falling_back(lines):
    lines.begin("Missed polls: four polls after an accepted response send its server cookie, the fifth and all after it 0; flag "
                f"{lines.flag:#x} stays", 9)
    lines.polls(9, 1)
    lines.answered(9, 0x2222, flags=lines.flag)
    lines.polls(9, 18)

    lines.group("Missed polls: an interleaved response to server cookie 0 is refused with 10, a basic one leads back to interleaved")
    lines.answered(9, 0x3333, flags=lines.flag)
    lines.receive(9, 40, lines.response(lines.last[9], receive=21, server_cookie=0x4444))
    lines.polls(9, 1)
    lines.answered(9, 0x5555, flags=lines.flag)
    lines.polls(9, 5)

    lines.begin("Missed polls: back to 0 at every accepted response, whatever its mode, its judgement and its chunk", 9)
    for server_cookie, (count, fields, values) in enumerate(ends({"flags": lines.flag}), 0x60):
        lines.polls(9, count)
        lines.answered(9, server_cookie, *fields, **values)
    lines.polls(9, 5)


def refused_polls(lines):
    """8 for the last cookie and for 0, 11, 7 and 6."""
    last = lines.last[9]
    for association, cookie, room in ((9, last, ROOM), (9, 0, ROOM), (9, last + 1, lines.short), (8, 1, ROOM), (16, 1, ROOM)):
        lines.poll(association, cookie, room, "interleaved")


def refused_responses(lines):
    """6, 7, 1 to 5 and 13; 9 for the cookie of a replaced request and for another one."""
    last = lines.last[9]
    good = lines.response(last, TAKEN, server_cookie=0x77)
    lines.receive(16, 40, good)
    lines.receive(9, 0, good)
    lines.receive(8, 40, good)
    for datagram in (good[:-2], b"\x24" + good[1:], b"\x2b" + good[1:], good[:-4], good + bytes.fromhex("f5010005ff000001"),
                     good + bytes.fromhex("f5020004f5010004"), lines.response(last - 1, TAKEN), lines.response(last + 1, TAKEN)):
        lines.receive(9, 40, datagram)


def refusing(lines):
    lines.begin("Missed polls: a refused poll counts nothing, before the first poll, after it, and after the fifth", 9)
    refused_polls(lines)
    for count in (1, 4, 1):
        lines.polls(9, count)
        refused_polls(lines)
    lines.polls(9, 1)

    lines.begin("Missed polls: a refused response does not set back: 6, 7, 1 to 5, 13 and 9; 10 after the fifth poll and a basic one",
                9)
    lines.polls(9, 4)
    refused_responses(lines)
    lines.polls(9, 1)
    lines.answered(9, 0x78, flags=lines.flag)
    lines.polls(9, 1)
    lines.answered(9, 0x79)
    lines.polls(9, 3)
    lines.polls(9, 1, "basic")
    lines.answered(9, 0x7A, flags=lines.flag)
    lines.polls(9, 1)


def counting(lines):
    lines.begin("Missed polls: basic ones count too: after three of them the saved server cookie is sent, after four 0", 9)
    lines.polls(9, 3, "basic")
    lines.polls(9, 1)
    lines.answered(9, 0x88)
    lines.polls(9, 4, "basic")
    for mode in ("interleaved", "basic", "interleaved"):
        lines.polls(9, 1, mode)
    lines.answered(9, 0x89)
    for mode in ("interleaved", "basic", "basic", "interleaved", "interleaved"):
        lines.polls(9, 1, mode)

    lines.begin("Missed polls: sent, accepted and refused, and a loop verdict change nothing", 9)
    for count in (1, 3, 1):
        lines.polls(9, count)
        lines.add("sent 9 0\nsent 9 10\nsent 9 11")
        lines.verdict(9, OWN_ID)
    lines.polls(9, 1)

    lines.begin("Missed polls: two associations count apart from each other", 9, 10)
    for association, count in ((9, 4), (10, 2), (9, 1), (10, 1)):
        lines.polls(association, count)
    lines.answered(10, 0x99)
    lines.polls(9, 1)
    lines.polls(10, 4)
    lines.answered(9, 0x9A)
    lines.polls(10, 1)
    lines.polls(9, 1)


def opening_again(lines):
    lines.begin("Missed polls: none are left after close and open, nor after clear and open", 9)
    for way in ("close 9", "clear"):
        lines.polls(9, 6)
        lines.add(way)
        lines.open(9, 0, 16)
        lines.polls(9, 1)
        lines.answered(9, 0xAA)
        lines.polls(9, 5)


def with_responder(lines):
    lines.group("Missed polls: four answers of our responder are lost; the next is basic, and those after it are interleaved", 3)
    exchanges(lines, range(1, 10), lost=range(3, 7))


def missed_lines(edition=7):
    """The whole part."""
    lines, answers = Lines(edition), ResponderLines(edition)
    for part in (falling_back, refusing, counting, opening_again):
        part(lines)
    with_responder(answers)
    return lines.made + answers.made
