#!/usr/bin/env python3
"""Write examples/rack.cases: a small rack's story as calls, with what happens in comments.

usage: rack_make.py > examples/rack.cases

The answers that travel are those of the models in client_model.py and responder_model.py.
"""
import sys
import textwrap

sys.dont_write_bytecode = True      # no generated folder beside the sources
from case_lines import filter_of                # noqa: E402
from cases_model import text_of                 # noqa: E402
from client_model import Table                  # noqa: E402
from responder_model import SERVER, Store       # noqa: E402

OWN = bytes.fromhex("0102030405060708090a0b0c0d0e0f")
CLOCK, NEIGHBOUR = bytes.fromhex("c10c" * 7 + "c1"), bytes.fromhex("4e" * 15)
VALUES = {"leap": 0, "stratum": 1, "poll": 4, "precision": -20, "timescale": 0, "era": 0, "flags": 0, "root_delay": 0x100,
          "root_dispersion": 0x200, "timescale_offset": 0}
INFORMATION = bytes.fromhex("00100000")
TAI_UTC = 37            # seconds
SECOND = 2 ** 32        # a timestamp has 32 fraction bits
SIZE = 256
WIDTH = 102     # of a comment


def comment(*texts):
    for text in texts:
        print(textwrap.fill(text, WIDTH, initial_indent="# ", subsequent_indent="# "))


class Story:
    def __init__(self):
        self.table, self.store = Table(), Store()

    def note(self, *texts):
        """What happens, and what the words of the next calls are: each text begins on a line of its own."""
        print()
        comment(*texts)

    def open(self, association, edition=7):
        print(f"open {association} {edition} 0 {SIZE}")
        self.table.open(association, edition, 0, SIZE)

    def poll(self, association, cookie, mode="basic", t1=None, room=84 + SIZE):
        print(f"poll {association} {cookie:#x} 4 {mode} 00*{room}")
        _, length, output = self.table.poll(association, cookie, 4, mode == "interleaved", bytes(room))
        if t1:
            print(f"sent {association} {t1:#x}")
            self.table.sent(association, t1)
        return output[:length]

    def answer(self, request, receive, estimate, fresh, filter_octets, edition=7, timescale_offset=0):
        server = [{**VALUES, "timescale_offset": timescale_offset}[name] for name in SERVER]
        words = [edition, text_of(request), f"{receive:#x}", f"{estimate:#x}", f"{fresh:#x}", *server, text_of(filter_octets),
                 text_of(INFORMATION), f"00*{len(request)}"]
        print("answer " + " ".join(map(str, words)))
        return self.store.answer(edition, request, receive, estimate, fresh, *server, filter_octets, INFORMATION,
                                 bytes(len(request)))[2]

    def clock_answer(self, request, start, fresh, filter_octets):
        """The clock's answer to a request that went at `start`: it is a second ahead of us."""
        return self.answer(request, start + SECOND, start + SECOND + 16, fresh, filter_octets)

    def old_clock_answer(self, request, start, fresh):
        """The same of the clock of edition 1: it is half a second ahead of us, and of its filter nothing is sent."""
        return self.answer(request, start + SECOND // 2, start + SECOND // 2 + 16, fresh, bytes(512), 1, TAI_UTC)

    def report(self, cookie, time):
        print(f"report {cookie:#x} {time:#x}")
        self.store.report(cookie, time)

    def receive(self, association, t4, datagram):
        print(f"receive {association} {t4:#x} {text_of(datagram)}")
        self.table.receive(association, t4, datagram)


def opening(story):
    comment("A management controller and its servers, call by call. docs/CASES.md has the form of each call.",
            "Octets are pairs of hexadecimal digits; 00*340 is 340 octets 00. Times count units of 2^-32 s.",
            "Where a call is new, its words are named in order.",
            "A result's first number is 0, or says why the call was refused.")
    story.note("Our controller has a table for sixteen servers. It is cleared once, before anything else.")
    print("clear")
    story.note("Server 0 is the rack's clock, server 1 a neighbour. A filter's 512 octets come in two chunks.",
               "open: the server, the edition of the draft that it speaks (7 is that of March 2023), its timescale (0 is UTC), the "
               "octets of a chunk.")
    story.open(0)
    story.open(1)
    story.note("The clock keeps the send times of its last answers in a store, here of four records.")
    print("store 4")
    story.store.clear(4)


def first_exchange(story, start, good):
    story.note("A first exchange. We ask the clock for the time and for the first chunk: 340 octets go out. We want "
               "interleaved mode, but the first answer is a basic one, since we have no cookie of the clock yet.",
               "poll: the server, a cookie that is never used again, the poll exponent (2^4 s), the mode, the room for the "
               "request.",
               "sent: the server, when the request went (T1).")
    request = story.poll(0, 0xC1, "interleaved", start)
    story.note("The clock answers; it is a second ahead of us. The answer is as long as the request, and its fresh cookie "
               "waits in the store for the true send time.",
               "answer: the edition, the request, when it came, when the answer is thought to leave (16 units later), a fresh "
               "cookie, nine values of the clock, its timescale offset (edition 7 sends none), its filter, its server information "
               "(00100000 is version 5 alone), the room for the answer.")
    octets = story.clock_answer(request, start, 0x51, good)
    story.note("It left 64 units later than thought. The clock reports that, and the store holds cookie and time.",
               "report: the cookie, the time.")
    story.report(0x51, start + SECOND + 80)
    story.note("We receive the answer: usable (judgement 0), its chunk taken (1). The offset is 40 units less than a "
               "second, which has 4294967296.",
               "receive: the server, when the answer came (T4), the answer.")
    story.receive(0, start + 96, octets)


def interleaved_exchange(story, start, good):
    story.note("An interleaved exchange. We repeat the clock's cookie, so that it tells when its last answer left.")
    request = story.poll(0, 0xC2, "interleaved", start)
    octets = story.clock_answer(request, start, 0x52, good)
    story.note("The measurement is of the exchange before, with the true send time: the delay is smaller, the offset nearer "
               "to a second. Both chunks of the clock's filter are there now.")
    story.receive(0, start + 96, octets)
    story.note("A late duplicate of that answer comes. Its request was used up: refused with 9, and nothing changes.")
    story.receive(0, start + 200, octets)


def lost_answers(story, start, good):
    story.note("Four answers of the clock are lost. Each poll but the first replaces a request that was not answered and counts "
               "it as missed. All four repeat the clock's last cookie, 0x52.")
    for turn in range(4):
        sent = start + 16 * turn * SECOND
        request = story.poll(0, 0xC3 + turn, "interleaved", sent)
        story.clock_answer(request, sent, 0x53 + turn, good)
    story.note("The fourth request, field by field: three are missed, and server cookie 0x52 is still sent. The clock has forgotten "
               "it: its store was full, and the oldest cookie left.",
               "header: the edition, the mode that the datagram is to have (3 is a client's), the datagram.")
    print(f"header 7 3 {text_of(request)}")


def fallen_back(story, start, good):
    story.note("The fifth poll counts the fourth missed one. It asks for interleaved mode as before (flag 0x2), but sends server "
               "cookie 0, as if the clock had given none.")
    request = story.poll(0, 0xC7, "interleaved", start)
    print(f"header 7 3 {text_of(request)}")
    story.note("The clock gives a basic answer with a fresh cookie, and reports when it left. We receive it: measured as the very "
               "first one was, and the number of missed polls is back to 0.")
    octets = story.clock_answer(request, start, 0x57, good)
    story.report(0x57, start + SECOND + 80)
    story.receive(0, start + 96, octets)
    story.note("With that cookie the next exchange is interleaved again.")
    start += 16 * SECOND
    request = story.poll(0, 0xC8, "interleaved", start)
    story.receive(0, start + 96, story.clock_answer(request, start, 0x58, good))


def mixed_answers(story, start, good, looping):
    story.note("Two exchanges at once. We ask both servers, in basic mode.")
    mine, theirs = story.poll(0, 0xC9, t1=start), story.poll(1, 0xD1, t1=start + 5)
    story.note("Both answer.")
    first = story.clock_answer(mine, start, 0, good)
    second = story.answer(theirs, start + 40, start + 56, 0, looping)
    story.note("The neighbour's answer comes first. Each chunk goes to its own server's filter, at the offset that its own "
               "request asked.")
    story.receive(1, start + 91, second)
    story.receive(0, start + 96, first)


def verdicts(story, start, looping):
    story.note("Does the neighbour follow us? Only half of its filter is there: incomplete (1).",
               "verdict: the server, our own ID.")
    print(f"verdict 1 {text_of(OWN)}")
    story.note("The second half.")
    theirs = story.poll(1, 0xD2, t1=start)
    second = story.answer(theirs, start + 40, start + 56, 0, looping)
    story.receive(1, start + 96, second)
    story.note("Now the verdict is loop (2): our own ID is in the neighbour's filter, so the neighbour follows us.")
    print(f"verdict 1 {text_of(OWN)}")
    story.note("The clock's filter does not have it: clear (3).")
    print(f"verdict 0 {text_of(OWN)}")
    story.note("We follow the clock alone. Published is its filter with our own ID added, so that others can see us in it.",
               "publish: the servers that we follow (1 is server 0 alone), our own ID, the room for the filter.")
    print(f"publish 1 {text_of(OWN)} 00*512")


def half_era(story, start, looping):
    story.note("The neighbour's clock died and is half an era off, 68 years. Is it ahead or behind? A difference of 2^63 "
               "has no sign: judgement 5, with offset and delay 0. The answer is accepted all the same, its chunk taken (1).")
    theirs = story.poll(1, 0xD3, t1=start)
    second = story.answer(theirs, start + 2 ** 63, start + 2 ** 63 + 16, 0, looping)
    story.receive(1, start + 100, second)


def old_clock(story, start):
    story.note("Another rack is joined to ours. Its clock speaks the draft of December 2020, edition 1. It becomes server 2, in the "
               "same table as the two of edition 7. A chunk size is named for it too, though no chunk will come.")
    story.open(2, 1)
    story.note("We ask the old clock. The request is the header alone, 48 octets: its edition has no filter to ask for. Read in edition "
               "1, the header has one field more, and interleaved mode is flag 0x4.")
    request = story.poll(2, 0xE1, "interleaved", start, room=48)
    print(f"header 1 3 {text_of(request)}")
    story.note("It answers in its edition; it is half a second ahead of us. The store is cleared to stand for its own. Its timescale "
               "offset says that TAI is 37 s ahead of UTC.")
    print("store 4")
    story.store.clear(4)
    octets = story.old_clock_answer(request, start, 0x61)
    story.report(0x61, start + SECOND // 2 + 80)
    print(f"header 1 4 {text_of(octets)}")
    story.note("We receive it: usable as any other, 40 units less than half a second (2147483648). The chunk is absent (2).")
    story.receive(2, start + 96, octets)


def both_clocks(story, start, good):
    story.note("The next round: both clocks are asked, each in its edition.")
    mine, old = story.poll(0, 0xCA, t1=start), story.poll(2, 0xE2, "interleaved", start + 5, room=48)
    first = story.clock_answer(mine, start, 0, good)
    second = story.old_clock_answer(old, start + 5, 0x62)
    story.note("Time is measured from both. The old clock's answer is interleaved: it has the true send time of the one before. From "
               "the clock of edition 7 comes a chunk too.")
    story.receive(2, start + 101, second)
    story.receive(0, start + 96, first)


def mixed_verdicts(story):
    story.note("Who follows us? Through edition 7 that is seen: the clock does not (3), the neighbour does (2). The old clock has no "
               "filter to look at: its verdict stays incomplete (1), however often we ask.")
    for association in range(3):
        print(f"verdict {association} {text_of(OWN)}")
    story.note("We follow both clocks. Nothing can be published of the old one: refused with 7 (5 selects servers 0 and 2). With the "
               "clock of edition 7 alone it is accepted. Whether to follow a server whose loops cannot be seen is for us to decide.")
    print(f"publish 5 {text_of(OWN)} 00*512")
    print(f"publish 1 {text_of(OWN)} 00*512")
    story.note("There are these two editions, and no other is opened (6).")
    print(f"open 3 2 0 {SIZE}")


def bad_input(story):
    story.note("Bad input is refused with its number: 47 octets (1), a field length of 3 (4), padding that is not zero (5).",
               "sound: the mode that the datagram is to have (4 is a server's), the datagram.")
    print("sound 4 2c00*46")
    print("sound 4 2c00*47,f5010003")
    print("sound 4 2c00*47,f5010005,ff,000001")
    story.note("A MAC may stand as the last field. It would not cover a field after it: such a datagram is refused (13).")
    print("sound 4 2c00*47,f5010004,f5020014,99*16")
    print("sound 4 2c00*47,f5020014,99*16,f5010004")


def main():
    story, start = Story(), 5000 * SECOND
    good, looping = filter_of(CLOCK), filter_of(NEIGHBOUR, OWN)
    opening(story)
    first_exchange(story, start, good)
    interleaved_exchange(story, start + 16 * SECOND, good)
    lost_answers(story, start + 32 * SECOND, good)
    fallen_back(story, start + 96 * SECOND, good)
    mixed_answers(story, start + 128 * SECOND, good, looping)
    verdicts(story, start + 144 * SECOND, looping)
    half_era(story, start + 160 * SECOND, looping)
    old_clock(story, start + 176 * SECOND)
    both_clocks(story, start + 192 * SECOND, good)
    mixed_verdicts(story)
    bad_input(story)


if __name__ == "__main__":
    main()
