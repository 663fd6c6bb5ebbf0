"""The part of the case file for W204-1 to W204-12: headers and the client's table in edition 1, and in both.

The groups that other makers have and that fit edition 1 are made of it here too. edition_answer_make.py has the responder.
"""
from random import Random

from case_lines import OTHER_ID, OWN_ID, WHOLE, Lines, chunk, exchange, filter_of, response
from cases_model import WORDS, text_of
from client_make import interleaving, judging, receiving, sending
from client_model import CHUNK_SIZES, Table
from half_era_make import half_era_lines
from mac_make import EMPTY_MAC, LONG_MAC, MAC, receiving as receiving_mac
from missed_make import missed_lines
from page_model import FROM_OCTET_8, INFORMATION, INTERLEAVED, LAYOUTS, PADDING, extension, write_header

WRONG_EDITIONS = (0, 2, 3, 6, 8, 255)
OFFSETS = (-32768, -32767, -256, -37, -1, 0, 1, 37, 255, 256, 32767)
# Timescale, stratum and flags at their limits in edition 1, and above them.
AT_LIMITS = [{"timescale": 15}, {"stratum": 15}, {"flags": 0xFF}, {"timescale": 15, "stratum": 15, "flags": 0xFF}]
ABOVE_LIMITS = [{"timescale": 16}, {"timescale": 255}, {"stratum": 16}, {"stratum": 255}, {"flags": 0x100}, {"flags": 0xFFFF},
                {"timescale": 16, "stratum": 16, "flags": 0x100}]
FLAGS = (0x0, 0x1, 0x2, 0x4, 0x6, 0xFB, 0xFF)


def write(lines, edition, lent="aa*52", **values):
    words = [{**WHOLE, **values}[name] for name, _, _ in WORDS]
    lines.add(f"write {edition} " + " ".join(map(str, words)) + f" {lent}")


def both(lines, mode, octets):
    """The same octets, read in either edition."""
    for edition in LAYOUTS:
        lines.add(f"header {edition} {mode} {octets}")


def reading(lines):
    lines.group("Editions: the same header read in edition 1 and in edition 7; each octet after the first alone")
    for mode, octets in ((3, "2b00*47"), (4, "2c00*47"), (4, "ec00*47"), (4, "6cff*47")):
        both(lines, mode, octets)
    for at in range(1, 48):
        both(lines, 4, text_of(b"\x2c" + bytes(at - 1) + b"\x95" + bytes(47 - at)))

    lines.group("Editions: octet 1 of edition 1 is the timescale, high, and the stratum, low")
    for octet in (0x01, 0x0F, 0x10, 0xF0, 0x3A, 0xA3, 0xFF):
        both(lines, 4, f"2c{octet:02x}06ec00*44")

    lines.group("Editions: flags and timescale offset of edition 1")
    for flags in FLAGS:
        both(lines, 4, f"2c3106ec{flags:02x}00*43")
    for offset in OFFSETS:
        both(lines, 4, f"2c3106ec0004{offset % 2 ** 16:04x}00*40")

    lines.group("Editions: refusals 1, 2 and 3 of a header in edition 1; the chain is not looked at")
    for words in ("3 -", "3 2b00*46", "3 2b00*49", "3 2b00*1283", "4 2300*46", "4 2300*47", "4 2b00*47", "3 2c00*47", "0 2800*47",
                  "3 2b00*47,f5010003", "3 2b30,06*1278"):
        lines.add(f"header 1 {words}")


def writing(lines):
    lines.group("Editions: each field of a header, written in edition 1; the octets past 48 stay")
    write(lines, 1, lent="aa*100", mode=3)
    for name, number in zip(WHOLE, (3, 3, 5, -2, 0x12, 9, 0x34, 0x56, -0x1234, 0x789ABCDE, 0xF0123456, *[0x0123456789ABCDEF] * 4)):
        write(lines, 1, lent="aa*48", **{name: number})

    lines.group("Editions: every number at its ends in edition 1")
    for bit, ends in ((1, {"leap": 3, "poll": 127, "precision": 127, "era": 255, "timescale_offset": 32767}),
                      (0, {"leap": 0, "poll": -128, "precision": -128, "era": 0, "timescale_offset": -32768})):
        wide = {name: bit * (2 ** size - 1) for name, size, _ in FROM_OCTET_8}
        for values in AT_LIMITS:
            write(lines, 1, **values, **ends, **wide)

    lines.group("Editions: timescale, stratum and flags above edition 1's limits are refused there and written in edition 7")
    for values in ABOVE_LIMITS:
        for edition in LAYOUTS:
            write(lines, edition, **values)

    lines.group("Editions: refusals in edition 1, 6 before 11, and nothing changes")
    for values in ({"leap": 4}, {"mode": 5}, {"mode": 0}, {"timescale": 16}, {"stratum": 16}, {"flags": 256}, {}):
        write(lines, 1, lent="aa*47", **values)
    write(lines, 1, lent="-")

    lines.group("Editions: the timescale offset is sent in edition 1, and in edition 7 not looked at")
    for offset in OFFSETS:
        for edition in LAYOUTS:
            write(lines, edition, timescale_offset=offset)


def round_trips(lines, random):
    lines.group("Editions: random headers, written and read in one edition")
    for turn in range(16):
        edition = (1, 7)[turn % 2]
        values = {"timescale_offset": 0}
        for name, size, signed in LAYOUTS[edition]:
            values[name] = random.randrange(2 ** size) - (2 ** (size - 1) if signed else 0)
        values["mode"] = random.choice((3, 4))
        write(lines, edition, lent="00*48", **values)
        _, octets = write_header(edition, values, bytes(48))
        lines.add(f"header {edition} {values['mode']} {text_of(octets)}")


def wrong_editions(lines):
    lines.group("Editions: any other is refused with 6, before 1, 2 and 3 in header reading, before 11 in writing")
    for edition in WRONG_EDITIONS:
        for words in ("3 2b00*47", "3 2b00*46", "3 2300*47", "4 2b00*47", "3 -"):
            lines.add(f"header {edition} {words}")
        write(lines, edition)
        write(lines, edition, timescale=15, leap=4)
        write(lines, edition, lent="aa*47")

    lines.fresh("Editions: any other is refused with 6 in opening, before 7 where the association is open", (0, 0, 16))
    for edition in WRONG_EDITIONS:
        for association, timescale, size in ((1, 0, 16), (0, 0, 16), (1, 255, 16), (1, 0, 24), (16, 0, 16)):
            lines.open(association, timescale, size, edition)
    lines.add("poll 1 1 6 basic 00*100\npoll 0 1 6 basic 00*100")


def opening(lines):
    lines.fresh("Editions: opening by edition and timescale, 6 before 7")
    for edition in (1, 7):
        for timescale in (15, 16, 255):
            lines.add(f"open 0 {edition} {timescale} 16\nopen 0 {edition} {timescale} 16\nclose 0")
    lines.group("Editions: a chunk size that is offered is named in edition 1 too")
    for size in (0, 8, 24, 1024, *CHUNK_SIZES):
        lines.add(f"open 0 1 3 {size}\nclose 0")
    lines.add("open 16 1 3 16\nopen 15 1 15 512\nclose 15")


def polling(lines):
    lines.fresh("The whole first poll, W204-18; it takes 48 octets, and those past them stay", (0, 3, 16))
    lines.add("""
poll 0 0x0102030405060708 6 interleaved 00*47
poll 0 0x0102030405060708 6 interleaved ff*48
poll 0 0x0102030405060708 6 basic ff*48
poll 0 0 6 basic -
poll 16 0 6 basic -
poll 1 0 6 basic -
poll 0 1 6 basic -
poll 0 1 -128 basic aa*49
poll 0 2 127 interleaved aa*52
poll 0 18446744073709551615 -1 basic 55*4096
close 0
open 0 1 15 512
poll 0 18446744073709551615 6 basic 00*47
poll 0 18446744073709551615 6 basic 00*48
""")


def flags(lines):
    """Flag 0x4 says interleaved in edition 1, and 0x2 says nothing there."""
    lines.fresh("10 by flag 0x4 alone in edition 1, by 0x2 alone in edition 7; what is not interleaved is measured as basic")
    for association, edition in enumerate((1, 7)):
        lines.open(association, 0, 16, edition)
        for cookie, sent in enumerate(FLAGS, 1):
            answer = {"edition": edition, "flags": sent, "server_cookie": 0x70 + cookie}
            exchange(lines, association, cookie, 10, 41, response(cookie, **answer))
            lines.receive(association, 41, response(cookie, **{**answer, "flags": 0}))

    lines.fresh("Interleaved by flag 0x4 in edition 1, by 0x2 in edition 7, with a saved server cookie; other flags are basic")
    for association, edition in enumerate((1, 7)):
        lines.open(association, 0, 16, edition)
        exchange(lines, association, 1, 10, 40, response(1, edition=edition, server_cookie=0x71))
        for cookie, sent in enumerate(FLAGS, 2):
            start = 100 * cookie
            exchange(lines, association, cookie, start + 10, start + 41,
                     response(cookie, edition=edition, flags=sent, server_cookie=0x70 + cookie, receive=start + 20,
                              transmit=start + 30), "interleaved")


def fields(lines):
    lines.fresh("Every field of a response is unknown: one with exactly c octets is absent too; an unsound chain is still refused",
                (4, 3, 16))
    right = chunk(b"\xaa" * 16)
    others = [extension(0x1234, b"\x01\x02\x03"), extension(PADDING, bytes(5)), extension(INFORMATION, bytes(4))]
    for cookie, extensions in enumerate([(), (right,), (right, right), (*others, right), (right, MAC), (right, LONG_MAC), (EMPTY_MAC,),
                                         (chunk(b"\xaa" * 12),), (chunk(b""),), (chunk(b"\xaa" * 512),),
                                         (right, extension(PADDING, b"\x01" * 1208)), (extension(PADDING, b""),) * 308], 1):
        exchange(lines, 4, cookie, 10, 40, lines.response(cookie, *extensions, timescale=3))
    lines.poll(4, 99, "00*48")
    for extensions in ((MAC, right), (right, MAC, MAC), (bytes.fromhex("f5010003"),), (right, bytes.fromhex("f5040015")),
                       (right, bytes.fromhex("f5010005ff000001")), (MAC, bytes.fromhex("f5010003")),
                       (extension(PADDING, b""),) * 309):
        lines.receive(4, 40, lines.response(99, *extensions, timescale=3))
    lines.receive(4, 40, lines.response(99, right, timescale=3))


def incomplete(lines):
    lines.fresh("However many responses come, the verdict is incomplete, and publishing is refused with 7; an edition-7 one beside it "
                "is complete", (4, 0, 16))
    lines.open(5, 0, 512, 7)
    exchange(lines, 5, 1, 10, 40, response(1, chunk(filter_of(OWN_ID))), size=512)
    for cookie in range(1, 34):
        exchange(lines, 4, cookie, 10, 40, lines.response(cookie, chunk(b"\xff" * 16)))
        if cookie in (1, 31, 32, 33):
            lines.verdict(4, OWN_ID)
    lines.verdict(5, OWN_ID)
    for selected, lent in ((0x10, "00*512"), (0x30, "00*512"), (0x30, "-"), (0x20, "aa*514"), (0, "00*512")):
        lines.publish(selected, OTHER_ID, lent)
    lines.add("verdict 4 00*14\nverdict 4 -\npublish 0x10 00*16 -")


def other_layout(lines):
    lines.fresh("A response in the other edition's layout is read as if it were in the association's")
    answers = [{}, {"timescale": 3}, {"timescale": 4}, {"timescale": 15, "stratum": 15}, {"stratum": 0}, {"flags": 0xFB},
               {"flags": 0x4}, {"timescale": 3, "stratum": 3, "era": 2}, {"timescale_offset": 2}]
    for association, (edition, timescale, other) in enumerate([(1, 0, 7), (1, 3, 7), (7, 0, 1), (7, 3, 1)]):
        lines.open(association, timescale, 16, edition)
        for cookie, values in enumerate(answers, 1):
            exchange(lines, association, cookie, 10, 41, response(cookie, chunk(b"\x11" * 16), edition=other, **values))


def reopening(lines):
    lines.fresh("An association opened again in the other edition has nothing of the first; an open one is not opened, 7")
    for edition, other in ((7, 1), (1, 7)):
        lines.open(6, 0, 256, edition)
        exchange(lines, 6, 1, 10, 40, response(1, chunk(b"\xff" * 256), edition=edition, server_cookie=0x99), "interleaved", size=256)
        lines.open(6, 0, 256, other)
        lines.poll(6, 2, "aa*340", "interleaved")
        lines.add("close 6")
        lines.open(6, 0, 256, other)
        lines.poll(6, 1, "aa*340", "interleaved")
        lines.add("sent 6 10")
        lines.receive(6, 40, response(1, chunk(b"\xff" * 256), edition=other, server_cookie=0x98))
        lines.poll(6, 2, "aa*340", "interleaved")
        lines.verdict(6, bytes(15))
        lines.add("clear")


def sixteen(lines):
    lines.fresh("All sixteen open in alternating editions; their responses come in another order")
    editions = [1 if association % 2 else 7 for association in range(16)]
    for association, edition in enumerate(editions):
        lines.open(association, association, 512, edition)
    for cookie in (1, 2):
        for association in range(16):
            lines.poll(association, cookie, "00*596", "interleaved")
            lines.add(f"sent {association} {10 + association}")
        for at in range(16):
            association = at * 5 % 16
            edition = editions[association]
            lines.receive(association, 50, response(
                cookie, chunk(filter_of(bytes([association]) * 15)), edition=edition, timescale=association, server_cookie=0x50 + at,
                flags=0 if cookie == 1 else INTERLEAVED[edition], receive=20 + association, transmit=30 + association))
    for association in range(16):
        lines.verdict(association, bytes([association]) * 15)
    for selected in (0x5555, 0xAAAA, 0xFFFF, 0x0001, 0x0002):
        lines.publish(selected, OWN_ID, "00*512")


class RandomCalls(Lines):
    """Random calls on three associations, with a table of the model that follows them."""

    def __init__(self, random):
        super().__init__()
        self.random, self.table, self.cookie = random, Table(), 0

    def one(self):
        random, association = self.random, self.random.randrange(3)
        place = self.table.places[association]
        if place is None or random.randrange(12) == 0:
            if place is not None:
                self.add(f"close {association}")
                self.table.close(association)
            edition, timescale = random.choice((1, 1, 7, 7, 4)), random.choice((0, 3, 3, 15, 16))
            self.open(association, timescale, 256, edition)
            self.table.open(association, edition, timescale, 256)
        elif place.outstanding is None or random.randrange(3) == 0:
            self.cookie += 1
            mode, room = random.choice(("basic", "interleaved", "interleaved")), random.choice((47, 48, 340, 340, 340))
            self.poll(association, self.cookie, f"00*{room}", mode)
            self.table.poll(association, self.cookie, 6, mode == "interleaved", bytes(room))
            self.add(f"sent {association} {1000 * self.cookie}")
            self.table.sent(association, 1000 * self.cookie)
        else:
            self.answered(association, place)

    def answered(self, association, place):
        """A response, mostly in the association's edition and timescale."""
        random, start = self.random, 1000 * place.outstanding.client_cookie
        edition = random.choice((place.edition,) * 5 + (8 - place.edition,))
        extensions = random.choice(((), (chunk(random.randbytes(2) * 128),), (chunk(b"\1" * 16),), (MAC, EMPTY_MAC), (MAC,)))
        datagram = response(place.outstanding.client_cookie, *extensions, edition=edition, flags=random.choice(FLAGS),
                            timescale=random.choice((place.timescale,) * 4 + (4,)) % 16, stratum=random.choice((0, 1, 2, 15)),
                            timescale_offset=random.choice(OFFSETS), server_cookie=random.choice((0, start + 1, start + 2)),
                            receive=start + random.randrange(99), transmit=start + random.randrange(99))
        self.receive(association, start + 100, datagram)
        self.table.receive(association, start + 100, datagram)


def random_calls(random):
    lines = RandomCalls(random)
    lines.fresh("Editions: random calls on three associations")
    for _ in range(120):
        lines.one()
    for association in range(3):
        lines.verdict(association, OWN_ID)
    lines.publish(7, OWN_ID, "00*512")
    return lines.made


def edition_lines():
    """The whole part."""
    lines, first, random = Lines(), Lines(1), Random(204)
    for part in (reading, writing):
        part(lines)
    round_trips(lines, random)
    for part in (wrong_editions, opening):
        part(lines)
    for part in (polling, sending, receiving, judging, interleaving, receiving_mac, fields, incomplete):
        part(first)
    mixed = Lines()
    for part in (flags, other_layout, reopening, sixteen):
        part(mixed)
    return lines.made + first.made + half_era_lines(1) + missed_lines(1) + mixed.made + random_calls(random)
