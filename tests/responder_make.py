"""The responder's part of the case file: lines of store, lend, report and answer, and whole exchanges with the client.

Each group begins with a comment and, where it needs one, a cleared store.
"""
from itertools import permutations

from case_lines import WHOLE, Edition, filter_of
from cases_model import text_of
from client_model import Table
from page_model import DRAFT, DRAFT_NAME, FILTER_REQUEST, INFORMATION, PADDING, extension, write_header
from responder_model import SERVER, Store

FILTER = filter_of(bytes(range(15)), bytes(range(100, 115)), bytes(range(200, 215)))
COUNTED = bytes(i % 251 for i in range(512))       # no two neighbours equal: an offset shows
INFORMATION_DATA = bytes.fromhex("05010203")
VALUES = {"leap": 1, "stratum": 2, "poll": 6, "precision": -20, "timescale": 3, "era": 4, "flags": 0x0001,
          "root_delay": 0x11111111, "root_dispersion": 0x22222222}
REQUEST = {**WHOLE, "mode": 3, "stratum": 0, "precision": 0, "receive": 0, "transmit": 0, "client_cookie": 0x0102030405060708}


def asked(start, size):
    """A filter request; its data after the offset are not looked at."""
    return extension(FILTER_REQUEST, start.to_bytes(2, "big") + b"\xee" * (size - 2))


class Lines(Edition):
    """Calls on the store and answers, with a store of the model that follows them."""

    def __init__(self, edition=7, timescale_offset=0):
        super().__init__(edition)
        self.store, self.values = Store(), {**VALUES, "timescale_offset": timescale_offset}

    def request(self, *extensions, edition=None, **values):
        """A request with these fields."""
        refusal, header = write_header(edition or self.edition, {**REQUEST, **values}, bytes(48))
        assert not refusal
        return header + b"".join(extensions)

    def wanted(self, server_cookie=0, **values):
        """A request that wants an interleaved answer."""
        return self.request(flags=self.flag, server_cookie=server_cookie, **values)

    def group(self, comment, records=None):
        super().group(comment)
        if records is not None:
            self.clear(records)

    def clear(self, records):
        self.store.clear(records)
        self.made.append(f"store {records}")

    def lend(self, octets):
        self.store.lend(octets)
        self.made.append(f"lend {text_of(octets)}")

    def report(self, cookie, time):
        self.store.report(cookie, time)
        self.made.append(f"report {cookie:#x} {time}")

    def answer(self, datagram, receive=1000, estimate=1001, fresh=0, lent=None, filter_octets=FILTER,
               information=INFORMATION_DATA, edition=None, **values):
        """The answer's octets, as the model gives them."""
        edition = self.edition if edition is None else edition
        lent = b"\xaa" * len(datagram) if lent is None else lent
        server = [{**self.values, **values}[name] for name in SERVER]
        answered = self.store.answer(edition, datagram, receive, estimate, fresh, *server, filter_octets, information, lent)
        words = [edition, text_of(datagram), receive, estimate, f"{fresh:#x}", *server, text_of(filter_octets),
                 text_of(information), text_of(lent)]
        self.made.append("answer " + " ".join(map(str, words)))
        return answered[2][:answered[1]]


def record(cookie, time):
    return cookie.to_bytes(8, "big") + time.to_bytes(8, "big")


def storing(lines):
    lines.group("The store: its size; what it may not hold, refused with 6 by report and answer, and mended by clearing")
    lines.report(1, 5)
    for records in (0, 1, 64, 65, 255):
        lines.clear(records)
    wrong = [b"", bytes(15), bytes(24), bytes(1040), bytes(16) + record(1, 0), record(1, 2) + bytes(16) + record(3, 0),
             record(0, 1), record(1, 0) + record(0, 1), record(1, 2) + record(2, 3) + record(1, 4)]
    for octets in wrong:
        lines.lend(octets)
        lines.report(1, 5)
        lines.answer(lines.request())
    lines.lend(record(1, 2) + record(2, 0) + bytes(16))
    lines.report(2, 3)
    lines.clear(2)

    lines.group("Report: 6 for time 0; 12 for a cookie that is not stored, for 0, and for a second report", 3)
    lines.report(1, 0)
    lines.report(1, 1)
    for fresh in (11, 2 ** 64 - 1):
        lines.answer(lines.wanted(), fresh=fresh)
    lines.report(0, 1)
    lines.report(11, 1100)
    lines.report(11, 1100)
    lines.report(2 ** 64 - 1, 2 ** 64 - 1)


def refusing(lines):
    lines.group("Answer: refusals in their order, 6, 1, 2, 3, 4 and 5, 13, 8, 11; none changes the store", 2)
    lines.answer(lines.wanted(), fresh=7)
    bad = lines.wanted()[:-2]
    for given in ({"leap": 4}, {"receive": 0}, {"estimate": 0}, {"filter_octets": FILTER[1:]}, {"filter_octets": b""},
                  {"information": INFORMATION_DATA[1:]}, {"information": INFORMATION_DATA + b"\0"}):
        lines.answer(bad, **given)
    damaged = [bad, lines.request() + bytes(1236), b"\x23" + lines.wanted()[1:], b"\x2c" + lines.wanted()[1:],
               lines.wanted() + bytes.fromhex("f5010003"), lines.wanted() + bytes.fromhex("f5010008"),
               lines.wanted() + bytes.fromhex("f5010005ff000001f5010003"), lines.wanted() + bytes.fromhex("f5010003f5010005ff000001"),
               lines.wanted() + bytes.fromhex("f5020004f5010003"), lines.wanted() + bytes.fromhex("f5020004f5010004")]
    for datagram in damaged:
        lines.answer(datagram, lent=b"")
    for fresh in (0, 7):
        lines.answer(lines.wanted(), fresh=fresh, lent=b"")
    lines.answer(lines.wanted(), fresh=8, lent=b"\xaa" * 47)
    lines.report(9, 0)


def saving(lines):
    lines.group("Basic: server cookie 0, the store untouched, the fresh cookie not looked at; "
                f"{lines.flag:#x} taken out of the flags", 1)
    lines.answer(lines.wanted(), fresh=5)
    for fresh in (0, 5, 6):
        lines.answer(lines.request(server_cookie=5), fresh=fresh, flags=lines.all_flags, lent=b"\xaa" * 50)
    lines.report(9, 0)

    lines.group("Interleaved: a saved time is sent once; an unreported cookie stays; 8 for a cookie about to leave", 4)
    lines.answer(lines.wanted(), fresh=0x11)
    lines.answer(lines.wanted(0x11), fresh=0x22)
    lines.report(0x11, 2001)
    lines.answer(lines.wanted(0x11), fresh=0x11)
    lines.answer(lines.wanted(0x11), fresh=0x33, flags=0)
    lines.answer(lines.wanted(0x11), fresh=0x44)
    lines.report(0x11, 2002)
    lines.report(0x22, 2003)
    lines.answer(lines.request(server_cookie=0x22), fresh=0x55)
    lines.answer(lines.wanted(0x22), fresh=0x11, flags=lines.all_flags)
    lines.answer(lines.wanted(0), fresh=0x55)
    lines.report(0x11, 2004)
    lines.answer(lines.wanted(0x11), fresh=0x22)
    lines.report(9, 0)

    for records in (1, 2, 3, 64):
        lines.group(f"A row of {records}: the oldest leaves a full one, and none where a saved time was sent", records)
        for fresh in range(1, records + 3):
            lines.answer(lines.wanted(), fresh=fresh)
        lines.report(records + 2, 77)
        lines.answer(lines.wanted(records + 2), fresh=0x100)
        lines.answer(lines.wanted(1), fresh=0x101)
        lines.report(9, 0)


def answering(lines):
    three = [asked(16, 32), extension(INFORMATION, bytes(4)), extension(DRAFT, DRAFT_NAME)]
    lines.group("Fields: every order of the three, and with others between them", 1)
    for order in permutations(three):
        lines.answer(lines.request(*order), filter_octets=COUNTED)
    others = [extension(PADDING, b"\x01\x02\x03"), extension(0x1234, b"\xff"), extension(0xF504, bytes(8)),
              extension(0xF502, bytes(20))]
    lines.answer(lines.request(*(field for pair in zip(others, three) for field in pair), others[3]), filter_octets=COUNTED)

    lines.group("Only the first of a type counts, also where it isn't good", 1)
    lines.answer(lines.request(asked(0, 8), asked(8, 8), *three), filter_octets=COUNTED)
    lines.answer(lines.request(asked(508, 8), asked(8, 8)), filter_octets=COUNTED)
    lines.answer(lines.request(extension(INFORMATION, bytes(5)), three[1], three[1]))
    lines.answer(lines.request(extension(DRAFT, b""), three[2]))

    lines.group("Filter requests: good and not", 1)
    for start, size in ((0, 4), (508, 4), (509, 4), (0, 512), (4, 512), (0, 516), (65535, 4), (100, 7), (100, 412), (1, 16)):
        lines.answer(lines.request(asked(start, size)), filter_octets=COUNTED)
    for data in (b"", b"\0", b"\0\0", b"\0\0\0"):
        lines.answer(lines.request(extension(FILTER_REQUEST, data)))

    lines.group("Names of 0, 1, 26, 27, 28 and 60 octets", 1)
    for k in (0, 1, 26, 27, 28, 60):
        lines.answer(lines.request(extension(DRAFT, b"x" * k)))

    lines.group("Requests of 48 and of 1,280 octets; an output with more room", 1)
    lines.answer(lines.request(), lent=b"\xaa" * 60)
    lines.answer(lines.request(*three, extension(PADDING, b"\x01" * 1148)), lent=b"\xaa" * 1284)
    lines.answer(lines.request(*([bytes.fromhex("f5010004")] * 300), three[1]))


def exchanges(lines, turns, lost=()):
    """Our client polls our responder, on a cleared table; the answers of the turns in `lost` do not come."""
    table = Table()
    lines.made += ["clear", f"open 5 {lines.edition} 3 128"]
    table.open(5, lines.edition, 3, 128)
    for turn in turns:
        lines.made.append(f"poll 5 {turn} 6 interleaved 00*212")
        _, length, output = table.poll(5, turn, 6, True, bytes(212))
        lines.made.append(f"sent 5 {1000 * turn}")
        table.sent(5, 1000 * turn)
        octets = lines.answer(output[:length], 1000 * turn + 50, 1000 * turn + 60, 0xA0 + turn)
        lines.report(0xA0 + turn, 1000 * turn + 61)
        if turn not in lost:
            lines.made.append(f"receive 5 {1000 * turn + 110} {text_of(octets)}")
            table.receive(5, 1000 * turn + 110, octets)


def together(lines):
    """Our client and our responder: basic, then interleaved, and the chunks of a filter."""
    lines.group("Our client polls our responder, and receives its answers: basic, then interleaved from the saved time", 3)
    exchanges(lines, range(1, 6))
    lines.made.append(f"verdict 5 {text_of(bytes(range(15)))}")
    lines.made.append(f"verdict 5 {text_of(bytes([0xFF]) * 15)}")


def random_part(lines, random):
    lines.group("Random ones", 4)

    def field():
        kind = random.choice([PADDING, FILTER_REQUEST, FILTER_REQUEST, INFORMATION, DRAFT, 0xF504, random.randrange(2 ** 16)])
        if kind == FILTER_REQUEST:
            return asked(random.randrange(600), random.choice([4, 8, 16, 100, 512]))
        return extension(kind, random.randbytes(random.choice([0, 1, 4, 4, 27, random.randrange(80)])))

    for turn in range(60):
        cookies = [cookie for cookie, _ in lines.store.row()] + [0, turn + 500]
        if random.randrange(3) == 0:
            lines.report(random.choice(cookies), random.choice([0, turn + 9000, turn + 9000, turn + 9000]))
        datagram = lines.request(*(field() for _ in range(random.randrange(5))),
                                 flags=random.choice([0, 1, lines.flag, lines.flag, lines.all_flags]),
                                 server_cookie=random.choice(cookies), client_cookie=random.randrange(2 ** 64))
        if random.randrange(8) == 0:
            at = random.randrange(len(datagram))
            datagram = datagram[:at] + random.randbytes(1) + datagram[at + 1:]
        room = len(datagram) + random.choice([-1, 0, 0, 0, 4])
        lines.answer(datagram, random.choice([0, *[turn + 1000] * 9]), turn + 1001, random.choice([*cookies, turn + 600]),
                     b"\xaa" * room, COUNTED, flags=random.randrange(lines.all_flags + 1), leap=random.choice([0, 1, 2, 3, 3, 4]))
    lines.report(9, 0)


def responder_lines(random):
    lines = Lines()
    for part in (storing, refusing, saving, answering, together):
        part(lines)
    random_part(lines, random)
    return lines.made
