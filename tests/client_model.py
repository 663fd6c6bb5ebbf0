"""The client table, C-1 to C-33, W204-7 to W204-10 and W211-1 to W211-5: its plain table, with the calls that change or read it.

Sixteen places, each closed (None) or open. A call answers its refusal number, 0 for success, and after it what
else the rules have it answer; a refused call answers zeros, leaves its output buffer as lent and changes nothing (N-27, N-28).
"""
from dataclasses import dataclass, field

from page_model import (DRAFT, DRAFT_NAME, FILTER_REQUEST, FILTER_RESPONSE, INTERLEAVED, add, extension, fields, fits,
                        measure, positions, read_header, sound, union, write_header)

CHUNK_SIZES = (16, 32, 64, 128, 256, 512)
MISSED_AT_MOST = 8      # missed polls are counted no higher
MISSED_TOO_MANY = 4     # with so many or more a poll sends server cookie 0

TAKEN, ABSENT, ANOTHER_SIZE = 1, 2, 3       # what became of a chunk
INCOMPLETE, LOOP, CLEAR = 1, 2, 3           # loop verdicts


@dataclass
class Request:
    client_cookie: int
    server_cookie: int
    offset: int
    t1: int = 0             # 0 until reported


@dataclass
class Exchange:
    """What an accepted response saves."""
    timescale: int
    t1: int
    t2: int
    t3: int
    t4: int
    server_cookie: int


@dataclass
class Place:
    """An open association."""
    edition: int
    timescale: int
    chunk_size: int
    next_offset: int = 0
    filter: bytearray = field(default_factory=lambda: bytearray(512))
    taken: list = field(default_factory=lambda: [False] * 512)
    last_cookie: int | None = None
    outstanding: Request | None = None
    saved: Exchange | None = None
    missed: int = 0         # how many of the latest polls were replaced unanswered

    def complete(self):
        return all(self.taken)

    def count_missed(self):
        """What a poll does first: it counts the request that it replaces."""
        if self.outstanding is not None:
            self.missed = min(MISSED_AT_MOST, self.missed + 1)

    def sent_cookie(self, interleaved):
        """The server cookie that a poll then sends."""
        if not interleaved or self.saved is None or self.missed >= MISSED_TOO_MANY:
            return 0
        return self.saved.server_cookie

    def request_fields(self):
        """The fields of a request: draft name and filter request, and none in edition 1 (W204-8)."""
        if self.edition == 1:
            return b""
        asked = self.next_offset.to_bytes(2, "big") + bytes(self.chunk_size - 2)
        return extension(DRAFT, DRAFT_NAME) + extension(FILTER_REQUEST, asked)

    def take(self, start, datagram):
        """What becomes of the first filter response's octets; edition 1 knows no such field (W204-9)."""
        if self.edition == 1:
            return ABSENT
        data = next((data for kind, data in fields(datagram) if kind == FILTER_RESPONSE), None)
        if data is None:
            return ABSENT
        if len(data) != self.chunk_size:
            return ANOTHER_SIZE
        for at, octet in enumerate(data, start):
            self.filter[at] = octet
            self.taken[at] = True
        self.next_offset = (self.next_offset + self.chunk_size) % 512
        return TAKEN


def judge(response, timescales, wanted, times):
    """The judgement of an accepted response: `timescales` have to be `wanted`, none of `times` 0, and
    each of the four differences to have a sign."""
    if response["leap"] == 3:
        return 1
    if not 1 <= response["stratum"] <= 15:
        return 2
    if any(timescale != wanted for timescale in timescales):
        return 3
    if 0 in times:
        return 4
    return measure(*times)[0]


class Table:
    def __init__(self):
        self.places = [None] * 16

    def refusal(self, association, in_range=True):
        """6 for an association above 15 or another argument out of range, then 7 for one that is not open."""
        if association > 15 or not in_range:
            return 6
        return 7 if self.places[association] is None else 0

    def clear(self):
        self.places = [None] * 16
        return 0

    def open(self, association, edition, timescale, chunk_size):
        if association > 15 or chunk_size not in CHUNK_SIZES or not fits(edition, {"timescale": timescale}):
            return 6
        if self.places[association] is not None:
            return 7
        self.places[association] = Place(edition, timescale, chunk_size)
        return 0

    def close(self, association):
        refusal = self.refusal(association)
        if not refusal:
            self.places[association] = None
        return refusal

    def poll(self, association, cookie, exponent, interleaved, output):
        """The refusal, the octets written, and the output buffer afterwards."""
        refusal = self.refusal(association)
        if refusal:
            return refusal, 0, output
        place = self.places[association]
        if cookie in (0, place.last_cookie):
            return 8, 0, output
        extensions = place.request_fields()
        length = 48 + len(extensions)
        if len(output) < length:
            return 11, 0, output
        place.count_missed()
        server_cookie = place.sent_cookie(interleaved)
        values = {"leap": 0, "mode": 3, "stratum": 0, "poll": exponent, "precision": 0, "timescale": place.timescale,
                  "era": 0, "flags": INTERLEAVED[place.edition] if interleaved else 0, "timescale_offset": 0,
                  "root_delay": 0, "root_dispersion": 0, "server_cookie": server_cookie, "client_cookie": cookie,
                  "receive": 0, "transmit": 0}
        _, header = write_header(place.edition, values, bytes(48))
        place.last_cookie = cookie
        place.outstanding = Request(cookie, server_cookie, place.next_offset)
        return 0, length, header + extensions + output[length:]

    def sent(self, association, t1):
        refusal = self.refusal(association, t1 != 0)
        if refusal:
            return refusal
        request = self.places[association].outstanding
        if request is None or request.t1 != 0:
            return 7
        request.t1 = t1
        return 0

    def receive(self, association, t4, datagram):
        """The refusal, the judgement, what became of the chunk, offset and delay."""
        refusal = self.refusal(association, t4 != 0) or sound(datagram, 4)
        if refusal:
            return refusal, 0, 0, 0, 0
        place = self.places[association]
        response = read_header(place.edition, datagram)
        request, previous = place.outstanding, place.saved
        if request is None or request.client_cookie != response["client_cookie"]:
            return 9, 0, 0, 0, 0
        interleaved = response["flags"] & INTERLEAVED[place.edition]
        if interleaved and request.server_cookie == 0:
            return 10, 0, 0, 0, 0

        this = Exchange(response["timescale"], request.t1, response["receive"], response["transmit"], t4,
                        response["server_cookie"])
        if interleaved:
            timescales = this.timescale, previous.timescale
            times = previous.t1, previous.t2, this.t3, previous.t4
        else:
            timescales = this.timescale,
            times = this.t1, this.t2, this.t3, this.t4
        judgement = judge(response, timescales, place.timescale, times)
        place.outstanding, place.saved, place.missed = None, this, 0
        chunk = place.take(request.offset, datagram)
        if judgement:
            return 0, judgement, chunk, 0, 0
        _, offset, delay = measure(*times)
        return 0, 0, chunk, offset, delay

    def verdict(self, association, identifier):
        refusal = self.refusal(association, len(identifier) == 15)
        if refusal:
            return refusal, 0
        place = self.places[association]
        if not place.complete():
            return 0, INCOMPLETE
        found = all(place.filter[p // 8] & 2 ** (p % 8) for p in positions(identifier))
        return 0, LOOP if found else CLEAR

    def publish(self, selected, identifier, output):
        """The refusal, and the output buffer afterwards."""
        if len(identifier) != 15:
            return 6, output
        chosen = [place for a, place in enumerate(self.places) if selected & 2 ** a]
        if not all(place and place.complete() for place in chosen):
            return 7, output
        if len(output) < 512:
            return 11, output
        published = bytes(512)
        for place in chosen:
            _, published = union(published, place.filter)
        _, published = add(published, identifier)
        return 0, published + output[512:]
