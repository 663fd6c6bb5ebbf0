"""Random records of a trace, from a seeded source."""
from case_lines import chunk, response
from client_model import CHUNK_SIZES
from mac_make import EMPTY_MAC, MAC, WRONG_LENGTH, WRONG_PADDING
from page_model import INTERLEAVED, PADDING, extension
from trace_records import Trace

ASSOCIATIONS = (0, 1, 7, 15)
ABOVE = (16, 17, 128, 255)                      # no associations
LENGTHS = (0, 1, 47, 48, 50, 1280, 1284)        # of datagrams


class RandomTrace(Trace):
    """Calls on four associations; most fit what the table holds."""

    def __init__(self, random, lengths=LENGTHS):
        super().__init__(random)
        self.cookie, self.lengths, self.last = 0, lengths, response(0)

    def one(self):
        """One call or two."""
        random, association = self.random, self.random.choice(ASSOCIATIONS)
        place = self.table.places[association]
        if random.randrange(12) == 0:
            self.stray(association)
        elif place is None or random.randrange(24) == 0:
            if place is not None:
                self.close(association)
            self.open(association, random.choice((1, 7, 7, 7, 2)), random.choice((0, 0, 3, 15, 16)), random.choice(CHUNK_SIZES))
        elif place.outstanding is None or random.randrange(4) == 0:
            self.cookie += 1
            self.poll(association, self.cookie, random.randrange(-128, 128), random.randrange(2))
            if random.randrange(6):
                self.sent(association, 1000 * self.cookie)
        else:
            self.answer(association, place)

    def stray(self, association):
        """A call that is mostly refused."""
        random, kind = self.random, self.random.randrange(7)
        association = random.choice((association, random.choice(ABOVE)))
        if kind == 0:
            self.open(association, random.choice((1, 7)), 0, random.choice((16, 24, 0x1000)))
        elif kind == 1:
            self.close(association)
        elif kind == 2:
            self.poll(association, random.choice((0, self.cookie)))
        elif kind == 3:
            self.sent(association, random.choice((0, 5)))
        elif kind == 4:
            self.receive(association, random.choice((0, 9)), self.last)
        else:
            length = random.choice(self.lengths)
            self.receive(association, 9, (b"\x2c" + random.randbytes(length))[:length])

    def answer(self, association, place):
        """A response to the outstanding request, mostly sound, and in the association's edition and timescale."""
        random, cookie, size = self.random, place.outstanding.client_cookie, place.chunk_size
        start, edition = 1000 * cookie, random.choice((place.edition,) * 9 + (8 - place.edition,))
        fields = random.choice([(chunk(random.randbytes(size)),)] * 6 + [
            (), (MAC,), (chunk(bytes(size - 4)),), (MAC, EMPTY_MAC), (WRONG_LENGTH,), (WRONG_PADDING,),
            (chunk(bytes([cookie % 256]) * size), extension(PADDING, bytes(700 - size)))])
        self.last = response(cookie, *fields, edition=edition, leap=random.choice((0, 0, 1, 2, 3)),
                             stratum=random.choice((1, 2, 15, 0)), timescale=random.choice((place.timescale,) * 5 + (4,)) % 16,
                             flags=random.choice((0, 1, INTERLEAVED[edition], INTERLEAVED[edition])),
                             server_cookie=random.choice((0, start + 1, start + 2)), receive=start + random.randrange(99),
                             transmit=random.choice((start, start - 1000)) + random.randrange(99))
        self.receive(association, start + 100, self.last)
