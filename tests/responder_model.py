"""The responder and its store of saved timestamps, R-1 to R-20 and W204-13 to W204-15.

A call answers its refusal number, 0 for success, and after it what else the rules have it answer; a refused call
answers zeros, leaves its output buffer as lent and changes nothing (N-27, N-28).
"""
from page_model import (DRAFT, DRAFT_NAME, FILTER_REQUEST, FILTER_RESPONSE, INFORMATION, INTERLEAVED, PADDING, extension,
                        fields, fits, number, read_header, sound, write_header)

SERVER = ("leap", "stratum", "poll", "precision", "timescale", "era", "flags", "root_delay", "root_dispersion",
          "timescale_offset")


def good_request(data):
    """F-14: a filter request is good."""
    return len(data) in range(4, 513, 4) and number(data[:2]) + len(data) <= 512


def answer_fields(edition, request, filter_octets, information):
    """R-16 to R-19: what answers each field; F-18: a second field of a type already met is skipped."""
    met = set()
    if edition == 1:        # it knows no field (W204-14)
        return
    for kind, data in fields(request):
        if kind in met:
            continue
        met.add(kind)
        if kind == FILTER_REQUEST and good_request(data):
            start = number(data[:2])
            yield extension(FILTER_RESPONSE, filter_octets[start:start + len(data)])
        elif kind == INFORMATION and len(data) == 4:
            yield extension(INFORMATION, information)
        elif kind == DRAFT:
            yield extension(DRAFT, DRAFT_NAME[:len(data)])


class Store:
    """A row of records, each a cookie and its time, in a buffer that the caller lends."""

    def __init__(self):
        self.octets = b""      # none is lent yet

    def clear(self, records):
        """A buffer of so many records, cleared; where that is refused, the store stays the one before."""
        if not 1 <= records <= 64:
            return 6
        self.octets = bytes(16 * records)
        return 0

    def lend(self, octets):
        """Any octets as the store, as they are."""
        self.octets = octets

    def records(self):
        numbers = [number(self.octets[at:at + 8]) for at in range(0, len(self.octets), 8)]
        return list(zip(numbers[::2], numbers[1::2]))

    def row(self):
        return [record for record in self.records() if record != (0, 0)]

    def wrong(self):
        """The store part of 6: N-10 and N-14."""
        if len(self.octets) not in range(16, 1025, 16):
            return True
        row = self.row()
        cookies = [cookie for cookie, _ in row]
        return self.records()[:len(row)] != row or 0 in cookies or len(set(cookies)) < len(cookies)

    def keep(self, row):
        octets = b"".join(cookie.to_bytes(8, "big") + time.to_bytes(8, "big") for cookie, time in row)
        self.octets = octets.ljust(len(self.octets), b"\0")

    def report(self, cookie, time):
        if self.wrong() or time == 0:
            return 6
        row = self.row()
        if (cookie, 0) not in row:
            return 12
        self.keep([(c, time if c == cookie else t) for c, t in row])
        return 0

    def answer(self, edition, request, receive, estimate, fresh, *rest):
        """`rest` is the server's ten values, its filter, its server information, and the output buffer."""
        server, (filter_octets, information, output) = dict(zip(SERVER, rest)), rest[len(SERVER):]
        if (self.wrong() or len(filter_octets) != 512 or len(information) != 4 or not fits(edition, server)
                or receive == 0 or estimate == 0):
            return 6, 0, output
        if refusal := sound(request, 3):
            return refusal, 0, output
        asked, row, flag = read_header(edition, request), self.row(), INTERLEAVED[edition]
        wanted = bool(asked["flags"] & flag)
        if wanted and (fresh == 0 or fresh in dict(row)):
            return 8, 0, output
        if len(output) < len(request):
            return 11, 0, output
        saved = dict(row).get(asked["server_cookie"], 0) if wanted else 0
        if wanted:
            row = [(c, t) for c, t in row if not (saved and c == asked["server_cookie"])]
            if 16 * len(row) == len(self.octets):
                row = row[1:]
            self.keep(row + [(fresh, 0)])
        flags = server["flags"] & ~flag | (flag if saved else 0)
        _, octets = write_header(edition, {**server, "mode": 4, "flags": flags, "server_cookie": fresh if wanted else 0,
                                           "client_cookie": asked["client_cookie"], "receive": receive,
                                           "transmit": saved or estimate}, bytes(48))
        octets += b"".join(answer_fields(edition, request, filter_octets, information))
        left = len(request) - len(octets)
        if left:
            octets += extension(PADDING, bytes(left - 4))
        return 0, len(octets), octets + output[len(octets):]
