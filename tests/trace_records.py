"""What the makers of traces share: the records of a trace, by the calls that they stand for (W-208)."""
from client_model import Table
from trace_model import MARK, NAMES, ROOM

KINDS = {name: kind for kind, name in NAMES.items()}


def record(kind, association, time=0, data=b"", mark=MARK, length=None):
    """A record; `length` is the data length that it names, if that is not the length of its data."""
    length = len(data) if length is None else length
    return mark + bytes([kind, association]) + length.to_bytes(2, "big") + time.to_bytes(8, "big") + data


def open_record(association, edition, timescale, chunk_size, time=0):
    return record(KINDS["open"], association, time, bytes([edition, timescale]) + chunk_size.to_bytes(2, "big"))


def poll_record(association, cookie, exponent, mode, time=0):
    """`mode` is 0, basic, or 1, interleaved; any other is wrong."""
    return record(KINDS["poll"], association, time, cookie.to_bytes(8, "big") + exponent.to_bytes(1, "big", signed=True) + bytes([mode]))


def sent_record(association, t1):
    return record(KINDS["sent"], association, t1)


def receive_record(association, t4, datagram):
    return record(KINDS["receive"], association, t4, datagram)


def close_record(association, time=0):
    return record(KINDS["close"], association, time)


class Trace:
    """The records so far, and a table of the model that follows their calls. Each method adds the record of one call.

    With a source of random numbers the times that a replay ignores are random, else 0.
    """

    def __init__(self, random=None):
        self.records, self.table, self.random = [], Table(), random

    def octets(self):
        return b"".join(self.records)

    def ignored(self):
        return self.random.randrange(2 ** 64) if self.random else 0

    def open(self, association, edition, timescale, chunk_size):
        self.records.append(open_record(association, edition, timescale, chunk_size, self.ignored()))
        self.table.open(association, edition, timescale, chunk_size)

    def poll(self, association, cookie, exponent=6, mode=0):
        """The request that is sent, of no octets if the poll is refused."""
        self.records.append(poll_record(association, cookie, exponent, mode, self.ignored()))
        _, length, output = self.table.poll(association, cookie, exponent, mode == 1, bytes(ROOM))
        return output[:length]

    def sent(self, association, t1):
        self.records.append(sent_record(association, t1))
        self.table.sent(association, t1)

    def receive(self, association, t4, datagram):
        self.records.append(receive_record(association, t4, datagram))
        self.table.receive(association, t4, datagram)

    def close(self, association):
        self.records.append(close_record(association, self.ignored()))
        self.table.close(association)
