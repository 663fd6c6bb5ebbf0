"""Traces with a wrong record, and sound ones that are like them: each with a text that says what it is about."""
import itertools

from case_lines import chunk, response
from trace_records import KINDS, close_record, open_record, poll_record, receive_record, record, sent_record

# A record of each kind; their calls are accepted.
SHORT = [open_record(0, 7, 0, 16, 0x1122334455667788), poll_record(0, 1, 6, 0, 5), sent_record(0, 10),
         receive_record(0, 40, response(1, chunk(b"\x5a" * 16))), close_record(0, 2 ** 64 - 1)]
WRONG_MARKS = [b"\x4e\x34", b"\x4f\x35", b"\x35\x4e", b"\x4e\x4e", b"\x35\x35", b"\0\0", b"\xff\xff"]
TRIED_KINDS = (0, *KINDS.values(), 6, 0x4E, 255)
LENGTHS = (0, 1, 3, 4, 5, 9, 10, 11, 48, 0x0400, 0x0A00, 65535)     # of data; some with their octets exchanged
POLL_DATA = bytes.fromhex("0000000000000007" "06" "00")


def placed(number, wrong, after=True):
    """A record behind none, some or all of the short trace, and with others after it."""
    before = SHORT[:(0, 1, 3, 4, 5)[number % 5]]
    return b"".join(before) + wrong + (b"".join(SHORT) if after else b"")


def cuts():
    whole = b"".join(SHORT)
    for length in range(len(whole) + 1):
        yield f"the first {length} octets of a short trace", whole[:length]


def kinds_and_lengths():
    """Every kind with every data length, its data whole, cut by an octet, and gone."""
    tried = itertools.product(TRIED_KINDS, LENGTHS)
    for number, (kind, length) in enumerate(tried):
        data = (POLL_DATA + bytes(length))[:length]
        yield f"kind {kind}, data length {length}", placed(number, record(kind, 0, 9, data))
        if length:
            yield f"kind {kind}, data length {length}, cut", placed(number, record(kind, 0, 9, data[:-1], length=length), False)
            yield f"kind {kind}, data length {length}, no data", placed(number, record(kind, 0, 9, length=length), False)


def marks():
    """A wrong mark is told before a wrong kind, data length and mode, and before data that are cut."""
    for number, (mark, kind, data, length) in enumerate(itertools.product(
            WRONG_MARKS, (2, 3, 6), (b"", POLL_DATA, POLL_DATA[:-1] + b"\2"), (0, 10))):
        yield f"mark {mark.hex()}, kind {kind}, data length {length}", placed(number, record(kind, 0, 9, data, mark, length))


def modes():
    """A poll's mode is looked at last."""
    for number, mode in enumerate((0, 1, 2, 3, 127, 128, 255)):
        whole = poll_record(0, 7, 6, mode)
        for after in (True, False):
            yield f"a poll of mode {mode}", placed(number, whole, after)
        data = whole[14:]
        yield f"a poll of mode {mode}, an octet too long", placed(number, record(KINDS["poll"], 0, 0, data + b"\0"))
        yield f"a poll of mode {mode}, an octet too short", placed(number, record(KINDS["poll"], 0, 0, data[1:]))


def heads():
    """A cut is told before a wrong mark, kind or data length if fewer than 14 octets are left."""
    for number, (mark, kind, length) in enumerate(itertools.product((b"\x4e\x35", b"\0\0"), (1, 6), (4, 5))):
        for left in (1, 2, 3, 6, 13):
            head = record(kind, 0, 9, b"", mark, length)[:left]
            yield f"{left} octets of a head, mark {mark.hex()}, kind {kind}, data length {length}", placed(number, head, False)


def wrong_traces():
    return itertools.chain(cuts(), kinds_and_lengths(), marks(), modes(), heads())
