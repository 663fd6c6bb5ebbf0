#!/usr/bin/env python3
"""Write the trace that the program `replay` is tested on.

usage: trace_make.py > crates/replay/stdin
       trace_model.py < crates/replay/stdin > crates/replay/stdout

First the records that a person chose, by subject, then random ones from a fixed seed, then a wrong record, with one after it that
is not run. Running it again gives the same trace. It fails if an answer that a client call can give in a trace is not among those
that the model expects.
"""
import io
import itertools
import re
import sys
from random import Random

sys.dont_write_bytecode = True      # no generated folder beside the sources
from case_lines import OTHER_ID, chunk, filter_of, response     # noqa: E402
from client_model import CHUNK_SIZES        # noqa: E402
from half_era_make import HALF_ERA          # noqa: E402
from mac_make import EMPTY_MAC, LONG_MAC, MAC, WRONG_LENGTH, WRONG_PADDING      # noqa: E402
from page_model import INTERLEAVED, PADDING, extension      # noqa: E402
from random_trace import ABOVE, RandomTrace         # noqa: E402
from trace_model import replay              # noqa: E402
from trace_records import close_record, poll_record         # noqa: E402

# What every call can answer in a trace, as it is printed; 11 is not among them, since 1,280 octets are room for any poll.
ANSWERS = ([f"open {refusal}" for refusal in (0, 6, 7)] + [f"close {refusal}" for refusal in (0, 6, 7)] +
           [f"poll {refusal}" for refusal in (0, 6, 7, 8)] + [f"sent {refusal}" for refusal in (0, 6, 7)] +
           [f"receive {refusal}" for refusal in (6, 7, 1, 2, 3, 4, 5, 13, 9, 10)] +
           [f"receive 0 judgement={judgement} chunk={outcome}" for judgement in range(6) for outcome in (1, 2, 3)])
RANDOM_CALLS = 200


def opening(trace):
    """6 before 7; the chunk size is a 16-bit number, and no time is looked at."""
    trace.close(0)
    for association, edition, timescale, size in itertools.chain(
            ((above, 7, 0, 16) for above in ABOVE), ((0, edition, 0, 16) for edition in (0, 2, 6, 8, 255)),
            ((0, 7, 0, size) for size in (0, 1, 24, 0x1000, 0x2000, 1024, 0x1010, 65535)), [(0, 1, 16, 16), (0, 1, 255, 16)],
            [(0, 7, 255, 512), (0, 7, 0, 16), (0, 7, 0, 24), (15, 1, 15, 32), (15, 7, 15, 32)]):
        trace.open(association, edition, timescale, size)
    for association in (*ABOVE, 14, 0, 0, 15):
        trace.close(association)


def polling(trace):
    """Both editions, modes and ends of the exponent; 6, 7 and 8."""
    for association, edition, size in [(0, 7, 16), (1, 1, 256), *((2 + place, 7, size) for place, size in enumerate(CHUNK_SIZES))]:
        trace.open(association, edition, 3, size)
        for cookie, exponent, mode in ((0x0102030405060708, 6, 0), (0x0102030405060708, 6, 1), (0, 6, 0), (2 ** 64 - 1, -128, 1),
                                       (1, 127, 0), (2 ** 64 - 1, -1, 1)):
            trace.poll(association, cookie, exponent, mode)
    for association in (*ABOVE, 15):
        trace.poll(association, 0, 6, 0)
        trace.poll(association, 1, 6, 1)


def sending(trace):
    """6 for T1 0 and above 15; 7 for a closed one, for nothing outstanding, for a second report."""
    trace.close(0)
    trace.open(0, 7, 0, 16)
    for association, t1 in ((0, 0), (15, 1), (0, 1), *((above, 1) for above in ABOVE)):
        trace.sent(association, t1)
    trace.poll(0, 1)
    for t1 in (0, 2 ** 64 - 1, 2 ** 64 - 1, 5):
        trace.sent(0, t1)
    trace.receive(0, 40, response(1))
    trace.sent(0, 5)


def receiving(trace, edition):
    """Every refusal of a receive, and lengths from 0 to above 1,280; none uses the request up."""
    trace.close(0)
    trace.open(0, edition, 0, 16)
    good, flag = response(1, chunk(bytes(range(16))), edition=edition), INTERLEAVED[edition]
    for association, t4 in ((16, 40), (255, 40), (0, 0), (15, 40), (0, 40)):
        trace.receive(association, t4, good)
        trace.receive(association, t4, b"")
    trace.poll(0, 1)
    trace.sent(0, 10)
    for length in (0, 1, 47, 48, 49, 52, 1280, 1284, 2000):
        trace.receive(0, 40, (b"\x2c" + bytes(47) + extension(PADDING, bytes(2000)))[:length])
    for datagram in (b"\x24" + good[1:], b"\x2b" + good[1:], good[:-4], good + WRONG_PADDING + WRONG_LENGTH, good + WRONG_LENGTH,
                     good + MAC + EMPTY_MAC, good + LONG_MAC + WRONG_PADDING, response(2, edition=edition),
                     response(1, edition=edition, flags=flag), good + MAC, good):
        trace.receive(0, 40, datagram)


def judging(trace, edition):
    """Each judgement with each outcome of a chunk. Where no T1 is reported, the poll's time is not taken for it."""
    trace.close(2)
    trace.open(2, edition, 5, 16)
    answers = [(10, {}), (10, {"leap": 3}), (10, {"stratum": 0}), (10, {"timescale": 4}), (0, {}), (10, {"receive": HALF_ERA + 10}),
               (10, {"receive": 0})]
    chunks = ((chunk(b"\x5a" * 16),), (), (chunk(b"\x5a" * 20),), (chunk(b""), chunk(b"\x5a" * 16)))
    for cookie, ((t1, values), fields) in enumerate(itertools.product(answers, chunks), 1):
        trace.poll(2, cookie)
        if t1:
            trace.sent(2, t1)
        trace.receive(2, 41, response(cookie, *fields, edition=edition, **{"timescale": 5, **values}))


def interleaving(trace, edition):
    """T1, T2 and T4 of the exchange before; missed polls; a late duplicate."""
    trace.close(1)
    trace.open(1, edition, 0, 32)
    for cookie in range(1, 5):
        start = 1000 * cookie
        trace.poll(1, cookie, mode=1)
        trace.sent(1, start)
        answer = response(cookie, chunk(bytes([cookie]) * 32), edition=edition, receive=start + 50, transmit=start - cookie,
                          server_cookie=0x70 + cookie, flags=INTERLEAVED[edition] if cookie > 1 else 0)
        trace.receive(1, start + 97, answer)
        trace.receive(1, start + 98, answer)
    for cookie in range(5, 16):
        trace.poll(1, cookie, mode=1)
    trace.receive(1, 9000, response(15, edition=edition, flags=INTERLEAVED[edition]))
    trace.receive(1, 9000, response(15, edition=edition, server_cookie=0x99))
    trace.poll(1, 16, mode=1)


def completing(trace):
    """The offsets that two associations ask while their chunks come mixed, and those of the pass after."""
    whole = filter_of(OTHER_ID)
    for association in (9, 10):
        trace.open(association, 7, 0, 128)
    for cookie, at in enumerate((0, 128, 256, 384, 0, 128), 1):
        for association in (9, 10):
            trace.poll(association, cookie, -6, cookie % 2)
        for association in ((10, 9) if cookie % 2 else (9, 10)):
            trace.sent(association, 100 * cookie + association)
            trace.receive(association, 100 * cookie + 50, response(cookie, chunk(whole[at:at + 128]), receive=100 * cookie + 20,
                                                                   transmit=100 * cookie + 31))


def stored_trace():
    """The whole trace. The last record that is read is a poll of mode 2, a wrong kind."""
    trace = RandomTrace(Random(208))
    opening(trace)
    polling(trace)
    sending(trace)
    for edition in (7, 1):
        receiving(trace, edition)
        judging(trace, edition)
        interleaving(trace, edition)
    completing(trace)
    for _ in range(RANDOM_CALLS):
        trace.one()
    return trace.octets() + poll_record(9, 99, 6, 2) + close_record(9)


def missing(trace):
    """The answers that are not among those that the model expects of a trace."""
    printed = [line.split(" ", 1)[1] for line in replay(io.BytesIO(trace))]
    return [answer for answer in ANSWERS if not any(re.match(rf"{answer}\b", line) for line in printed)]


def main():
    trace = stored_trace()
    if lost := missing(trace):
        sys.exit("trace_make: no record is answered so: " + ", ".join(lost))
    sys.stdout.buffer.write(trace)


if __name__ == "__main__":
    main()
