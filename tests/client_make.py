"""The client table's part of the case file: lines of clear, open, close, poll, sent, receive, verdict and publish.

Each group begins with a comment and, where it needs one, a fresh table. client_lines makes the groups of edition 7; those that
fit edition 1 are made of it too, by edition_make.py.
"""
from case_lines import OTHER_ID, OWN_ID, Lines, chunk, exchange, filter_of
from client_model import CHUNK_SIZES
from page_model import extension


def opening(lines):
    lines.group("The client table: before any clear all are closed; open's and close's refusals, 6 before 7")
    lines.add("""
close 0
open 16 7 0 16
open 0 7 0 24
open 0 7 255 512
open 0 7 0 16
open 0 7 0 17
open 15 7 7 32
close 16
close 14
close 0
open 0 7 1 128
clear
close 15
""")


def polling(lines):
    lines.fresh("Poll: the whole first poll, octets past it, refusals 6, 7, 8, 11; cookies A, B, A", (0, 0, 16))
    lines.add("""
poll 0 0x0102030405060708 6 basic 00*100
poll 0 0x0102030405060708 6 basic 00*100
poll 0 0 6 basic -
poll 16 0 6 basic -
poll 1 0 6 basic -
poll 0 1 6 basic 00*99
poll 0 1 -128 interleaved aa*101
poll 0 0x0102030405060708 127 basic aa*4096
poll 0 18446744073709551615 -1 basic 55*100
close 0
open 0 7 255 512
poll 0 18446744073709551615 6 basic 00*595
poll 0 18446744073709551615 6 basic 00*596
""")


def sending(lines):
    lines.fresh("Sent: 6, and 7 (closed, nothing outstanding, already reported, after the response)", (0, 0, 16))
    lines.add("""
sent 1 0
sent 1 1
sent 0 1
poll 0 1 6 basic 00*100
sent 0 0
sent 16 1
sent 0 10
sent 0 11
poll 0 2 6 basic 00*100
sent 0 12
""")
    lines.receive(0, 40, lines.response(2))
    lines.add("sent 0 13")


def receiving(lines):
    lines.fresh("Receive: refusals 6, 7, 1, 2, 3, 4 and 5, 13, 9, 10; none uses the request up", (0, 0, 16))
    good = lines.response(1, chunk(bytes(range(16))))
    lines.receive(16, 1, good)
    lines.receive(0, 0, b"")
    lines.receive(1, 1, b"")
    lines.receive(0, 1, good)
    lines.poll(0, 1, "00*100")
    lines.add("sent 0 10")
    lines.receive(0, 40, good + extension(0xF501, bytes(1280 - len(good))))
    lines.receive(0, 40, bytes([0x24]) + good[1:])
    lines.receive(0, 40, bytes([0x2B]) + good[1:])
    lines.receive(0, 40, good[:-4])
    lines.receive(0, 40, good + bytes.fromhex("f5010005ff000001f5010003"))
    lines.receive(0, 40, good + bytes.fromhex("f5010003f5010005ff000001"))
    lines.receive(0, 40, lines.response(2, bytes.fromhex("f5010003")))
    lines.receive(0, 40, lines.response(2, bytes.fromhex("f5020004f5010003")))
    lines.receive(0, 40, lines.response(2, bytes.fromhex("f5020004f5010004")))
    lines.receive(0, 40, lines.response(2, flags=lines.flag))
    lines.receive(0, 40, lines.response(1, flags=lines.all_flags, leap=3))
    lines.receive(0, 40, good)
    lines.receive(0, 40, good)

    lines.fresh("A late duplicate, before and after the next poll; an answer to a dropped request", (3, 0, 16))
    first = lines.response(1, chunk(b"\x11" * 16), server_cookie=7)
    lines.poll(3, 1, "00*100")
    lines.add("sent 3 10")
    lines.receive(3, 40, first)
    lines.receive(3, 41, first)
    lines.poll(3, 2, "00*100")
    lines.receive(3, 42, first)
    lines.poll(3, 3, "00*100")
    lines.add("sent 3 50")
    lines.receive(3, 80, lines.response(2, chunk(b"\x22" * 16)))
    lines.receive(3, 80, lines.response(3, chunk(b"\x33" * 16), receive=60, transmit=70))


def judging(lines):
    lines.fresh(f"Judgements 1 to 4 in order, each with its chunk {lines.outcome}, and a usable answer", (2, 5, 16))
    above = 16 if lines.edition == 7 else 0     # edition 1 has no stratum above 15
    answers = [(0, {"leap": 3, "stratum": 0, "timescale": 4}), (0, {"stratum": 0, "timescale": 4}),
               (10, {"stratum": above, "timescale": 5}), (0, {"timescale": 4, "receive": 0}), (0, {"timescale": 5}),
               (10, {"timescale": 5, "receive": 0}), (10, {"timescale": 5, "transmit": 0}),
               (10, {"timescale": 5, "stratum": 15, "leap": 2, "flags": lines.all_flags - lines.flag})]
    for cookie, (t1, values) in enumerate(answers, 1):
        exchange(lines, 2, cookie, t1, 41, lines.response(cookie, chunk(bytes([cookie]) * 16), **values))

    lines.fresh("Measurement in receive: M8 (an era's end), M10, and a negative delay's size", (0, 0, 16))
    times = [(0xFFFFFFFF00000000, 0x80000000, 0x80000000, 0x100000000), (1, 2 ** 63 + 1, 2 ** 63 + 1, 1),
             (10, 20, 60, 30)]
    for cookie, (t1, t2, t3, t4) in enumerate(times, 1):
        exchange(lines, 0, cookie, t1, t4, lines.response(cookie, receive=t2, transmit=t3))


def interleaving(lines):
    lines.fresh("Interleaved: T1, T2, T4 of the previous exchange; a basic answer; refusal 10", (1, 0, 16))
    first = lines.response(1, receive=20, transmit=30, server_cookie=0x1111)
    second = lines.response(2, receive=120, transmit=25, server_cookie=0x2222, flags=lines.flag)
    basic = lines.response(3, receive=220, transmit=231, server_cookie=0x3333)
    exchange(lines, 1, 1, 10, 40, first, "interleaved")
    exchange(lines, 1, 2, 110, 140, second, "interleaved")
    exchange(lines, 1, 3, 210, 241, basic, "interleaved")
    lines.poll(1, 4, "00*100")
    lines.receive(1, 340, lines.response(4, flags=lines.flag))
    lines.receive(1, 340, lines.response(4, server_cookie=0x4444))

    lines.group("An interleaved answer needs no times of its own but T3: the saved T1 was not reported, then it was")
    exchange(lines, 1, 5, 410, 440, lines.response(5, flags=lines.flag, receive=420, server_cookie=0x5555), "interleaved")
    exchange(lines, 1, 6, 0, 540, lines.response(6, flags=lines.flag, receive=0, transmit=429, server_cookie=0x6666), "interleaved")

    lines.group("Both timescales count for an interleaved answer; an unusable answer is saved too")
    exchange(lines, 1, 7, 610, 640, lines.response(7, timescale=1, receive=620, server_cookie=0x7777))
    exchange(lines, 1, 8, 710, 740, lines.response(8, flags=lines.flag, receive=720, server_cookie=0x8888), "interleaved")
    exchange(lines, 1, 9, 0, 840, lines.response(9, flags=lines.flag, transmit=730, server_cookie=0x9999), "interleaved")
    lines.add("close 1")
    lines.open(1, 0, 16)
    lines.poll(1, 9, "00*100", "interleaved")


def outcomes(lines):
    lines.fresh("Chunks: absent, of another size, taken; only the first filter response counts", (4, 0, 16))
    right, unknown = chunk(b"\xaa" * 16), extension(0x1234, b"\x01\x02\x03\x04")
    answers = [(unknown, extension(0xF503, b"\xaa" * 16)), (chunk(b""),), (chunk(b"\xaa" * 15),),
               (chunk(b"\xaa" * 20), right), (right, chunk(b"\xbb" * 16)),
               (unknown, extension(0xF501, bytes(3)), extension(0xF505, bytes(4)), right)]
    for cookie, fields in enumerate(answers, 1):
        exchange(lines, 4, cookie, 0, 40, lines.response(cookie, *fields))
    lines.poll(4, 99, "00*100")


def completing(lines, random):
    lines.group("Filters taken to completion at each chunk size; the last chunk decides")
    lines.add("clear")
    for association, size in enumerate(CHUNK_SIZES):
        target = filter_of(OTHER_ID, *(random.randbytes(15) for _ in range(8)))
        lines.open(association, 0, size)
        for cookie, at in enumerate(range(0, 512, size), 1):
            if at + size == 512:
                lines.verdict(association, OTHER_ID)
            exchange(lines, association, cookie, 0, 41, lines.response(cookie, chunk(target[at:at + size])), size=size)
        lines.verdict(association, OTHER_ID)
        lines.publish(2 ** association, OWN_ID, "00*512")
    lines.publish(0x3F, OWN_ID, "aa*516")

    lines.group("The offset is 0 again: a second round replaces octets; verdicts with all ten bits set, and nine")
    exchange(lines, 4, 100, 0, 40, lines.response(100, chunk(b"\x0f" * 256)), size=256)
    lines.publish(0x10, OWN_ID, "00*512")
    lines.verdict(4, bytes.fromhex("000001002003000001002003000003"))
    lines.verdict(4, bytes.fromhex("000001002003000001002003000004"))


def judging_loops(lines):
    lines.group("Verdicts, on the same table: incomplete though all ten bits are set already; refusals 6 and 7")
    lines.open(6, 0, 256)
    exchange(lines, 6, 1, 0, 40, lines.response(1, chunk(b"\xff" * 256)), size=256)
    lines.add("""
verdict 6 00*15
verdict 16 00*15
verdict 6 00*14
verdict 7 -
verdict 7 00*15
""")


def publishing(lines):
    lines.group("Publishing, on the same table: none selected gives the own ID alone; refusals 6, 7 and 11 in order")
    lines.add("""
publish 0 00*15 ff*512
publish 0 00100200*12 55*515
publish 0 00*15 00*511
publish 0xffff 00*16 -
publish 0x8000 00*15 -
publish 0x41 00*15 -
publish 0x81 00*15 00*512
publish 1 00*15 00*511
""")


def mixing(lines):
    lines.fresh("Two servers' chunks mixed: each goes to the offset its own request asked", (6, 0, 256), (15, 0, 256))
    first, second = filter_of(OWN_ID, bytes(15)), filter_of(OTHER_ID, b"\xff" * 15)
    for cookie, at in enumerate(range(0, 512, 256), 1):
        lines.poll(6, cookie, "00*340")
        lines.poll(15, cookie, "00*340")
        lines.add("sent 15 11\nsent 6 10")
        lines.receive(15, 44, lines.response(cookie, chunk(second[at:at + 256]), receive=520, transmit=530))
        lines.receive(6, 40, lines.response(cookie, chunk(first[at:at + 256])))
    lines.publish(0x40, bytes(15), "00*512")
    lines.publish(0x8000, bytes(15), "00*512")
    lines.publish(0x8040, bytes(15), "00*512")
    lines.verdict(6, OTHER_ID)
    lines.verdict(15, OTHER_ID)


def faults(lines):
    lines.fresh("Lines of the client table that are no calls, and that they change nothing", (0, 0, 16))
    lines.add("""
clear 0
open 1 7 0
open 1 7 0 16 0
open 256 7 0 16
open 1 7 256 16
open 1 7 0 65536
close -1
close 0 0
poll
poll 0 1 6
poll 0 1 6 basic
poll 0 1 6 basic 00*100 00
poll 0 18446744073709551616 6 basic 00*100
poll 0 1 -129 basic 00*100
poll 0 1 x neither zz
poll 0 1 6 Basic 00*100
poll 0 1 6 interleave zz
poll 0 1 6 0
poll 0 1 6 interleaved 00*4097
sent 0
sent 0 18446744073709551616
sent 0 1 2
receive 0 x zz
receive 0 1 zz
receive 0 1 2c00*47 00
verdict 0
verdict 0 00*15 00
publish 65536 00*15 00*512
publish 0 00*15
publish 0 00*15 00*512 0
sent 0 1
poll 0 1 6 basic 00*100
sent 0 1
""")


def client_lines(random):
    """The whole part; `random` is the seeded source."""
    lines = Lines()
    opening(lines)
    polling(lines)
    sending(lines)
    receiving(lines)
    judging(lines)
    interleaving(lines)
    outcomes(lines)
    completing(lines, random)
    judging_loops(lines)
    publishing(lines)
    mixing(lines)
    faults(lines)
    return lines.made
