"""The part of the case file for W204-13 to W204-17: answers in edition 1, and the lines that name no edition or offset.

The groups of responder_make.py and mac_make.py that fit edition 1 are made of it here too.
"""
from itertools import permutations
from random import Random

from case_lines import Lines as ClientLines
from edition_make import ABOVE_LIMITS, AT_LIMITS, FLAGS, OFFSETS, WRONG_EDITIONS
from mac_make import LONG_MAC, MAC, answering as answering_mac
from page_model import DRAFT, DRAFT_NAME, FILTER_REQUEST, INFORMATION, LAYOUTS, PADDING, extension
from responder_make import COUNTED, FILTER, Lines, asked, exchanges, random_part, refusing, saving, storing

THREE = [asked(16, 32), extension(INFORMATION, bytes(4)), extension(DRAFT, DRAFT_NAME)]     # what edition 7 answers
OTHERS = [extension(PADDING, b"\x01\x02\x03"), extension(0x1234, b"\xff"), extension(0xF504, bytes(8))]


def in_each(lines, datagram, **given):
    """The same arguments in either edition."""
    for edition in LAYOUTS:
        lines.answer(datagram, edition=edition, **given)


def wrong_editions(lines):
    lines.group("Editions: any other is refused with 6 by answer, before 1 to 5, 13, 8 and 11; the store is kept", 2)
    lines.answer(lines.wanted(), fresh=7)
    good, plain = lines.wanted(7), lines.request()
    damaged = (good[:-2], b"\x23" + good[1:], b"\x2c" + good[1:], good + bytes.fromhex("f5010003"),
               good + bytes.fromhex("f5010005ff000001"), good + MAC + MAC)
    for edition in WRONG_EDITIONS:
        lines.answer(plain, edition=edition)
        lines.answer(good, fresh=8, edition=edition)
        lines.answer(good, fresh=7, lent=b"", edition=edition)
        for datagram in damaged:
            lines.answer(datagram, edition=edition)
    lines.report(9, 0)


def limits(lines):
    lines.group("Editions: timescale, stratum and flags at edition 1's limits and above them, refused there with 6 before 1", 1)
    for values in AT_LIMITS + ABOVE_LIMITS:
        in_each(lines, lines.request(), **values)
        in_each(lines, b"", **values)

    lines.group("Editions: the timescale offset is sent in edition 1, and in edition 7 not looked at", 1)
    for offset in OFFSETS:
        in_each(lines, lines.request(), timescale_offset=offset)


def flags(lines):
    lines.group("Editions: the server's flags in a basic answer: 0x4 is cleared in edition 1, 0x2 in edition 7, the others are kept", 1)
    for sent in FLAGS:
        in_each(lines, lines.request(), flags=sent)

    lines.group("Editions: a request wants interleaved by 0x4 in edition 1, by 0x2 in edition 7; its saved time is sent once", 4)
    fresh = 0x40
    for edition in LAYOUTS:
        for wanted in FLAGS:
            datagram = lines.request(flags=wanted, server_cookie=fresh, edition=edition)
            fresh += 1
            lines.answer(datagram, fresh=fresh, flags=0xFF, edition=edition)
            lines.report(fresh, 3000 + fresh)

    lines.group("Editions: a request in the other edition's layout is read as if it were in the answer's", 4)
    for edition, values in ((7, {"flags": 2}), (7, {"timescale": 4}), (7, {"timescale": 4, "flags": 2}), (7, {"timescale": 251}),
                            (1, {"flags": 4}), (1, {"timescale_offset": 2}), (1, {"timescale_offset": -1, "flags": 0xFB})):
        fresh += 2
        lines.answer(lines.request(edition=edition, **values), fresh=fresh, edition=edition)
        lines.answer(lines.request(edition=edition, server_cookie=fresh, **values), fresh=fresh + 1, edition=8 - edition)
    lines.report(9, 0)


def fields(lines):
    lines.group("Every field of a request is unknown: one padding field fills the answer, whatever stood there", 1)
    lines.answer(lines.request(), lent=b"\xaa" * 60)
    for extensions in [*permutations(THREE), *((field,) for field in THREE + OTHERS), (MAC,), (LONG_MAC,), (*OTHERS, *THREE, MAC),
                       (*THREE, *THREE), (extension(PADDING, b""),), (extension(DRAFT, b"x"),)]:
        lines.answer(lines.request(*extensions), filter_octets=COUNTED)
    for start, size in ((0, 4), (508, 4), (508, 8), (0, 512), (100, 7)):
        lines.answer(lines.request(asked(start, size)), filter_octets=COUNTED)
    for data in (b"", b"\0\0"):
        lines.answer(lines.request(extension(FILTER_REQUEST, data)))

    lines.group("Requests of 52 and of 1,280 octets, in few fields and in many, basic and interleaved", 2)
    lines.answer(lines.wanted() + bytes.fromhex("f5010004"), fresh=0x11)
    lines.report(0x11, 2001)
    lines.answer(lines.wanted(0x11) + b"".join(THREE) + extension(PADDING, b"\x01" * 1148), fresh=0x12, lent=b"\xaa" * 1284,
                 timescale_offset=-32768)
    lines.answer(lines.request(*([bytes.fromhex("f5010004")] * 308)))
    lines.answer(lines.request(*([bytes.fromhex("f5010004")] * 309)))
    lines.report(9, 0)


def together(lines):
    lines.group("Our client polls our responder: 48 octets each way, basic, then interleaved from the saved time", 3)
    exchanges(lines, range(1, 6))
    lines.made.append("verdict 5 000102030405060708090a0b0c0d0e")


def told_otherwise(lines):
    lines.group("Filter and information of wrong sizes are refused in edition 1 too, though no field is answered from them", 1)
    for given in ({"filter_octets": FILTER[1:]}, {"filter_octets": b""}, {"information": b"\5\1\2"}, {"information": b""}):
        lines.answer(lines.request(), **given)


FAULTS = """
header 256 3 2b00*47
header -1 3 2b00*47
header x 3 2b00*47
header 1
header 1 3
header 1 3 2b00*47 0
header 0x1 3 2b00*47
header 01 3 2b00*47
header 3 2b00*47
write 256 0 3 0 0 0 0 0 0 0 0 0 0 0 0 0 00*48
write 1 0 3 0 0 0 0 0 0 0 0 0 0 0 0 00*48
write 1 0 3 0 0 0 0 0 0 0 0 0 0 0 0 0
write 1 0 3 0 0 0 0 0 0 0 0 0 0 0 0
write 1 0 3 0 0 0 0 0 0 0 0 0 0 0 0 0 00*48 0
write 1 0 3 0 0 0 0 0 0 0 0 0 0 0 0 32767 00*48
write 1 0 3 0 0 0 0 0 0 0 0 0 0 0 0 32768 00*48
write 1 0 3 0 0 0 0 0 0 0 0 0 0 0 0 -32768 00*48
write 1 0 3 0 0 0 0 0 0 0 0 0 0 0 0 -32769 00*48
write 1 0 3 0 0 0 0 0 0 0 0 0 0 0 0 0x7fff 00*48
write 1 0 3 0 0 0 0 0 0 0 0 0 0 0 0 0x8000 00*48
write 1 0 3 0 0 0 0 0 0 0 0 0 0 0 0 -0x8000 00*48
write 1 0 3 0 0 0 0 0 0 0 0 0 0 0 0 -0x8001 00*48
write 1 0 3 0 0 0 0 0 0 0 0 0 0 0 0 -0 00*48
write 1 0 3 0 0 0 0 0 0 0 0 0 0 0 0 -00037 00*48
write 1 0 3 0 0 0 0 0 0 0 0 0 0 0 0 65536 00*48
write 1 0 3 0 0 0 0 0 0 0 0 0 0 0 0 -65536 00*48
write 1 0 3 0 0 0 0 0 0 0 0 0 0 0 0 18446744073709551615 00*48
write 1 0 3 0 0 0 0 0 0 0 0 0 0 0 0 -18446744073709551616 00*48
write 1 0 3 0 0 0 0 0 0 0 0 0 0 0 0 - 00*48
write 1 0 3 0 0 0 0 0 0 0 0 0 0 0 0 --1 00*48
write 1 0 3 0 0 0 0 0 0 0 0 0 0 0 0 +1 00*48
write 1 0 3 0 0 0 0 0 0 0 0 0 0 0 0 1- 00*48
write 1 0 3 0 0 0 0 0 0 0 0 0 0 0 0 x 00*48
write 1 0 3 16 128 0 0 0 0 0 0 0 0 0 0 32768 zz
open 1 256 0 16
open 1 x 0 16
open 1 -7 0 16
open 1 7 0
open 1 7 0 16 0
open 1 0 16
poll 1 1 6 basic 00*100
answer 256 2b00*47 1 1 0 0 1 0 0 0 0 0 0 0 0 00*512 00*4 00*48
answer 1 2b00*47 1 1 0 0 1 0 0 0 0 0 0 0 32768 00*512 00*4 00*48
answer 1 2b00*47 1 1 0 0 1 0 0 0 0 0 0 0 -32769 00*512 00*4 00*48
answer 1 2b00*47 1 1 0 0 1 0 0 0 0 0 0 0 00*512 00*4 00*48
answer 1 2b00*47 1 1 0 0 1 0 0 0 0 0 0 0 0 00*512 00*4
answer 1 2b00*47 1 1 0 0 1 0 0 0 0 0 0 0 -32768 00*512 00*4 00*48
answer 2b00*47 1 1 0 0 1 0 0 0 0 0 0 0 0 00*512 00*4 00*48
"""


def edition_answer_lines():
    """The whole part."""
    lines, first, random = Lines(), Lines(1, 37), Random(1)
    for part in (wrong_editions, limits, flags):
        part(lines)
    for part in (storing, refusing, told_otherwise, saving, fields, answering_mac, together):
        part(first)
    random_part(first, random)
    last = ClientLines()
    last.fresh("Editions: lines that are no calls, by their edition or their timescale offset, and that they change nothing")
    last.add(FAULTS)
    return lines.made + first.made + last.made
