#!/usr/bin/env python3
"""Write the case file that the program `cases` is tested on.

usage: cases_make.py > crates/cases/stdin
       cases_model.py < crates/cases/stdin > crates/cases/stdout

First the cases that a person chose, by subject, then random ones from a fixed seed, then the client table's and the
responder's, which are in client_make.py, half_era_make.py, responder_make.py, mac_make.py and missed_make.py, all of edition
7; then those of edition 1 and of both, in edition_make.py and edition_answer_make.py. Running it again gives the same file.
"""
import random
import sys

sys.dont_write_bytecode = True      # no generated folder beside the sources
from cases_model import text_of     # noqa: E402
from client_make import client_lines    # noqa: E402
from edition_answer_make import edition_answer_lines    # noqa: E402
from edition_make import edition_lines  # noqa: E402
from half_era_make import half_era_lines    # noqa: E402
from mac_make import mac_lines  # noqa: E402
from missed_make import missed_lines    # noqa: E402
from responder_make import responder_lines     # noqa: E402

R = random.Random(5)
LENGTHS = [0, 1, 3, 47, 48, 49, 50, 51, 52, 1276, 1280, 1281, 1284, 1400]

OPENING = """\
# Cases for the program `cases`; docs/CASES.md has the format. Written by tests/cases_make.py.

# M1: octet 0 of a request, of a response, and of a response with leap 3
header 7 3 2b00*47
header 7 4 2c00*47
header 7 4 ec00*47
write 7 0 3 0 0 0 0 0 0 0 0 0 0 0 0 0 00*48
write 7 0 4 0 0 0 0 0 0 0 0 0 0 0 0 0 00*48
write 7 3 4 0 0 0 0 0 0 0 0 0 0 0 0 0 00*48

# M2: lengths
sound 3 2b00*46
sound 3 2b00*47
sound 3 2b00*49
sound 3 2b00*47,f50104d0,00*1228
sound 3 2b00*47,f50104d4,00*1232

# M3 and M4: a field of length 3, and of length 5 with and without zero padding
sound 3 2b00*47,f5010003
sound 3 2b00*47,f5010005,ff,000000
sound 3 2b00*47,f5010005,ff,000001
sound 3 2b00*47,f5010005,ff,010000
sound 3 2b00*47,f5010006,ffff,0000
sound 3 2b00*47,f5010007,ffffff,00
sound 3 2b00*47,f5010008,ffffffff

# M5 to M7: IDs into a fresh filter, and their weights
add 00*512 00*15
add 00*512 ff*15
add 00*512 00100200*12
weight 0100*511
weight 00*511,80
weight 0700*511

# M8 to M11, and halving each difference before adding
measure 0xFFFFFFFF00000000 0x80000000 0x80000000 0x100000000
measure 10 10 10 11
measure 1 9223372036854775809 9223372036854775809 1
measure 1 9223372036854775808 9223372036854775808 1
measure 1 2 2 1

# M12: filter requests of offset 508, n 4 and n 8; soundness does not look at their offsets
sound 3 2b00*47,f5030008,01fc0000
sound 3 2b00*47,f503000c,01fc0000,00*4

# The whole first poll, M-13
sound 3 2b000600*21,0102030405060708,00*16,f5ff001f,64726166742d6d6c6963687661722d6e74702d6e747076352d3037,00,f5030014,00*16
header 7 3 2b000600*21,0102030405060708,00*16,f5ff001f,64726166742d6d6c6963687661722d6e74702d6e747076352d3037,00,f5030014,00*16

# Refusals 1, 2 and 3 are given in this order
header 7 3 -
header 7 3 0000
header 7 3 0000*47
header 7 3 2b00*46
header 7 4 2300*47
header 7 4 2b00*47
header 7 3 2c00*47
header 7 0 2b00*47
header 7 255 2b00*47
header 7 0 2800*47
header 7 7 2f00*47
sound 4 2300*46
sound 4 2300*47
sound 4 2b00*47
sound 0 2800*47
sound 3 2c00*47,f5010003

# The header's fields are read whatever the chain is
header 7 3 2b00*47,f5010003
header 7 4 2c00*47,00*4

# Refusals 4 and 5: 4 before 5 within a field, the first field in error decides, and unknown fields count
sound 3 2b00*47,f5010000
sound 3 2b00*47,f5010002
sound 3 2b00*47,f5010004
sound 3 2b00*47,f5010005
sound 3 2b00*47,f5010008
sound 3 2b00*47,f501ffff
sound 3 2b00*47,f501fffd,00*1228
sound 3 2b00*47,f5010009,ff*4,ff,000000
sound 3 2b00*47,f5010009,ff*4,ff,0000ff,00*4
sound 3 2b00*47,00*4
sound 3 2b00*47,f5020008,ff*4
sound 3 2b00*47,f5020007,ff*3,ff
sound 3 2b00*47,abcd0006,ff*2,0001
sound 3 2b00*47,f5010005,ff,000001,f5010003
sound 3 2b00*47,f5010003,f5010005,ff,000001
sound 3 2b00*47,f5010004,f5010003
sound 3 2b00*47,f5010004,f5010004,f5010004,f5010006,0000,0100
sound 3 2b00*47,f5050008,00*4,f5050008,00*4,f504000c,01*8
sound 4 2c00*47,f5040014,aa*16
sound 4 2c00*47,f5040014,aa*12

# Reading every field at its extremes
header 7 4 ec,ff*47
header 7 4 6c,0f,80,80,03,ff,ffff,00*8,80,00*7,00*7,01,7f,ff*7,80,00*7
header 7 4 2c,01,7f,7f,00,01,8001,7f,ff*3,80,00*3,01,00*7,ff,00*7,00*8,00*7,01
header 7 3 ab,10,06,ee,02,00,0003,00,00*2,01,00*3,10,0123456789abcdef,fedcba9876543210,0011223344556677,8899aabbccddeeff

# Writing: every field at its extremes, octets past 48 stay, refusals 6 before 11, and nothing changes on a refusal
write 7 3 4 255 127 127 255 255 65535 4294967295 4294967295 18446744073709551615 18446744073709551615 18446744073709551615 18446744073709551615 0 aa*52
write 7 3 3 255 -128 -128 255 255 0xffff 0xffffffff 0xffffffff 0xffffffffffffffff 0xffffffffffffffff 0xffffffffffffffff 0xffffffffffffffff 0 aa*48
write 7 1 3 1 -1 -20 1 1 2 1 1 1 1 1 1 0 00*100
write 7 2 4 15 6 -0x12 3 0 1 0x10000000 0x8000 0x0123456789abcdef 0xfedcba9876543210 0xe8000000 0xe800000080000000 0 ff*64
write 7 0 3 0 6 0 0 0 0 0 0 0 0x0102030405060708 0 0 0 00*100
write 7 4 3 0 0 0 0 0 0 0 0 0 0 0 0 0 aa*48
write 7 255 4 0 0 0 0 0 0 0 0 0 0 0 0 0 aa*48
write 7 0 0 0 0 0 0 0 0 0 0 0 0 0 0 0 aa*48
write 7 0 2 0 0 0 0 0 0 0 0 0 0 0 0 0 aa*48
write 7 0 5 0 0 0 0 0 0 0 0 0 0 0 0 0 aa*48
write 7 0 255 0 0 0 0 0 0 0 0 0 0 0 0 0 aa*48
write 7 0 3 1 2 3 4 5 6 7 8 9 10 11 12 0 aa*47
write 7 0 4 1 2 3 4 5 6 7 8 9 10 11 12 0 -
write 7 4 4 1 2 3 4 5 6 7 8 9 10 11 12 0 aa*47
write 7 0 5 1 2 3 4 5 6 7 8 9 10 11 12 0 -

# Filters: sizes, repeated positions, adding twice, and unions
add 00*511 00*15
add 00*513 00*15
add 00*512 00*14
add 00*512 00*16
add 00*512 -
add - 00*15
add - -
add ff*512 00*15
add 0100*511 00*15
add 00*512 000001002003004005006007008009
add 00*512 fffffefefdfdfcfcfbfbfafaf9f9f8
union 00*512 00*512
union ff*512 00*512
union 00*512 ff*512
union 0f*512 f0*512
union 0100*511 00*511,80
union 00*511 00*512
union 00*512 00*511
union 00*512 00*513
union - 00*512
union aa*512 -
union - -
weight 00*512
weight ff*512
weight 55*512
weight 80*512
weight 00*511
weight 00*513
weight -

# Measurement: eras, the ends of the range, and rounding toward minus infinity
measure 0 0 0 0
measure 18446744073709551615 0 0 18446744073709551615
measure 0 18446744073709551615 18446744073709551615 0
measure 0xffffffffffffffff 1 2 4
measure 0 9223372036854775807 0 0
measure 0 9223372036854775808 0 0
measure 0 0 9223372036854775808 0
measure 0 0 0 9223372036854775808
measure 9223372036854775808 0 0 0
measure 0 0x8000000000000000 0x8000000000000000 0
measure 0 0x7fffffffffffffff 0x7fffffffffffffff 0
measure 0 0x7fffffffffffffff 0x7ffffffffffffffe 0
measure 0 0x8000000000000000 0x8000000000000001 0
measure 0 0 0x7fffffffffffffff 0x8000000000000000
measure 0 0x8000000000000000 0 0x7fffffffffffffff
measure 0 1 0 0
measure 1 0 0 0
measure 0 0 0 3
measure 3 0 0 0

# Half an era apart, judgement 5: each of the four differences alone
measure 1 0x8000000000000001 0x8000000000000003 5
measure 1 0x8000000000000003 0x8000000000000005 5
measure 1 3 5 0x8000000000000001
measure 1 3 0x8000000000000003 9

# A difference of 2^63 - 1 and of -(2^63 - 1) counts: the largest offset, the smallest, the largest delay both ways
measure 1 0x8000000000000000 0x8000000000000000 1
measure 0x8000000000000000 1 1 0x8000000000000000
measure 1 1 0x8000000000000002 0x8000000000000000
measure 0x8000000000000000 0x8000000000000002 1 1

# Lines that are no calls
sounds 3 2b00*47
Sound 3 2b00*47
soun 3 2b00*47
0
-
header
header 7 3
header 7 x 2b00*47
header 7 3 2b00*47 4
header 7 256 2b00*47
header 7 -1 2b00*47
header 7 18446744073709551616 2b00*47
header 7 0x10 2b00*47
header 7 0x 2b00*47
header 7 0x0x3 2b00*47
header 7 3x 2b00*47
header 7 0X3 2b00*47
header 7 03 2b00*47
header 7 0x0000000000000000000003 2b00*47
header 7 99999999999999999999999999x 2b00*47
header 7 99999999999999999999999999 2b00*47
header 7 300 zz
header 7 3 zz
sound
sound 3 2
sound 3 2b0
sound 3 2bg0
sound 3 2b0g
sound 3 g2
sound 3 2b*
sound 3 2b*x
sound 3 2b**2
sound 3 *4
sound 3 2b00*47ff
sound 3 2b,,00*47
sound 3 ,2b00*47
sound 3 2b00*47,
sound 3 2b00*47, ff
sound 3 --
sound 3 -00
sound 3 2b00*0047
sound 3 2B00*47
sound 3 2b00*0
sound 3 00*4096
sound 3 00*4097
sound 3 00*4096,00
sound 3 00*99999999999999999999999999999999999999
sound 3 00*65536
sound 3 00*18446744073709551616
sound 3 00*5000zz
sound 3 2b00*47 # with a comment
sound 3 2b00*47# and with no space before it
\tsound\t3  2b00*47\t
sound 3 2b00*47\r
write
write 7 0 3 0 0 0 0 0 0 0 0 0 0 0 0 0
write 7 0 3 0 0 0 0 0 0 0 0 0 0 0
write 7 0 3 0 0 0 0 0 0 0 0 0 0 0 0 0 00*48 0
write 7 256 3 0 0 0 0 0 0 0 0 0 0 0 0 0 00*48
write 7 0 3 0 128 0 0 0 0 0 0 0 0 0 0 0 00*48
write 7 0 3 0 -129 0 0 0 0 0 0 0 0 0 0 0 00*48
write 7 0 3 0 -0 -0x0 0 0 0 0 0 0 0 0 0 0 00*48
write 7 0 3 0 - 0 0 0 0 0 0 0 0 0 0 0 00*48
write 7 0 3 0 --1 0 0 0 0 0 0 0 0 0 0 0 00*48
write 7 0 3 0 0 0x80 0 0 0 0 0 0 0 0 0 0 00*48
write 7 0 3 0 0 -0x80 0 0 0 0 0 0 0 0 0 0 00*48
write 7 0 3 0 0 0 256 0 0 0 0 0 0 0 0 0 00*48
write 7 0 3 0 0 0 0 -1 0 0 0 0 0 0 0 0 00*48
write 7 0 3 0 0 0 0 0 65536 0 0 0 0 0 0 0 00*48
write 7 0 3 0 0 0 0 0 0 4294967296 0 0 0 0 0 0 00*48
write 7 0 3 0 0 0 0 0 0 0 0x100000000 0 0 0 0 0 00*48
write 7 0 3 0 0 0 0 0 0 0 0 18446744073709551616 0 0 0 0 00*48
write 7 0 3 0 0 0 0 0 0 0 0 0 0x10000000000000000 0 0 0 00*48
write 7 0 3 0 0 0 0 0 0 0 0 0 0 0 a 0 00*48
write 7 0 3 0 0 0 0 0 0 0 0 0 0 0 0 0 0
add 00*512
add 00*512 00*15 00
add 0 00*15
add 00*512 0
union 00*512
weight
weight 00*512 00*512
weight 0x00
measure 1 2 3
measure 1 2 3 4 5
measure 1 2 3 -4
measure 1 2 3 18446744073709551616
measure 1 2 3 18446744073709551615
measure 1 2 3 18446744073709551620
"""


def octets(n):
    return bytes(R.randrange(256) for _ in range(n))


def field(room):
    """A sound field of at most `room` octets, a multiple of 4."""
    kind = R.choice([0xF501, 0xF502, 0xF503, 0xF504, 0xF505, 0xF5FF, R.randrange(65536)])
    length = R.choice([4, 8, R.randint(4, min(room, 40)), R.randint(4, room)])
    padding = -length % 4
    if length + padding > room:
        return field(room)
    data = R.choice([octets(length - 4), bytes([R.randrange(256)]) * (length - 4)])
    return kind.to_bytes(2, "big") + length.to_bytes(2, "big") + data + bytes(padding)


def datagram(mode, most):
    """A datagram of sound fields, and the places where they begin."""
    head = bytes([R.randrange(4) * 64 + 5 * 8 + mode])
    made = head + (octets(47) if R.random() < 0.5 else bytes(47))
    size, starts = R.randrange(48, most + 1, 4), []
    while len(made) < size and R.random() < 0.9:
        starts.append(len(made))
        made += field(size - len(made))
    return made, starts


def damaged(made, starts):
    """The same with one thing changed, which may or may not matter."""
    made = bytearray(made)
    kind = R.randrange(6)       # kinds 3 and 4 change a field's length
    if kind == 0:
        made[0] ^= 2 ** R.randrange(8)
    elif kind == 1:
        del made[R.randrange(len(made)):]
    elif kind == 2:
        made += octets(R.choice([1, 2, 4, 8]))
    elif kind == 3 and starts:
        made[R.choice(starts) + 3] = R.choice([0, 1, 2, 3, 5, 6, 7, 255])
    elif kind == 4 and starts:
        made[R.choice(starts) + 2] = R.randrange(256)
    else:
        made[R.randrange(len(made))] ^= 1 << R.randrange(8)
    return bytes(made)


def some_filter():
    """A filter with a few octets that are not zero."""
    made = bytearray(512)
    for _ in range(R.randrange(1, 12)):
        made[R.randrange(512)] = R.randrange(256)
    return bytes(made)


def time():
    return R.choice([R.randrange(2 ** 64), R.randrange(16), 2 ** 64 - 1 - R.randrange(16), 2 ** 63 + R.randrange(-8, 8)])


def numeral(value):
    return R.choice([str(value), f"{value:#x}"]) if value >= 0 else str(value)


def lengths():
    """Every length: with zeros after octet 0, and with one padding field that fills the datagram."""
    for n in LENGTHS:
        zeros = bytes([0x2B] + [0] * n)[:n]
        yield f"header 7 3 {text_of(zeros)}"
        yield f"sound 3 {text_of(zeros)}"
        if n >= 52:
            length = (n - 48).to_bytes(2, "big")
            yield f"sound 3 {text_of((zeros[:48] + bytes([0xF5, 0x01]) + length + zeros)[:n])}"


def random_part():
    for i in range(48):
        mode = R.choice([3, 4])
        made, starts = datagram(mode, 1280 if i % 12 == 0 else 160)
        if i % 3:
            made = damaged(made, starts)
        yield f"{R.choice(['sound', 'sound', 'header 7'])} {mode} {text_of(made)}"
    for _ in range(14):
        words = [R.randrange(5), R.choice([3, 4, 4, R.randrange(8)]), R.randrange(256), R.randrange(-128, 128),
                 R.randrange(-128, 128), R.randrange(256), R.randrange(256), R.randrange(2 ** 16), R.randrange(2 ** 32),
                 R.randrange(2 ** 32), time(), time(), time(), time()]
        lent = bytes([R.randrange(256)]) * R.choice([47, 48, 48, 52, 100])
        yield "write 7 " + " ".join(map(numeral, words)) + " 0 " + text_of(lent)
    for _ in range(8):
        first, second = some_filter(), some_filter()
        yield f"add {text_of(first)} {text_of(octets(15))}"
        yield f"union {text_of(first)} {text_of(second)}"
        yield f"weight {text_of(first)}"
    for _ in range(40):
        yield "measure " + " ".join(numeral(time()) for _ in range(4))


def main():
    print(OPENING, end="")
    print("\n# Every length")
    print("\n".join(lengths()))
    print("\n# Random ones")
    print("\n".join(random_part()))
    print("\n".join(client_lines(R)))
    print("\n".join(half_era_lines()))
    print("\n".join(responder_lines(R)))
    print("\n".join(mac_lines()))
    print("\n".join(missed_lines()))
    print("\n".join(edition_lines()))
    print("\n".join(edition_answer_lines()))
    print("\n# A line one octet too long, and a last line with no line end")
    print("x" * 65537)
    print("sound 3 2b00*47", end="")


if __name__ == "__main__":
    main()
