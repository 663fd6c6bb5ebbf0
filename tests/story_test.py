#!/usr/bin/env python3
"""Shows what tools/story.py makes of words and lines."""
import sys
import unittest

from counted import counted     # the first: it lets tools/ be imported from
import story


class Story(unittest.TestCase):
    def test_long_octets_are_cut(self):
        for word, expected in (
            ("0102030405060708090a0b0c0d0e0f1011", "01020304.. 17 octets"),
            ("2b000600*21,010203040506070800*16,ffff", "2b000600.. 50 octets"),
            ("00*3,112233445566778899aabbccddeeff", "00000011.. 18 octets"),
            ("0100*2,0300*999999999999999,0405060708", "01000003.. 1000000000000008 octets"),
            ("2b,00,06,00,01,02,03,04,05,06,07,08,09,0A,0B,0C,0D", "2b000600.. 17 octets"),
        ):
            self.assertEqual(story.short(word), expected)

    def test_the_rest_is_whole(self):
        for word in ("-", "0102030405060708090a0b0c0d0e0f10", "00*340", "2c00*47,f5010004,f5020014,99*16",
                     "2b,00,06,00,01,02,03,04,05,06,07,08,09,0a,0b,0c", "18446744073709551615", "-9223372036854775807",
                     "0x0102030405060708", f"0x{5:040}", "client_cookie=0x0102030405060708090a0b", "interleaved"):
            self.assertEqual(story.short(word), word)

    def test_what_is_not_octets_is_whole(self):
        right = "2b000600*21,0102030405060708090a0b0c,ffff"
        self.assertEqual(story.short(right), "2b000600.. 38 octets")
        for word in (right + "f", right + ",", right.replace("1,", "1"), right.replace(",", ",,"), right.replace("*21", "*"),
                     right.replace("2b", "2g"), "," + right):
            self.assertEqual(story.short(word), word)

    def test_lines(self):
        octets = "2b000600*21,010203040506070800*16,f501000800*4"
        self.assertEqual(story.shown("result", f"poll 0 56 {octets}"), "    result  poll 0 56 2b000600.. 56 octets")
        cut = " 2b000600.. 56 octets"
        self.assertEqual(story.shown("call", " ".join(["answer", *[octets] * 6, "0x51", "-20", "00100000"])),
                         f"    call    answer{cut * 3}\n{' ' * 18}{cut * 3} 0x51 -20 00100000")
        self.assertIn("x" * 120, story.shown("result", "x" * 120))


if __name__ == "__main__":
    sys.exit(counted("the demo's lines"))
