#!/usr/bin/env python3
"""Show a case file beside its results: the comments as they stand, then each call and what it answered.

usage: story.py CASES RESULTS

A long word of octets is cut to its first four and their number. A long line goes on below its first argument.
"""
import re
import signal
import sys
import textwrap

LEGEND = "Long words are cut: 2b000600.. 100 octets is a word of 100 octets, whose first four are shown."
WIDTH = 100
WHOLE = 16      # octets that are shown whole; no number has as many digits
SHOWN = 4       # octets of more
PART = re.compile(r"((?:[0-9A-Fa-f]{2})*)([0-9A-Fa-f]{2})(?:\*([0-9]+))?")


def short(word):
    """The word as people are shown it: cut if it is octets, and long both as it is written and as it is meant."""
    parts = [PART.fullmatch(part) for part in word.split(",")]
    if len(word) <= 2 * WHOLE or not all(parts):
        return word
    runs = [(part[1], part[2], int(part[3] or 1)) for part in parts]
    count = sum(len(before) // 2 + times for before, _, times in runs)
    digits = "".join(before + last * min(times, SHOWN) for before, last, times in runs)
    return word if count <= WHOLE else f"{digits[:2 * SHOWN]}.. {count} octets"


def shown(label, line):
    """A call or a result. A line is broken only between words: the spaces in what a word is cut to do not break."""
    words = [short(word).replace(" ", "\xa0") for word in line.split()]
    start = f"    {label:8}"
    text = textwrap.fill(" ".join(words), WIDTH, initial_indent=start, subsequent_indent=" " * len(f"{start}{words[0]} "),
                         break_long_words=False)
    return text.replace("\xa0", " ")


def main():
    cases, results = (open(name, encoding="latin-1").read().splitlines() for name in sys.argv[1:3])
    answered = iter(results)
    print(f"{LEGEND}\n")
    for line in cases:
        call = line.split("#")[0].strip()
        if call:
            result = next(answered, None)
            if result is None:
                sys.exit(f"story.py: no result of {call}")
            print(shown("call", call))
            print(shown("result", result))
        else:
            print(line[2:] if line.startswith("# ") else line)
    left = list(answered)
    if left:
        sys.exit(f"story.py: {len(left)} results are left over")


if __name__ == "__main__":
    signal.signal(signal.SIGPIPE, signal.SIG_DFL)       # a reader may stop before the end
    main()
