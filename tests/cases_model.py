#!/usr/bin/env python3
"""What the program `cases` should print, from a reading of the requirements (docs/RULES.md) alone.

usage: cases_model.py < CASES > EXPECTED

Plain Python, written from the requirements and docs/CASES.md, and from nothing of the Rattle code. The rules are in
page_model.py, client_model.py and responder_model.py; the case files' format is here.
"""
import re
import sys

sys.dont_write_bytecode = True      # no generated folder beside the sources
from client_model import Table      # noqa: E402
from page_model import (add, measure, read_header, read_refusal, sound, union, weight,             # noqa: E402
                        write_header)
from responder_model import Store       # noqa: E402

LIMIT = 4096        # octets in a word
LONGEST = 65536     # octets in a line, without its comment


class Problem(Exception):
    """What is wrong with a word of a line."""


def octets_of(word):
    """The octets that a word stands for."""
    if word == "-":
        return b""
    octets, at = b"", 0
    while at < len(word):
        if not re.match(r"[0-9A-Fa-f]", word[at]):
            raise Problem("not octets")
        if not re.match(r"[0-9A-Fa-f]{2}", word[at:]):
            raise Problem("odd number of hexadecimal digits")
        value, times, counted = int(word[at:at + 2], 16), 1, False
        at += 2
        if word[at:at + 1] == "*":
            digits = re.match(r"[0-9]*", word[at + 1:]).group()
            if not digits:
                raise Problem("not octets")
            times, counted = int(digits), True
            at += 1 + len(digits)
        if word[at:at + 1] == ",":
            at += 1
            if at == len(word):
                raise Problem("not octets")
        elif counted and at < len(word):
            raise Problem("not octets")
        if len(octets) + times > LIMIT:
            raise Problem(f"more than {LIMIT} octets")
        octets += bytes([value]) * times
    return octets


def text_of(octets):
    """Octets as they are printed: four or more equal ones with their count."""
    text, counted = "", False
    for run in re.finditer(rb"(.)\1*", octets, re.S):
        value, times = run.group()[0], len(run.group())
        text += "," if counted else ""
        counted = times >= 4
        text += f"{value:02x}*{times}" if counted else f"{value:02x}" * times
    return text or "-"


def number_of(word, low, high):
    sign = low < 0 and word.startswith("-")
    digits = word[1:] if sign else word
    if re.fullmatch(r"0x[0-9A-Fa-f]+", digits):
        value = int(digits, 16)
    elif re.fullmatch(r"[0-9]+", digits):
        value = int(digits)
    else:
        raise Problem("not a number")
    value = -value if sign else value
    if not low <= value <= high:
        raise Problem("number out of range")
    return value


def unsigned(bits):
    return lambda word: number_of(word, 0, 2 ** bits - 1)


def signed(bits):
    return lambda word: number_of(word, -2 ** (bits - 1), 2 ** (bits - 1) - 1)


U8, U16, U32, U64, I8, I16 = unsigned(8), unsigned(16), unsigned(32), unsigned(64), signed(8), signed(16)


def mode_of(word):
    """Whether the mode wanted of a poll is interleaved."""
    if word not in ("basic", "interleaved"):
        raise Problem("neither basic nor interleaved")
    return word == "interleaved"


# A header's words, in order, and how they are printed; the last is read in both editions, and printed of edition 1 alone.
WORDS = [("leap", U8, "d"), ("mode", U8, "d"), ("stratum", U8, "d"), ("poll", I8, "d"), ("precision", I8, "d"),
         ("timescale", U8, "d"), ("era", U8, "d"), ("flags", U16, "#06x"), ("root_delay", U32, "#010x"),
         ("root_dispersion", U32, "#010x"), ("server_cookie", U64, "#018x"), ("client_cookie", U64, "#018x"),
         ("receive", U64, "#018x"), ("transmit", U64, "#018x"), ("timescale_offset", I16, "d")]


def header_call(edition, mode, datagram):
    refusal = read_refusal(edition, datagram, mode)
    if refusal:
        return f"{refusal}"
    values = read_header(edition, datagram)
    printed = WORDS if edition == 1 else WORDS[:-1]
    return "0 " + " ".join(f"{name}={values[name]:{form}}" for name, _, form in printed)


def write_call(edition, *words):
    values = {name: value for (name, _, _), value in zip(WORDS, words)}
    refusal, octets = write_header(edition, values, words[-1])
    return f"{refusal} {text_of(octets)}"


def changed(call):
    def run(first, second):
        refusal, octets = call(first, second)
        return f"{refusal} {text_of(octets)}"
    return run


def weight_call(octets):
    refusal, bits = weight(octets)
    return f"{refusal}" if refusal else f"0 {bits}"


def measure_call(*times):
    judgement, offset, delay = measure(*times)
    return f"{judgement} {offset} {delay}"


TABLE = Table()     # one for the whole case file


def poll_call(*words):
    refusal, length, output = TABLE.poll(*words)
    return f"{refusal}" if refusal else f"0 {length} {text_of(output)}"


def received_text(refusal, judgement, chunk, offset, delay):
    """What is printed of a receive, from what it answers."""
    return f"{refusal}" if refusal else f"0 judgement={judgement} chunk={chunk} offset={offset} delay={delay}"


def receive_call(*words):
    return received_text(*TABLE.receive(*words))


def verdict_call(*words):
    refusal, verdict = TABLE.verdict(*words)
    return f"{refusal}" if refusal else f"0 {verdict}"


def publish_call(*words):
    refusal, output = TABLE.publish(*words)
    return f"{refusal}" if refusal else f"0 {text_of(output)}"


STORE = Store()     # one for the whole case file


def lend_call(octets):
    STORE.lend(octets)
    return text_of(octets)


def report_call(*words):
    refusal = STORE.report(*words)
    return f"{refusal} {text_of(STORE.octets)}"


def answer_call(*words):
    refusal, length, output = STORE.answer(*words)
    return f"{refusal}" if refusal else f"0 {length} {text_of(output)}"


# Each call: how its words are read, and what it prints after its name.
CALLS = {
    "header": ([U8, U8, octets_of], header_call),
    "write": ([U8] + [read for _, read, _ in WORDS] + [octets_of], write_call),
    "sound": ([U8, octets_of], lambda mode, datagram: f"{sound(datagram, mode)}"),
    "add": ([octets_of, octets_of], changed(add)),
    "union": ([octets_of, octets_of], changed(union)),
    "weight": ([octets_of], weight_call),
    "measure": ([U64] * 4, measure_call),
    "clear": ([], TABLE.clear),
    "open": ([U8, U8, U8, U16], TABLE.open),
    "close": ([U8], TABLE.close),
    "poll": ([U8, U64, I8, mode_of, octets_of], poll_call),
    "sent": ([U8, U64], TABLE.sent),
    "receive": ([U8, U64, octets_of], receive_call),
    "verdict": ([U8, octets_of], verdict_call),
    "publish": ([U16, octets_of, octets_of], publish_call),
    "store": ([U8], STORE.clear),
    "lend": ([octets_of], lend_call),
    "report": ([U64, U64], report_call),
    "answer": ([U8, octets_of, U64, U64, U64, U8, U8, I8, I8, U8, U8, U16, U32, U32, I16, octets_of, octets_of, octets_of],
               answer_call),
}


def read_call(words):
    """A call's name and the values of its words; a Problem tells the place of the first bad word, counted from 1."""
    if words[0] not in CALLS:
        raise Problem("word 1: unknown call")
    readers, _ = CALLS[words[0]]
    values = []
    for place, read in enumerate(readers, 2):
        if place > len(words):
            raise Problem(f"word {place}: missing")
        try:
            values.append(read(words[place - 1]))
        except Problem as problem:
            raise Problem(f"word {place}: {problem}")
    if len(words) > len(readers) + 1:
        raise Problem(f"word {len(readers) + 2}: left over")
    return words[0], values


def calls_of(octets):
    """Each line of a case file that has words: its number, and then its call's name and values, or what is wrong with it."""
    for number, line in enumerate(octets.decode("latin-1").split("\n"), 1):
        line = line.split("#")[0]
        words = re.split(r"[ \t\r]+", line.strip(" \t\r"))
        try:
            if len(line) > LONGEST:
                raise Problem(f"longer than {LONGEST} octets")
            call = read_call(words) if words != [""] else None
        except Problem as problem:
            yield number, None, f"{problem}"
        else:
            if call:
                yield number, call, None


def main():
    for number, call, problem in calls_of(sys.stdin.buffer.read()):
        if problem:
            print(f"line {number}: {problem}")
        else:
            name, values = call
            print(f"{name} {CALLS[name][1](*values)}")


if __name__ == "__main__":
    main()
