"""The part of the case file for W205-1 to W205-9: a MAC alone, last and not last, in requests and responses."""
from case_lines import Lines, chunk
from cases_model import text_of
from page_model import INFORMATION, PADDING, extension
from responder_make import Lines as ResponderLines, asked

MAC = extension(0xF502, b"\x01\x02\x03\x04")
LONG_MAC = extension(0xF502, bytes(range(21)))      # three octets of padding
EMPTY_MAC = extension(0xF502, b"")
OTHER, EMPTY = extension(PADDING, b"\xff"), extension(PADDING, b"")
WRONG_LENGTH, WRONG_PADDING = bytes.fromhex("f5010003"), bytes.fromhex("f5010005ff000001")      # 4, and 5

LAST = [(MAC,), (LONG_MAC,), (EMPTY_MAC,), (OTHER, MAC), (OTHER, OTHER, LONG_MAC), (EMPTY, EMPTY_MAC)]
NO_MAC = [(extension(kind, b""), OTHER) for kind in (0x02F5, 0x1202, 0xF500, 0xF503)]
NOT_LAST = [(MAC, OTHER), (LONG_MAC, OTHER), (EMPTY_MAC, EMPTY), (OTHER, MAC, OTHER), (MAC, OTHER, OTHER), (MAC, EMPTY),
            (MAC, MAC), (MAC, OTHER, MAC), (OTHER, LONG_MAC, LONG_MAC), (EMPTY_MAC, EMPTY_MAC)]
WRONG = [(MAC, WRONG_LENGTH), (MAC, WRONG_PADDING), (MAC, WRONG_PADDING, WRONG_LENGTH), (MAC, WRONG_LENGTH, WRONG_PADDING),
         (MAC, OTHER, WRONG_LENGTH), (MAC, OTHER, WRONG_PADDING), (MAC, MAC, WRONG_PADDING), (WRONG_LENGTH, MAC, OTHER),
         (WRONG_PADDING, MAC, MAC), (MAC, bytes.fromhex("f5010008")), (bytes.fromhex("f5020003"),),
         (bytes.fromhex("f5020005ff000001"), MAC), (bytes.fromhex("f5020010"), MAC)]


def sounding(lines):
    for mode, name in ((3, "Requests"), (4, "Responses")):
        head = bytes([5 * 8 + mode]) + bytes(47)
        lines.group(f"{name} with a MAC: alone, last; types like it; not last or twice, 13; a wrong field beside it, 4 or 5")
        for fields in LAST + NO_MAC + NOT_LAST + WRONG:
            lines.add(f"sound {mode} {text_of(head + b''.join(fields))}")
    lines.group("1, 2 and 3 come before 13, and the header is read whatever stands after a MAC")
    after = bytes([0x2B]) + bytes(47) + MAC + OTHER
    for datagram in (after[:-2], bytes([0x23]) + after[1:], bytes([0x2C]) + after[1:]):
        lines.add(f"sound 3 {text_of(datagram)}")
    lines.add(f"header 7 3 {text_of(after)}")


def receiving(lines):
    taken = chunk(b"\x11" * 16)
    lines.fresh("Receive with a MAC: 13 after 6, 7 and 5, before 9 and 10, uses no request up; last, its chunk is "
                f"{lines.outcome}", (6, 0, 16))
    lines.receive(6, 0, lines.response(1, MAC, taken))
    lines.receive(7, 40, lines.response(1, MAC, taken))
    lines.receive(6, 40, lines.response(1, MAC, taken))
    lines.poll(6, 1, "00*100")
    lines.add("sent 6 10")
    lines.receive(6, 40, lines.response(1, MAC, taken))
    for fields in NOT_LAST + WRONG:
        lines.receive(6, 40, lines.response(1, taken, *fields))
    for values in ({"client_cookie": 2}, {"flags": lines.flag}):
        lines.receive(6, 40, lines.response(1, MAC, taken, **values))
        lines.receive(6, 40, lines.response(1, taken, MAC, **values))
    lines.receive(6, 40, lines.response(1, taken, LONG_MAC))
    for cookie, fields in enumerate(LAST + NO_MAC, 2):
        lines.poll(6, cookie, "00*100")
        lines.receive(6, 40, lines.response(cookie, taken, *fields))


def answering(lines):
    lines.group("Answers to requests with a MAC at their end: padding in its place, as for any unknown field", 1)
    information = extension(INFORMATION, bytes(4))
    for last in (MAC, LONG_MAC, EMPTY_MAC, extension(0x1234, bytes(21))):
        lines.answer(lines.request(last))
        lines.answer(lines.request(asked(16, 32), information, last))
    lines.group("Answer with a MAC: 13 after 6 and 5, before 8 and 11; the store is kept", 2)
    lines.answer(lines.wanted(), fresh=7)
    lines.report(7, 1100)
    after = lines.wanted(7) + MAC + information
    lines.answer(after, receive=0, fresh=8)
    for fields in NOT_LAST + WRONG:
        lines.answer(lines.wanted(7) + b"".join(fields), fresh=8)
    for fresh in (0, 7):
        lines.answer(after, fresh=fresh, lent=b"")
    lines.answer(lines.wanted(7) + information + MAC, fresh=0)
    lines.report(9, 0)
    lines.answer(lines.wanted(7) + information + MAC, fresh=8)


def mac_lines():
    """The whole part."""
    lines, answers = Lines(), ResponderLines()
    sounding(lines)
    receiving(lines)
    answering(answers)
    return lines.made + answers.made
