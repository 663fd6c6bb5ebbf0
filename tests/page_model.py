"""What the requirements (docs/RULES.md, H, F, B, T and W204 to W206) say of single calls: each answer from its arguments alone.

Plain Python, written from the requirements, and from nothing of the Rattle code:
octet strings are `bytes`, numbers are whole numbers without a width.
"""


DRAFT_NAME = b"draft-mlichvar-ntp-ntpv5-07"
PADDING, MAC, FILTER_REQUEST, FILTER_RESPONSE, INFORMATION, DRAFT = 0xF501, 0xF502, 0xF503, 0xF504, 0xF505, 0xF5FF
INTERLEAVED = {1: 0x4, 7: 0x2}      # the flag of each edition

# A header's fields in order, by edition: name, bits, whether signed. Octet 0 and the octets from 8 on are the same in both.
OCTET_0 = [("leap", 2, False), ("version", 3, False), ("mode", 3, False)]
FROM_OCTET_8 = [("root_delay", 32, False), ("root_dispersion", 32, False), ("server_cookie", 64, False),
                ("client_cookie", 64, False), ("receive", 64, False), ("transmit", 64, False)]
LAYOUTS = {
    1: OCTET_0 + [("timescale", 4, False), ("stratum", 4, False), ("poll", 8, True), ("precision", 8, True),
                  ("flags", 8, False), ("era", 8, False), ("timescale_offset", 16, True)] + FROM_OCTET_8,
    7: OCTET_0 + [("stratum", 8, False), ("poll", 8, True), ("precision", 8, True), ("timescale", 8, False),
                  ("era", 8, False), ("flags", 16, False)] + FROM_OCTET_8,
}


def number(octets):
    """Network order: the highest octet first."""
    return int.from_bytes(octets, "big")


def header_refusal(datagram, wanted_mode):
    """N-1 to N-3, in this order; 0 where none applies."""
    if not 48 <= len(datagram) <= 1280 or len(datagram) % 4 != 0:
        return 1
    if datagram[0] // 8 % 8 != 5:
        return 2
    if datagram[0] % 8 != wanted_mode:
        return 3
    return 0


def chain_refusal(datagram):
    """N-4 and N-5, in the order of N-26."""
    at = 48
    while at < len(datagram):
        length = number(datagram[at + 2:at + 4])
        padded = (length + 3) // 4 * 4
        if length < 4 or at + padded > len(datagram):
            return 4
        if any(datagram[at + length:at + padded]):
            return 5
        at += padded
    return 0


def fields(datagram):
    """The fields of a datagram without refusals 1 to 5, from the left: each a type and its data."""
    at = 48
    while at < len(datagram):
        length = number(datagram[at + 2:at + 4])
        yield number(datagram[at:at + 2]), datagram[at + 4:at + length]
        at += (length + 3) // 4 * 4


def mac_refusal(datagram):
    """W205-4, of a datagram without refusals 1 to 5: a field that is not the last is a MAC."""
    kinds = [kind for kind, _ in fields(datagram)]
    return 13 if MAC in kinds[:-1] else 0


def sound(datagram, wanted_mode):
    return header_refusal(datagram, wanted_mode) or chain_refusal(datagram) or mac_refusal(datagram)


def extension(kind, data):
    """A field with its padding; the length does not count the padding."""
    length = 4 + len(data)
    return kind.to_bytes(2, "big") + length.to_bytes(2, "big") + data + bytes(-length % 4)


def read_refusal(edition, datagram, wanted_mode):
    """Reading a header: 6 for another edition (W204-1), then N-1 to N-3."""
    return header_refusal(datagram, wanted_mode) if edition in LAYOUTS else 6


def read_header(edition, datagram):
    """All fields by name; edition 7 has no timescale offset, and it reads as 0 (W204-3)."""
    values, bits = {"timescale_offset": 0}, "".join(f"{octet:08b}" for octet in datagram[:48])
    for name, size, signed in LAYOUTS[edition]:
        value, bits = int(bits[:size], 2), bits[size:]
        values[name] = value - 2 ** size if signed and value >= 2 ** (size - 1) else value
    return values


def fits(edition, values):
    """W204-1, W204-5 and the leap of N-7: whether the edition is one, and its header has the bits for these numbers."""
    return edition in LAYOUTS and all(
        0 <= values[name] + (2 ** (size - 1) if signed else 0) < 2 ** size
        for name, size, signed in LAYOUTS[edition] if name in values)


def write_header(edition, values, output):
    """6, then N-23; octets past the header stay (N-29), and all of them on a refusal."""
    if not fits(edition, values) or values["mode"] not in (3, 4):
        return 6, output
    if len(output) < 48:
        return 11, output
    written = {**values, "version": 5}
    bits = "".join(f"{written[name] % 2 ** size:0{size}b}" for name, size, _ in LAYOUTS[edition])
    return 0, int(bits, 2).to_bytes(48, "big") + output[48:]


def positions(identifier):
    """B-2: ten numbers of twelve bits, highest first."""
    bits = "".join(f"{octet:08b}" for octet in identifier)
    return [int(bits[i:i + 12], 2) for i in range(0, 120, 12)]


def add(filter_octets, identifier):
    if len(filter_octets) != 512 or len(identifier) != 15:
        return 6, filter_octets
    octets = bytearray(filter_octets)
    for p in positions(identifier):
        octets[p // 8] |= 2 ** (p % 8)
    return 0, bytes(octets)


def union(into, other):
    if len(into) != 512 or len(other) != 512:
        return 6, into
    return 0, bytes(a | b for a, b in zip(into, other))


def weight(filter_octets):
    if len(filter_octets) != 512:
        return 6, 0
    return 0, sum(bin(octet).count("1") for octet in filter_octets)


def difference(a, b):
    """T-3, T-4: None for 2^63, half an era, which has no sign (W206-1)."""
    d = (a - b) % 2 ** 64
    if d == 2 ** 63:
        return None
    return d - 2 ** 64 if d > 2 ** 63 else d


def measure(t1, t2, t3, t4):
    """Judgement 0 with offset and delay (T-6, T-7), or 5 and zeros (W206-3, W206-7)."""
    outward, back, whole, inside = difference(t2, t1), difference(t3, t4), difference(t4, t1), difference(t3, t2)
    if None in (outward, back, whole, inside):
        return 5, 0, 0
    return 0, (outward + back) // 2, abs(whole - inside)       # // rounds toward minus infinity
