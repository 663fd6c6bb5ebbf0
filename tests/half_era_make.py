"""The part of the case file for W206-3 to W206-7: responses whose times are half an era apart, on the client's table."""
from case_lines import OWN_ID, Lines, chunk, exchange

HALF_ERA = 2 ** 63
HALF_ERA_APART = [(1, HALF_ERA + 1, HALF_ERA + 3, 5), (1, HALF_ERA + 3, HALF_ERA + 5, 5), (1, 3, 5, HALF_ERA + 1),
                  (1, 3, HALF_ERA + 3, 9)]      # T2 - T1 alone, T3 - T4, T4 - T1, T3 - T2


def half_era_lines(edition=7):
    """The whole part."""
    lines = Lines(edition)
    lines.fresh(f"Half an era apart, judgement 5, basic: each of the four differences alone, the chunk {lines.outcome}", (7, 0, 128))
    for cookie, (t1, t2, t3, t4) in enumerate(HALF_ERA_APART, 1):
        exchange(lines, 7, cookie, t1, t4, lines.response(cookie, chunk(bytes([cookie]) * 128), receive=t2, transmit=t3), size=128)
    lines.receive(7, 9, lines.response(4))
    lines.publish(0x80, OWN_ID, "00*512")

    lines.group("The same interleaved: the response before was saved, and the one judged 5 is saved too")
    for cookie, (t1, t2, t3, t4) in enumerate(HALF_ERA_APART, 1):
        before, after = 10 * cookie, 10 * cookie + 1
        exchange(lines, 7, before, t1, t4, lines.response(before, receive=t2, transmit=t2, server_cookie=before), size=128)
        exchange(lines, 7, after, 21, 27, lines.response(after, flags=lines.flag, receive=23, transmit=t3, server_cookie=after),
                 "interleaved", size=128)
    exchange(lines, 7, 50, 0, 60, lines.response(50, flags=lines.flag, transmit=25), "interleaved", size=128)

    lines.group("1 to 4 come before 5, and this exchange's own times do not count in an interleaved one")
    ends = {"receive": HALF_ERA + 1, "transmit": HALF_ERA + 1}
    for cookie, (t1, values) in enumerate([(1, {"leap": 3}), (1, {"stratum": 0}), (1, {"timescale": 1}), (0, {}), (1, {})], 60):
        exchange(lines, 7, cookie, t1, 1, lines.response(cookie, **{**ends, **values}), size=128)
    exchange(lines, 7, 70, 21, 27, lines.response(70, receive=23, transmit=25, server_cookie=70), size=128)
    exchange(lines, 7, 71, 1, 1, lines.response(71, flags=lines.flag, receive=HALF_ERA + 1, transmit=25), "interleaved", size=128)
    return lines.made
