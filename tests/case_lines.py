"""What the makers of case files share: responses, filters, and lines of calls on the client's table, in either edition."""
from cases_model import text_of
from page_model import FILTER_RESPONSE, INTERLEAVED, add, extension, write_header

WHOLE = {"leap": 0, "mode": 4, "stratum": 1, "poll": 6, "precision": -20, "timescale": 0, "era": 0, "flags": 0,
         "timescale_offset": 0, "root_delay": 0, "root_dispersion": 0, "server_cookie": 0, "client_cookie": 0, "receive": 20,
         "transmit": 30}
OWN_ID = bytes.fromhex("0102030405060708090a0b0c0d0e0f")
OTHER_ID = bytes.fromhex("f0e1d2c3b4a5968778695a4b3c2d1e")


def response(cookie, *fields, edition=7, **values):
    """A response to the request with this client cookie."""
    refusal, header = write_header(edition, {**WHOLE, "client_cookie": cookie, **values}, bytes(48))
    assert not refusal
    return header + b"".join(fields)


def chunk(octets):
    return extension(FILTER_RESPONSE, octets)


def filter_of(*identifiers):
    made = bytes(512)
    for identifier in identifiers:
        _, made = add(made, identifier)
    return made


class Edition:
    """The lines so far, and what their calls take from the edition that they name."""

    def __init__(self, edition=7):
        self.made, self.edition = [], edition
        self.flag = INTERLEAVED[edition]        # for interleaved
        self.all_flags = 0xFF if edition == 1 else 0xFFFF
        self.outcome = "absent" if edition == 1 else "taken"       # of a chunk of the right size
        self.subject = "" if edition == 7 else f"Edition {edition}. "

    def group(self, comment):
        self.made += ["", f"# {self.subject}{comment}"]


class Lines(Edition):
    """Calls on the client's table; each method writes one."""

    def add(self, text):
        self.made += text.strip("\n").split("\n")

    def open(self, association, timescale, size, edition=None):
        edition = self.edition if edition is None else edition
        self.add(f"open {association} {edition} {timescale} {size}")

    def fresh(self, comment, *opened):
        """A group on a cleared table with these associations open: number, timescale and chunk size of each."""
        self.group(comment)
        self.add("clear")
        for association in opened:
            self.open(*association)

    def response(self, cookie, *fields, **values):
        return response(cookie, *fields, edition=self.edition, **values)

    def poll(self, association, cookie, lent, mode="basic", exponent=6):
        self.add(f"poll {association} {cookie} {exponent} {mode} {lent}")

    def receive(self, association, t4, datagram):
        self.add(f"receive {association} {t4} {text_of(datagram)}")

    def verdict(self, association, identifier):
        self.add(f"verdict {association} {text_of(identifier)}")

    def publish(self, selected, identifier, lent):
        self.add(f"publish {selected:#x} {text_of(identifier)} {lent}")


def exchange(lines, association, cookie, t1, t4, datagram, mode="basic", size=16):
    """A poll, its send (none for T1 0), and its answer."""
    lines.poll(association, cookie, f"00*{84 + size}", mode)
    if t1:
        lines.add(f"sent {association} {t1}")
    lines.receive(association, t4, datagram)
