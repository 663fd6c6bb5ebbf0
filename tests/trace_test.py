#!/usr/bin/env python3
"""Shows that tools/trace.py refuses what it is for: small wrong pages and citations, and right ones."""
import sys
import unittest

from counted import counted     # the first: it lets tools/ be imported from
import trace


RULES_PAGE = """
# Rules
## A: first
| no. | rule |
|---|---|
| A-1 | One. |
| A-3 | Three. |
## W205: a request
| no. | rule |
|---|---|
| W205-1 | More. |
"""
MAP_PAGE = """
## A: first
| rule | definition | promise or theorem | edit or test |
|---|---|---|---|
| A-1 | a | b | c |
| A-3 | a | b | c |
## W205: a request
| W205-1 | a | b | c |
"""
NUMBERS = ["A-1", "A-3", "W205-1"]


class Trace(unittest.TestCase):
    def refused(self, part, faults):
        self.assertTrue(any(part in fault for fault in faults), f"{part!r} is not in {faults}")

    def test_right_ones(self):
        self.assertEqual(trace.rule_faults(RULES_PAGE), (NUMBERS, []))
        self.assertEqual(trace.map_faults(MAP_PAGE, NUMBERS), [])

    def test_rules(self):
        for part, old, new in (
            ("not a row", "| A-3 | Three. |", "| A-3 | |"),
            ("not a row", "| A-3 | Three. |", "| A3 | Three. |"),
            ("not a row", "| A-3 | Three. |", "| A-3 | Three. | 3 |"),
            ("not stand in its section", "A-3", "B-3"),
            ("not stand in its section", "## W205: a request", "## More"),
            ("does not rise", "A-3", "A-1"),
        ):
            self.refused(part, trace.rule_faults(RULES_PAGE.replace(old, new))[1])
        self.refused("no rules", trace.rule_faults("# Rules\n")[1])

    def test_rows(self):
        row = "| A-3 | a | b | c |\n"
        for part, old, new in (
            ("no row for A-3", row, ""),
            ("no row for A-3", row, "| A-3: three | a | b | c |\n"),
            ("A-4 is no rule", row, row + row.replace("A-3", "A-4")),
            ("second row for A-3", row, row + row),
            ("not a row", row, "| A-3 | a | | c |\n"),
        ):
            self.refused(part, trace.map_faults(MAP_PAGE.replace(old, new), NUMBERS))
        exchanged = MAP_PAGE.replace("A-1", "A").replace("A-3", "A-1").replace("| A |", "| A-3 |")
        self.refused("A-1 does not stand where", trace.map_faults(exchanged, NUMBERS))

    def test_names(self):
        claimed = {"header/proofs/RoundTrip.antt:read-written"}
        for name in ("header/proofs/RoundTrip.antt:read-written", "docs/RULES.md", "header/specs/Header.antt:header_of"):
            self.assertEqual(trace.name_faults(f"`{name}`", claimed), ({name}, []))
        for part, text in (
            ("no file", "`header/specs/None.antt`"),
            ("does not define", "`header/specs/Header.antt:none`"),
            ("not among", "`header/proofs/RoundTrip.antt:written_read`"),
            ("can't be looked up", "`docs/RULES.md:Rules`"),
            ("without its pair", "`docs/RULES.md"),
        ):
            self.refused(part, trace.name_faults(text, claimed)[1])

    def test_citations(self):
        text = "UTF-8, W-205, T2-T1, x-A-1, (A-1), A-3: W205-1."
        self.assertEqual(trace.citation_faults("file", text, NUMBERS), (set(NUMBERS), []))
        for gone in ("A-2", "W206-1", "C-12"):
            self.refused(f"file: {gone} is no rule", trace.citation_faults("file", f"see {gone}.", NUMBERS)[1])

    def test_patches(self):
        patch = "--- a/docs/RULES.md\n+++ b/docs/RULES.md\n+| A-2 | Two, not A-4. |\ndiff --git a/b b/b\n+++ b/b\n+| A-5 | see A-2, A-1 |\n"
        _, faults = trace.citation_faults("docs/some.patch", patch, NUMBERS)
        self.assertEqual(faults, [f"docs/some.patch: {number} is no rule of docs/RULES.md" for number in ("A-4", "A-5")])
        self.refused("A-2 is no rule", trace.citation_faults("docs/some.md", patch, NUMBERS)[1])

    def test_edits(self):
        self.assertEqual(trace.idle_faults("`state/not_capped`, `crates/state`, `crates/NONE`"), [])
        self.refused("no edit state/none", trace.idle_faults("`state/not_capped`, `state/none`"))
        self.refused("no edits", trace.idle_faults("`crates/state`"))

    def test_every_text_is_read(self):
        paths = {path for path, _ in trace.texts()}
        for path in ("README.md", "include/ntp5.h", "crates/chain/specs/Chain.antt", "docs/RULES.md", "docs/TRACE.md", "tools/gate"):
            self.assertIn(path, paths)


if __name__ == "__main__":
    sys.exit(counted("the check of rules, rows and citations"))
