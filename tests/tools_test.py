#!/usr/bin/env python3
"""Shows that tools/contracts.py, claims.py, verdicts.py and refused_by_fact.py refuse what they are for: each gets small wrong texts,
and right ones.

Without it a check that refuses nothing any more would go unnoticed.
"""
import contextlib
import io
import sys
import unittest

from counted import counted     # the first: it lets tools/ be imported from
import claims
import contracts
import refused_by_fact
import verdicts

RULES = {"crates/own/specs/Rules.antt": {"cleared", "size_of", "twice"}, "crates/below/specs/Base.antt": {"base"}}
USES = """
ghost use Rattle.std.specs.Prelude.{◌≡◌, ◌+◌, IfOk};
ghost use Rattle.own.specs.Rules.{cleared, size_of, twice};
ghost use Rattle.below.specs.Base.{base};
ghost use Rattle.below.specs.Lost.{lost};
"""
CLEAR = "pub fn clear(store: &mut [u8], max_len: usize) -> u8"
RIGHT = "(result, store.new) ≡ cleared store.old max_len"


def status(tool, *given):
    """A tool's exit status, without what it prints."""
    with contextlib.redirect_stdout(io.StringIO()):
        return tool.verdict(*given)


def contract_faults(signature, ensures, uses=USES):
    clause = f"    ensures {{ {ensures} }}\n" if ensures else ""
    text = f"{uses}\n{signature}\n{clause}{{\n    0\n}}\n"
    [(_, found)] = contracts.faults(text, lambda file: RULES.get(file, set()))
    return found


class Contracts(unittest.TestCase):
    def refused(self, part, signature, ensures, uses=USES):
        found = contract_faults(signature, ensures, uses)
        self.assertTrue(any(part in fault for fault in found), f"{part!r} is not in {found}")

    def test_right_ones(self):
        for signature, ensures in (
            (CLEAR, RIGHT),
            (CLEAR, RIGHT.replace("max_len", "«max_len»")),
            ("pub fn size() -> usize", "result ≡ size_of"),
            ("pub fn low(s: &[u8]) -> u8", "result ≡ (base s.now).0"),
            ("pub fn part(s: &[u8]) -> &[u8]", "result.now ≡ base s.now"),
            ('pub extern "C" fn put(s: &mut [u8], v: u8)', "s.new ≡ twice (record { v = v; old = s.old })"),
            ("pub fn mode(b: bool) -> Mode", "twice result ≡ b"),
            ("pub fn read(s: &[u8]) -> u8", "(t : ℕ) → twice result t ≡ base s.now t"),
            ("pub fn step(self, n: u8) -> u8", "result ≡ (twice self.at n)"),
            ("pub fn kind(record: Kind) -> u8", "result ≡ twice «record»"),
            ("pub const fn any<T: Into<u8>, F: Fn(u8) -> u8>(t: T, f: F) -> u8\n    where T: Copy", "result ≡ twice t f"),
        ):
            self.assertEqual(contract_faults(signature, ensures), [], signature)

    def test_form(self):
        self.refused("0 `ensures`", CLEAR, "")
        self.refused("2 `ensures`", CLEAR + "\n    ensures { " + RIGHT + " }", RIGHT)
        self.refused("at its top level", CLEAR, "⊤")
        self.refused("at its top level", CLEAR, "base result")
        self.refused("at its top level", CLEAR, "result ≡ 0 → " + RIGHT)
        self.refused("at its top level", CLEAR, "(result ≡ 0) ⊎ (result ≡ 1)")
        self.refused("2 equations", CLEAR, "(result ≡ 0) × (result ≡ 1)")
        self.refused("at its top level", CLEAR, "(result ≡ cleared")
        self.refused("binds a name", CLEAR, "result ≡ cleared (λ store. store)")
        self.refused("a name already", CLEAR, "(max_len : ℕ) → " + RIGHT)
        self.refused("a name already", CLEAR, "(twice : ℕ) → " + RIGHT)
        self.refused("does not name its result", CLEAR, "(t : ℕ) → " + RIGHT.replace("result", "t"))
        for condition in ("(h : ⊥)", "(h : 1 ≡ 2)", "(h : result ≡ 0)", "(h : List ⊥)"):
            self.refused("at its top level", CLEAR, f"{condition} → {RIGHT}")
        self.refused("`requires`", CLEAR + "\n    requires { ⊤ }", RIGHT)
        self.refused("`requires*`", CLEAR + "\n    requires* { emp }", RIGHT)
        self.refused("`ensures*`", CLEAR + "\n    ensures* { emp }", RIGHT)
        self.refused("`ghost`", CLEAR + "\n    ghost max_len: { ℕ }", RIGHT)
        self.refused("can't be read", CLEAR, RIGHT + " }\n    promises { ⊤")

    def test_conversions(self):
        impl = USES + "impl From<Option<u8>> for Answer {\n    ghost from_gives = { λ n r. SAID };\n}\n"
        right = "r ≡ twice n"

        def found(text):
            [(name, faults)] = contracts.faults(text, lambda file: RULES.get(file, set()))
            self.assertTrue(name.endswith("From for Answer"), name)
            return faults

        for said in (right, "(t : ℕ) → twice r t ≡ base n", "(r ≡ twice n) × (base r ≡ twice n)"):
            self.assertEqual(found(impl.replace("SAID", said)), [], said)
        for said in ("r ≡ r", "n ≡ n", "(n ≡ n) ⊎ (r ≡ twice n)", "⊤", "r ≡ twice r", "r ≡ n", "(h : ⊥) → r ≡ twice n", "(n : ℕ) → r ≡ twice n",
                     "r ≡ twice (λ n. n)"):
            self.assertNotEqual(found(impl.replace("SAID", said)), [], said)
        for text in (impl.replace("from_gives", "gives"), impl.replace("From", "TryFrom"), impl.replace("λ n r.", "gives n r")):
            self.assertNotEqual(found(text.replace("SAID", right)), [], text)

    def test_methods(self):
        trait = "pub trait Number: Copy {\n    const TEXT: &'static str = \"{\";\n\n    ghost WIDTH: { ℕ };\n\n    fn read(s: &[u8; 8], at: usize) -> [u8; 2]CLAUSE\n" \
                "        ensures { base result ≡ twice s.now at };\n\n    fn zero() -> Self {\n        f(|x| requires { ⊤ } { x })\n    }\n\n" \
                "    ghost zero_is: { base requires ≡ 0 };\n}\n"

        def found(text):
            return list(contracts.faults(USES + text, lambda file: RULES.get(file, set())))

        self.assertEqual(found(trait.replace("CLAUSE", "")), [])
        self.assertEqual(found(trait.replace("CLAUSE", " // requires { ⊤ }")), [])
        for clause, kind in (("\n        requires { at ≤ 6 }", "requires"), (" requires room { at ≤ 6 }", "requires"), (" requires* { emp }", "requires*")):
            asking = trait.replace("CLAUSE", clause)
            self.assertEqual(found(asking), [("Number::read", [f"has a `{kind}`"])])
            self.assertEqual(found(asking.replace("pub trait", "pub unsafe trait")), [("Number::read", [f"has a `{kind}`"])])
            self.assertEqual(found(asking.replace("pub trait", "trait")), [])

    def test_comments_are_no_contract(self):
        self.refused("0 `ensures`", CLEAR + "\n    /*\n    ensures { " + RIGHT + " }\n    */", "")
        self.refused("does not name its result", CLEAR, RIGHT.replace("(result, store.new)", "store.new {- result -}"))

    def test_operators(self):
        other = USES.replace("Rattle.std.specs.Prelude.{◌≡◌, ", "Rattle.own.specs.Rules.{◌≡◌, ")
        self.refused("an `≡` that is not the library's", CLEAR, RIGHT, other)
        self.refused("an `+` that is not the library's", CLEAR, RIGHT.replace("max_len", "(max_len + 1)"), other)
        self.refused("at its top level", CLEAR, RIGHT + " or tt", USES + "ghost use lib.Or.{◌or◌};\n")

    def test_same_sides(self):
        self.refused("same text on both sides", "pub fn f() -> u8", "result ≡  result")
        self.refused("same text on both sides", "pub fn f(x: u8) -> u8", "twice result x ≡ (twice result\n  x)")
        self.refused("on both sides", "pub fn f(x: u8) -> u8", "twice result x ≡ base result x")

    def test_result_lost(self):
        self.refused("does not name its result", CLEAR, RIGHT.replace("(result, store.new)", "store.new"))
        self.refused("does not name its result", "pub fn f(s: &mut u8) -> io::Result<()>", "s.new ≡ twice s.old")
        self.refused("does not name its result", "pub fn f(x: u8) -> Pair", "record { result = x } ≡ twice x")
        self.refused("as its parameter `result`", "pub fn f(result: u8) -> u8", "result ≡ twice 0")
        other = USES + "ghost use Rattle.own.specs.Rules.{cleared as result};\n"
        self.refused("what it brings, `result`", "pub fn f(x: u8) -> u8", "result ≡ twice x", other)

    def test_success_alone(self):
        fn, said = "pub fn f(x: u8) -> io::Result<u8>", "IfOk result (λ r. r ≡ twice x)"
        self.assertEqual(contract_faults(fn, said), [contracts.PARTLY])
        other = USES.replace(", IfOk", "") + "ghost use Rattle.own.specs.Rules.{IfOk};\n"
        self.refused("an `IfOk` that is not the library's", fn, said, other)
        self.refused("does not name its result", fn, said.replace("r ≡", "size_of ≡"))
        self.refused("parameter `x`", fn, said.replace("twice x", "twice 0"))
        self.refused("none is a definition", fn, said.replace("twice x", "x"))
        self.refused("as its parameter `x`", fn, said.replace("λ r. r", "λ x. x"))
        self.refused("what is left of `s`", "pub fn f(s: &mut u8) -> io::Result<u8>", said.replace("twice x", "twice s.old"))
        self.refused("2 equations", fn, said.replace("twice x", "twice x × (r ≡ 0)"))
        self.refused("at its top level", fn, "IfOk result (twice x)")
        for old, new in (("r ≡", "result ≡"), ("x)", "x) × ⊤"), ("x)", "x) (x)"), ("IfOk", "IfErr")):
            self.refused("at its top level", fn, said.replace(old, new))

    def test_exit_lost(self):
        self.refused("what is left of `store`", CLEAR, RIGHT.replace(".new", ".old"))
        self.refused("what is left of `store`", CLEAR, RIGHT.replace(".new", ".exit"))
        both = "pub fn f<'a>(a: &mut [u8], b: &'a mut [u8])"
        self.refused("what is left of `b`", both, "a.new ≡ base b.old")

    def test_parameter_lost(self):
        self.refused("parameter `max_len`", CLEAR, RIGHT.replace("max_len", "8"))
        self.refused("parameter `record`", "pub fn f(record: u8) -> u8", "result ≡ twice record")
        self.refused("parameter `b`", "pub fn f(a: [u8; 4], b: u8) -> u8", "result ≡ twice (record { b = a })")
        self.refused("parameter `b`", "pub fn f<T>(a: T, b: u8) -> u8 where T: Copy", "result ≡ twice a")

    def test_no_definition(self):
        for sides in ("result ≡ x", "result ≡ other x", "result ≡ lost x", "result ≡ 1 + twice x", "result ≡ () x",
                      "(result, 0) ≡ (twice x, 0)", "result ≡ (twice x, 0).0"):
            self.refused("none is a definition", "pub fn f(x: u8) -> u8", sides)
        self.refused("none is a definition", "pub fn f(twice: u8) -> u8", "result ≡ twice")
        elsewhere = (USES.replace("Rattle.own.specs", place) for place in ("Rattle.below.specs", "Rattle.own.proofs", "Rattle.own.specs.specs"))
        for uses in (*elsewhere, USES + "ghost use lib.Two.{twice};\n"):
            self.refused("none is a definition", "pub fn f(x: u8) -> u8", "result ≡ twice x", uses)

    def test_definitions(self):
        text = "abbrev pub f : ℕ → ℕ\nf n = n\n\nown : ℕ\n\npub record R : Type 0 where\n  pub g : ℕ\n\npub data D : Type 0 where\n  c : D\n"
        self.assertEqual(contracts.defined(text), {"f"})

    def test_exemptions(self):
        self.assertEqual(list(contracts.unexempted(["a"], {"a"})), [])
        self.assertEqual(list(contracts.unexempted(["a", "b"], {"a"})), ["b"])
        self.assertEqual(len(list(contracts.unexempted([], {"a"}))), 1)

    def test_status(self):
        seen = list(contracts.EXEMPT)
        self.assertEqual(status(contracts, seen, []), 0)
        self.assertEqual(status(contracts, seen, ["a fault"]), 1)
        self.assertEqual(status(contracts, seen[1:], []), 1)
        self.assertEqual(status(contracts, [], []), 1)


SPECS = """-- the claim
abbrev pub Once : Type 0
Once = (n : ℕ) → n ≡ n

pub record Both : Type 0 where
  pub left : Once

pub record With (n : ℕ) : Type 0 where
  pub left : Once
"""
PROOFS = """use Rattle.std.proofs.Common.{refl}
use Rattle.own.specs.Rules.{With, Once}

module _ (n : ℕ) where
  pub step : n ≡ n
  step = refl

-- the proof
pub once-only : Once
unfolding Once
  With
once-only (n) = let k : ℕ = n in record {
  left = refl;
}
"""
ROW = "| `own/specs/Rules.antt:Once` | Once. | `own/proofs/Law.antt:once-only` |\n"
BOTH = "| `own/specs/Rules.antt:Both` | Both. |\n"
PAGE = "# Claims\n\n| claim | says | proof |\n|---|---|---|\n" + ROW + "\n## Types\n\n| type | what it is |\n|---|---|\n" + BOTH
FILES = {
    "crates/own/specs/Lib.antt": "-- root\npub mod Rules\n",
    "crates/own/specs/Rules.antt": SPECS,
    "crates/own/proofs/Lib.antt": "mod Law\n",
    "crates/own/proofs/Law.antt": PROOFS,
}


def claim_faults(page=PAGE, crates="# NAME: uses\nown: below\n", **texts):
    """What is wrong where `texts` stand in place of the files above."""
    names = {"specs": "specs/Rules", "proofs": "proofs/Law", "specs_root": "specs/Lib", "proofs_root": "proofs/Lib"}
    files = FILES | {f"crates/own/{names[name]}.antt": text for name, text in texts.items()}
    return claims.faults(page, claims.Repository(files, claims.listed_crates(crates)))


class Claims(unittest.TestCase):
    def refused(self, part, **given):
        _, found = claim_faults(**given)
        self.assertTrue(any(part in fault for fault in found), f"{part!r} is not in {found}")

    def test_right_ones(self):
        self.assertEqual(claim_faults(), (1, []))
        self.assertEqual(claim_faults(crates="own staticlib: below\n"), (1, []))
        self.assertEqual(claim_faults(specs=SPECS.replace("abbrev", "unfoldable")), (1, []))
        self.assertEqual(claim_faults(proofs=PROOFS.replace("With, Once}", "With,\n  Once,\n}")), (1, []))
        both = PROOFS.replace("{With, Once}", "{Both, Once}").replace("only : Once", "only : Both")
        page = PAGE.replace(BOTH, "").replace("Rules.antt:Once", "Rules.antt:Both") + "| `own/specs/Rules.antt:Once` | A type. |\n"
        self.assertEqual(claim_faults(page, proofs=both), (1, []))

    def test_claim_is_closed(self):
        for wrong in ("abbrev pub Once : ℕ → Type 0", "abbrev pub Once {ℓ} : Type 0", "pub Once : Type 0",
                      "abbrev pub Once : Type 0\n  → Type 0", "pub record Once (n : ℕ) : Type 0 where",
                      "-- abbrev pub Once : Type 0", "{-\nabbrev pub Once : Type 0\n-}", "pattern abbrev pub Once : Type 0",
                      "abbrev pub «Once» : ℕ → Type 0", "«Once» : ℕ\n«Once» = 0\n\nabbrev pub Once : Type 0"):
            self.refused("as a closed type", specs=SPECS.replace("abbrev pub Once : Type 0", wrong))
        self.refused("as a closed type", specs="module _ (n : ℕ) where\n  " + SPECS.replace("\n", "\n  "))

    def test_proof_has_the_type_alone(self):
        for wrong in ("pub once-only : (n : ℕ) → Once", "pub once-only : Once → Once", "pub once-only : With 0",
                      "pub once-only : Once n", "pub once-only : Once\n    → Once", "pub once-only :\n    ℕ → Once",
                      "pub once-only {ℓ} : Once", "once-only : Once", "axiom pub once-only : Once",
                      "abbrev pub once-only : Once", "-- pub once-only : Once", "{- pub once-only : Once -}",
                      "  pub once-only : Once", "pub once-only : Once\npub once-only : Once", "pub once : Once",
                      "pub once-only : Once\n\nmodule _ (n : ℕ) where\n  pub «once-only» : Once", "pattern abbrev pub once-only : Once"):
            self.refused("and nothing more", proofs=PROOFS.replace("pub once-only : Once", wrong))

    def test_block_has_hypotheses(self):
        use, block = PROOFS.split("\n-- the proof")
        self.refused("and nothing more", proofs=f"{use}\nmodule _ (h : ⊥) where" + block.replace("\n", "\n  "))
        for opening in ("module _ (h : ⊥) where", "module _\n    (h : ⊥) where", "mutual"):
            self.refused("not indented", proofs=PROOFS.replace("\npub once-only", f"\n{opening}\npub once-only"))

    def test_name_means_the_claim(self):
        for wrong in ("Rules.{With}", "Rules.{With, Other as Once}", "Rules.{With, Once as Other}", "Other.{With, Once}",
                      "Rules.{With, «Other» as «Once»}"):
            self.refused("does not bring", proofs=PROOFS.replace("Rules.{With, Once}", wrong))
        for wrong in ("Rattle.other.specs", "Rattle.own.proofs", "other.own.specs", "package.Rattle.own.specs"):
            self.refused("does not bring", proofs=PROOFS.replace("Rattle.own.specs", wrong))
        for wrong in ("Other.{Easy.Once}", "Other.{Easy.{Once}}", "Other.{«Once»}"):
            self.refused("does not bring", proofs=f"use lib.{wrong}\n" + PROOFS)
        for own in ("abbrev Once : Type 0\nOnce = Unit {0}", "«Once» : Type 0\n«Once» = Unit {0}", "record «Once» : Type 0 where"):
            self.refused("of its own", proofs=f"{PROOFS}\n{own}\n")
        for opened in ("open t use {easy as Once}", "open (f t) use {a, b.{\n  Once,\n}}", "pub open t use {«Once»}"):
            self.refused("opens something", proofs=f"{PROOFS}\n{opened}\n")
        for other in ("use lib.Other as Rattle", "mod Rattle", "pub mod Rattle", "open t use {easy as Rattle, other}"):
            self.refused("gives the library's name", proofs=f"{other}\n" + PROOFS)
        for other in ("use lib.Rattle", "use lib.Other as Rattle", "use lib.{Rattle}", "use lib.{Other as «Rattle»}"):
            self.refused("brings something by the library's name", proofs=f"{other}\n" + PROOFS)

    def test_files_are_checked(self):
        self.refused("crates.txt", crates="below:\n# own: below\n")
        self.refused("proofs/Lib.antt does not list", proofs_root="mod Other\n-- mod Law\n")
        self.refused("specs/Lib.antt does not list", specs_root="pub mod Rules2\n")
        self.refused("no file", page=PAGE.replace("Law.antt", "Laws.antt"))

    def test_no_claim_is_left_out(self):
        for more in ("abbrev pub Lost : Type 0\nLost = ⊥\n", "unfoldable pub Lost :\n    Type 0\nLost = ⊥\n", "pub record Lost : Type 0 where\n  pub lost : ⊥\n"):
            self.refused("no row for Lost", specs=SPECS + "\n" + more)
        self.refused("no claims", page=PAGE.replace(ROW, ""))
        self.assertEqual(claim_faults(specs=SPECS + "\nabbrev pub Fits : ℕ → Type 0\nFits n = n ≡ n\n"), (1, []))

    def test_page(self):
        self.refused("not a row", page=PAGE.replace("| claim |", "| claims |"))
        self.refused("not a row", page=PAGE.replace(" Once. |", ""))
        self.refused("a place is not", page=PAGE.replace("own/proofs", "own/specs"))
        self.refused("a place is not", page=PAGE.replace("own/proofs/Law", "own/proofs/once/Law"))
        self.refused("another row", page=PAGE.replace(ROW, ROW + ROW))
        self.assertEqual([status(claims, 1, []), status(claims, 1, ["a fault"])], [0, 1])
        self.refused("no closed type", page=PAGE + "| `own/specs/Rules.antt:Gone` | A type. |\n")


class Refusals(unittest.TestCase):
    FACT = "./specs/Law.antt:3:5: error: `law`: expected type `1 ≡ 2`, but this has type `1 ≡ 1`"

    def test_lines(self):
        says = "refused, as it must be"
        names = "(only because a proof file names what the edit took away, so this says little of the contract): proofs/Law.antt:1:1: error"
        lines = [f"rt: must-fail own/turned.edit: {says}: {self.FACT}", f"rt: must-fail own/lost.edit: {says} {names}",
                 f"rt: must-fail own/silent.edit: {says}", f"must-fail own/other.edit: {says}: {self.FACT}",
                 "rt: must-fail own/proved.edit: NOT REFUSED: the crate is still proved", "rt: must-fail own/bad.edit: BAD EDIT: it changes nothing"]
        self.assertEqual(refused_by_fact.refusals("\n".join(lines)), {"own/turned": self.FACT, "own/lost": names, "own/silent": ""})

    def test_facts(self):
        for error in (self.FACT, "note: src/lib.rt:4:9: it is not proved that what the function ensures holds when it returns (`returns`)"):
            self.assertTrue(refused_by_fact.is_fact(error), error)
        for reason in ("`Goals` has no `returns-in-Some`", "`f`: has no field `size`", "`x` is not in scope", "`law` was not admitted, so this ..",
                       "`f` takes 2 arguments", "`f`: no clause covers 1 case", "`f`: write the clause `f none = ?`"):
            self.assertFalse(refused_by_fact.is_fact(f"proofs/f/Answers.antt:1:1: error: {reason}"), reason)
        for error in ("", "(only because a proof file names what the edit took away): x", "(only by a limit of the prover, which gave no verdict): x"):
            self.assertFalse(refused_by_fact.is_fact(error), error)


class Verdicts(unittest.TestCase):
    RIGHT = "logic=proved functions=3 sum=09af native=nat,char,string logic-built=trusted libraries-built=trusted statements=trusted"
    KEPT = "an earlier run on this machine proved the same files over the same libraries"

    def test_right_ones(self):
        library = self.RIGHT.replace("sum", "target=x86_64-unknown-linux-gnu cpu=x86-64-v2 sum")
        program = library.replace("target", "axioms=33 target")
        tests = program.replace("functions", "tests=2 functions")
        for crate, verdict in (("own", self.RIGHT), ("own_c", library), ("cases", program), ("replay", program), ("own: its tests", tests)):
            self.assertIsNone(verdicts.fault(crate, [verdict]))
        self.assertIsNone(verdicts.fault("own_c", [f"{library} incremental=trusted"], "incremental=trusted"))

    def test_wrong_ones(self):
        self.assertEqual(verdicts.fault("own", []), "0 verdicts")
        self.assertEqual(verdicts.fault("own", [self.RIGHT, self.RIGHT]), "2 verdicts")
        for word in ("axioms=8", "foreign=own::f", "hides=1", "bugs=1", "may-wait=1", "main=Threads", "cache=trusted", "incremental=trusted",
                     "batches=trusted", "pinned=no", "crate-checked=trusted", "cpu=x86-64-v3"):
            self.assertEqual(verdicts.fault("own", [f"{self.RIGHT} {word}"]), f"the verdict has {word}")
        self.assertIn("not-proved", verdicts.fault("own", ["logic=not-proved"]))
        self.assertEqual(verdicts.fault("own", [self.RIGHT.replace("logic=proved ", "")]), "the verdict has no logic=proved")
        self.assertIn("cache", verdicts.fault("own_c", [f"{self.RIGHT} cache=trusted incremental=trusted"], "incremental=trusted"))
        for program in ("cases", "replay"):
            self.assertIn("foreign", verdicts.fault(program, [f"{self.RIGHT} foreign={program}::f"]))

    def test_every_crate(self):
        """Each is proved in the run, with a verdict in its own section, or kept."""
        own, low = f"== own\nfn own::f: proved\n{self.RIGHT}\nrt: own proved\n", f"rt: low is kept: {self.KEPT}\n"
        self.assertEqual(verdicts.verdict_faults(low + own, ["low", "own"]), ([], 1))
        for said, part in ((low, "own: neither proved nor kept"), (own, "low: neither proved nor kept"),
                           (low + own.replace("own proved", "own NOT PROVED"), "own: neither"), (low + own.replace(self.RIGHT, ""), "own: neither"),
                           (low + own + own, "own: 2 verdicts"), (low + own.replace("fn ", f"{self.RIGHT}\nfn "), "own: 2 verdicts"),
                           (low + own.replace("sum", "hides=1 sum"), "own: the verdict has hides=1"),
                           (low + own + f"== own: its tests\n{self.RIGHT} cache=trusted\n", "own: its tests: the verdict has cache=trusted")):
            found, _ = verdicts.verdict_faults(said, ["low", "own"])
            self.assertEqual((len(found), found[0][:len(part)]), (1, part), said)

    def test_counts(self):
        well = "rt: ok; handles allowed: none; must-fail edits: 3 refused; every proof and must-fail edit was done in this run\n"
        self.assertEqual(verdicts.count_faults(well + "5 passed, 0 failed\n", 5, 3), [])
        for said in ("", "5 passed, 0 failed\n", well + "4 passed, 0 failed\n", well + "5 passed, 1 failed\n", well, well * 2 + "5 passed, 0 failed\n",
                     well + "5 passed, 0 failed\nmore\n", well.replace("3 ", "2 ") + "5 passed, 0 failed\n",
                     well.replace("refused;", "refused, 1 bad;") + "5 passed, 0 failed\n",
                     well.replace("refused;", "refused, 1 of them only by a limit;") + "5 passed, 0 failed\n",
                     well + "5 passed, 0 failed (own and the crates below alone: not the gate)\n"):
            self.assertNotEqual(verdicts.count_faults(said, 5, 3), [], said)


if __name__ == "__main__":
    sys.exit(counted("the checks of contracts, claims, verdicts and refusals"))
