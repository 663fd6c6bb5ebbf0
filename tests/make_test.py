#!/usr/bin/env python3
"""Tests the Makefile's targets and what they share, in a small repository with an rt of its own that proves nothing.

A tool that is missing is named before rt is called; the library and the programs are built again exactly when something has changed;
and what is shown while rt works, what is left when it fails, and that nothing is left when it is interrupted; and a replay's trace and
status.
"""
import contextlib
import fcntl
import os
import pathlib
import pty
import re
import shutil
import signal
import struct
import subprocess
import sys
import tempfile
import termios
import threading
import time
import unittest

from counted import counted

TOP = pathlib.Path(__file__).resolve().parent.parent
CRATES = "# NAME: uses\nntp5_c staticlib: ntp5\noctets:\nfilter: octets\nntp5: octets filter\ncases: octets check\nreplay: ntp5\n"
NEEDED = {
    "test": ("gate", "rt python3 cc cargo nm objdump"),
    "demo": ("demo", "rt python3"),
    "replay": ("replay", "rt"),
    "lib": ("lib", "rt"),
    "example": ("example", "rt cc"),
    "host": ("host", "rt cargo cc"),
    "bench": ("bench", "rt cargo cc valgrind"),
    "soak": ("soak", "rt cargo cc"),
    "install": ("install", "rt"),
}
# It says and makes what rt does. HOLD, SAYS, PROGRAM, STATUS: how the line begins before which it waits until the file `go` is there, what
# it says at the end, what the program does that it builds, how it ends.
RT = """#!/bin/sh
say() {
    case "$*" in "${HOLD:-none}"*) : >"$TOP/held"; while [ ! -e "$TOP/go" ]; do sleep 0.1; done ;; esac
    echo "$*"
}
[ "$1" != version ] || { echo "${KIT:-a kit}"; exit; }
echo "${PWD#"$TOP"/}: $*" >>"$CALLS"
crate=${PWD##*/}
if [ "$1" = ci ]; then
    say "rt: octets is kept: an earlier run on this machine proved the same files over the same libraries"
    printf '== ntp5\\nlogic=proved functions=1\\n'
    say "rt: ntp5 proved"
    say "rt: ntp5: trying its must-fail edits (1)"
    say "rt: must-fail ntp5/wrong.edit: refused, as it must be: ./specs/Law.antt:1:1: error: wrong"
else
    mkdir -p out
    for each in octets "$crate"; do
        say "rt: chose --jobs 2 for $each"
        say "logic=proved functions=1"
    done
    case $1 in
    lib) [ "${STATUS:-0}" -ne 0 ] || date +%N >"out/lib$crate.a" ;;
    run) printf '%s\\n' "${PROGRAM:-#!/bin/sh}" >"out/$crate" && chmod +x "out/$crate" && "out/$crate" ;;
    esac
fi
[ -z "${SAYS:-}" ] || say "$SAYS"
exit "${STATUS:-0}"
"""
OWN = {"rt": RT, "cargo": "#!/bin/sh\nexit 1\n", "cc": "#!/bin/sh\nexit 1\n", "valgrind": "#!/bin/sh\nexit 1\n"}
BIN = pathlib.Path(tempfile.mkdtemp())


def setUpModule():
    """A folder with every tool of the PATH, which can be taken away; rt is ours, and compilers do nothing."""
    unittest.addModuleCleanup(shutil.rmtree, BIN)
    tools = {tool.name: tool for folder in reversed(os.get_exec_path()) for tool in pathlib.Path(folder).glob("*")}
    for tool in tools.keys() - set(OWN):
        (BIN / tool).symlink_to(tools[tool])
    for tool, text in OWN.items():
        (BIN / tool).write_text(text)
        (BIN / tool).chmod(0o755)


class Repository(unittest.TestCase):
    """A small repository with this one's Makefile and tools."""

    def setUp(self):
        self.top = pathlib.Path(tempfile.mkdtemp()).resolve()
        self.addCleanup(shutil.rmtree, self.top)
        shutil.copytree(TOP / "tools", self.top / "tools")
        shutil.copytree(TOP / "include", self.top / "include")
        shutil.copy(TOP / "Makefile", self.top)
        (self.top / "crates.txt").write_text(CRATES)
        for crate in ("octets", "filter", "ntp5", "ntp5_c"):
            self.write(f"crates/{crate}/src/lib.rt", crate)
            self.write(f"crates/{crate}/must-fail/wrong.edit", crate)
        for crate in ("cases", "replay"):
            self.write(f"crates/{crate}/src/main.rt", crate)
        self.calls = self.top / "calls"

    def write(self, name, text):
        path = self.top / name
        path.parent.mkdir(parents=True, exist_ok=True)
        path.write_text(text)
        return path

    def environment(self, **given):
        return {"PATH": str(BIN), "TOP": str(self.top), "CALLS": str(self.calls), **given}

    def run_in(self, *command, **given):
        """Status and output of a command, both streams in one."""
        ended = subprocess.run(command, cwd=self.top, env=self.environment(**given), stdin=subprocess.DEVNULL,
                               stdout=subprocess.PIPE, stderr=subprocess.STDOUT, text=True, timeout=60)
        return ended.returncode, ended.stdout

    def called(self):
        """What rt was asked for since the last question: folder and words."""
        calls = self.calls.read_text().splitlines() if self.calls.exists() else []
        self.calls.unlink(missing_ok=True)
        return calls


class Targets(Repository):
    def targets(self):
        rules = re.findall(r"^([a-z ]+):", (TOP / "Makefile").read_text(), re.M)
        return {name for rule in rules for name in rule.split()} - {"help"}

    def test_help(self):
        status, printed = self.run_in("make")
        self.assertEqual((status, sorted(re.findall(r"^make ([a-z]+) +\S", printed, re.M))), (0, sorted(self.targets())))
        self.assertEqual(len(printed.splitlines()), len(self.targets()))

    def missing(self, caller, tools, *command):
        """Without these tools a command says a sentence for each, and rt is not called."""
        for tool in tools:
            (BIN / tool).rename(self.top / tool)
        try:
            status, printed = self.run_in(*command)
        finally:
            for tool in tools:
                (self.top / tool).rename(BIN / tool)
        calls = self.called()
        said = [line for line in printed.splitlines() if not line.startswith("make: ***")]
        self.assertEqual([line.split(" is missing: ")[0] for line in said], [f"{caller}: '{tool}'" for tool in tools], printed)
        self.assertTrue(all(len(line.split(" is missing: ")[1]) > 20 for line in said), printed)
        self.assertEqual((status != 0, calls), (True, []))

    def test_missing_tools(self):
        self.assertEqual(set(NEEDED), self.targets() - {"uninstall", "clean"})
        for target, (caller, tools) in NEEDED.items():
            for tool in tools.split():
                with self.subTest(target=target, tool=tool):
                    self.missing(caller, [tool], "make", target, f"DESTDIR={self.top}/installed")
        self.missing("gate", ["make"], "tools/gate")
        self.missing("bench", ["rt", "valgrind"], "make", "bench")

    def test_with_all_tools(self):
        """The control of the test above: with all tools each target gets as far as rt."""
        for target in NEEDED:
            with self.subTest(target=target):
                self.run_in("make", target, f"DESTDIR={self.top}/installed", STATUS="1")
                self.assertNotEqual(self.called(), [])

    def test_clean(self):
        self.run_in("make", "lib")
        self.write("host/target/file", "")
        self.assertEqual(self.run_in("make", "clean"), (0, ""))
        self.assertFalse((self.top / "target").exists() or (self.top / "host/target").exists() or (self.top / "crates/ntp5_c/out").exists())

    def test_uses(self):
        self.assertEqual(self.run_in("tools/uses", "ntp5_c"), (0, "octets\nfilter\nntp5\nntp5_c\n"))
        self.assertEqual(sorted(self.run_in("tools/uses")[1].split()), ["cases", "filter", "ntp5", "ntp5_c", "octets", "replay"])


class Library(Repository):
    def lib(self, **given):
        """Whether `make lib` builds."""
        status, printed = self.run_in("make", "lib", **given)
        built = re.search(r"^target/staticlib/libntp5\.a: (built in \d+:\d\d|unchanged)$", printed, re.M)
        self.assertTrue(status == 0 and built, printed)
        self.assertEqual(self.called(), [] if built[1] == "unchanged" else ["crates/ntp5_c: lib --cpu x86-64"])
        self.assertEqual((self.top / "target/staticlib/libntp5.a").read_text(), (self.top / "crates/ntp5_c/out/libntp5_c.a").read_text())
        return built[1] != "unchanged"

    def test_built_once(self):
        self.assertEqual([self.lib(), self.lib()], [True, False])
        (self.top / "crates/octets/src/lib.rt").touch()
        self.write("crates/cases/src/lib.rt", "changed")
        self.write("crates/octets/must-fail/wrong.edit", "changed")
        self.write("crates/octets/out/rlib/octets.rlib/lang/src/lib.rt", "made by rt")
        self.assertFalse(self.lib())

    def test_built_again(self):
        self.lib()
        for name in ("crates.txt", "crates/octets/src/lib.rt", "crates/filter/specs/New.antt", "crates/ntp5/proofs/new/Answers.antt",
                     "crates/ntp5_c/src/lib.rt", "target/staticlib/libntp5.a", "target/staticlib/libntp5.a.stamp"):
            with self.subTest(name):
                before = (self.top / name).read_text() if (self.top / name).exists() else ""
                self.write(name, before + "\n# changed\n")
                self.assertEqual([self.lib(), self.lib()], [True, False])
        for name in ("target/staticlib/libntp5.a", "target/staticlib/libntp5.a.stamp", "crates/filter/specs/New.antt"):
            with self.subTest(name):
                (self.top / name).unlink()
                self.assertEqual([self.lib(), self.lib()], [True, False])
        self.assertTrue(self.lib(KIT="another kit"))

    def test_not_built(self):
        self.lib()
        self.write("crates/octets/src/lib.rt", "wrong")
        status, _ = self.run_in("make", "lib", STATUS="1")
        self.assertEqual((status != 0, (self.top / "target/staticlib/libntp5.a").exists()), (True, False))
        self.assertEqual(self.called(), ["crates/ntp5_c: lib --cpu x86-64"])
        self.assertTrue(self.lib())


class Programs(Repository):
    def replay(self, program, *words, **given):
        """Status and output of `make replay` with this program, without what is shown while rt works and what make says."""
        (self.top / "target/bin/replay").unlink(missing_ok=True)
        status, printed = self.run_in("make", "replay", *words, PROGRAM=f"#!/bin/sh\n{program}", **given)
        self.assertEqual(self.called(), ["crates/replay: run"])
        return status != 0, re.sub(r"^(replay: \d+ proved|make: \*\*\*).*\n", "", printed, flags=re.M)

    def test_trace(self):
        for words, name in (((), "examples/rack.trace"), (("TRACE=/a b.trace",), "/a b.trace"), (("TRACE=",), "")):
            self.assertEqual(self.replay('echo "1 open 0 $# $1"', *words), (False, f"1 open 0 1 {name}\n"))

    def test_status(self):
        self.assertEqual(self.replay("echo 1 open 0; echo record 2: cut"), (True, "1 open 0\nrecord 2: cut\n"))
        self.assertEqual(self.replay("echo none: no file >&2"), (True, "none: no file\n"))
        self.assertEqual(self.replay("echo 1 open 0; [ $# -eq 0 ] || exit 3"), (True, "1 open 0\nreplay: the program ended with status 3\n"))
        failed, printed = self.replay("echo 1 open 0", STATUS="1", SAYS="rt: wrong")
        self.assertTrue(failed and "1 open 0" not in printed, printed)

    def test_built_once(self):
        self.replay("true")
        self.run_in("make", "replay")
        self.assertEqual(self.called(), [])
        for name in ("crates/replay/src/main.rt", "crates/octets/src/lib.rt", "target/bin/replay"):
            self.write(name, "changed")
            self.run_in("make", "replay")
            self.assertEqual(self.called(), ["crates/replay: run"], name)

    def test_made_by_ci(self):
        """What rt ci has built is taken without rt, and nothing is built after it."""
        made = ("tools/build", "gate", "cases", "target/bin/cases", "made")
        self.assertEqual(self.run_in(*made), (1, "gate: rt made no crates/cases/out/cases\n"))
        self.write("crates/cases/out/cases", "a program")
        status, printed = self.run_in(*made)
        self.assertRegex(printed, r"^target/bin/cases: built in 0:0\d\n$")
        self.assertEqual((status, (self.top / "target/bin/cases").read_text()), (0, "a program"))
        self.write("crates/cases/out/cases", "another")
        self.assertEqual(self.run_in("tools/build", "demo", "cases", "target/bin/cases"), (0, "target/bin/cases: unchanged\n"))
        self.run_in(*made)
        self.assertEqual((self.called(), (self.top / "target/bin/cases").read_text()), ([], "another"))


def working_in(folder):
    """The processes whose working folder is this one or below. One that has ended and was not waited for has none."""
    found = []
    for link in pathlib.Path("/proc").glob("[0-9]*/cwd"):
        with contextlib.suppress(OSError):
            if pathlib.Path(os.readlink(link)).is_relative_to(folder):
                found.append(link.parent.name)
    return found


def everything(terminal):
    """All that was written to a terminal that nobody has open any more."""
    read = b""
    with contextlib.suppress(OSError), open(terminal, "rb", buffering=0) as file:
        while part := file.read(4096):
            read += part
    return read.decode()


class Progress(Repository):
    def held(self, seconds):
        """Has rt go on after some seconds, in which the state was shown."""
        timer = threading.Timer(seconds, (self.top / "go").touch)
        timer.start()
        self.addCleanup(timer.join)

    def test_lines(self):
        self.held(3)
        status, printed = self.run_in("tools/progress", "gate", ".", "ci", HOLD="rt: must-fail", SAYS="3 passed, 0 failed")
        self.assertEqual(status, 0)
        self.assertRegex(printed, r"^gate: [0-2] proved or refused, 0:0\d(: ntp5: trying its must-fail edits \(1\)|: .*)?\n"
                                  r"gate: 3 proved or refused, 0:\d\d: must-fail ntp5/wrong\.edit: refused\n$")
        log = (self.top / "target/log/gate.log").read_text().splitlines()
        self.assertEqual((len(log), log[0][:19], log[-1]), (7, "rt: octets is kept:", "3 passed, 0 failed"))
        # What an earlier run left is not counted.
        status, printed = self.run_in("tools/progress", "gate", "crates/ntp5_c", "lib")
        self.assertRegex(printed, r"^gate: 2 proved, 0:0\d: ntp5_c\n$")
        self.assertEqual(self.called(), [f"{self.top}: ci", "crates/ntp5_c: lib"])

    def test_terminal(self):
        """A line that moves, cut to the width, and what failed."""
        ours, theirs = pty.openpty()
        fcntl.ioctl(theirs, termios.TIOCSWINSZ, struct.pack("HHHH", 24, 22, 0, 0))
        says = "rt: the library octets did not build, so nothing above it was checked"
        given = self.environment(HOLD="logic=", SAYS=f"./src/lib.rt:3:1: error: `f`: {'≡' * 100}\n{says}", STATUS="3")
        self.held(3)
        run = subprocess.Popen(("tools/progress", "lib", "crates/ntp5_c", "lib"), cwd=self.top, env=given, stderr=theirs)
        status = run.wait(timeout=60)
        os.close(theirs)
        shown = everything(ours)
        moving, _, rest = shown.partition("\r\x1b[K")
        self.assertEqual(status, 3)
        self.assertRegex(moving, r"^(\rlib: 0 proved, 0:0\d\.\.\x1b\[K)+$")
        self.assertEqual(rest.splitlines(), [
            "lib: rt lib ended with status 3; target/log/lib.log has all that it printed, among it:",
            f"  ./src/lib.rt:3:1: error: `f`: {'≡' * 56} ..", f"  {says}"])

    def test_reasons(self):
        """Of a log those lines that say what failed."""
        says = ["rt: ntp5 NOT PROVED", "rt: must-fail filter/wrong.edit: NOT REFUSED: the crate is still proved with this edit"]
        more = ["rt: cases NOT PROVED: its library ntp5 failed", "1 passed, 3 failed"]
        _, printed = self.run_in("tools/progress", "gate", ".", "ci", SAYS="\n".join(says + more), STATUS="1")
        self.assertEqual(printed.splitlines()[-2:], [f"  {line}" for line in says])
        _, printed = self.run_in("tools/progress", "gate", ".", "ci", SAYS=more[1], STATUS="1")
        self.assertEqual(printed.splitlines()[-3:], ["  == ntp5", "  logic=proved functions=1", f"  {more[1]}"])

    def test_no_log(self):
        """Without a place for the log rt is not called."""
        self.write("target", "a file")
        status, printed = self.run_in("tools/progress", "lib", "crates/ntp5_c", "lib")
        self.assertEqual((status, printed.splitlines()[-1], self.called()), (2, "lib: target/log/lib.log can't be written", []))

    def test_interrupt(self):
        """Neither rt nor what it started is left."""
        for name in (signal.SIGINT, signal.SIGTERM):
            # What is started in the background ignores SIGINT, and a shell can't trap what it was started ignoring.
            run = subprocess.Popen(("tools/progress", "lib", "crates/ntp5_c", "lib"), cwd=self.top,
                                   env=self.environment(HOLD="logic="), stderr=subprocess.PIPE, text=True, start_new_session=True,
                                   preexec_fn=lambda: signal.signal(signal.SIGINT, signal.SIG_DFL))
            end = time.monotonic() + 30
            while not (self.top / "held").exists():
                self.assertLess(time.monotonic(), end)
                time.sleep(0.05)
            self.assertNotEqual(working_in(self.top), [])
            os.killpg(run.pid, name)
            _, said = run.communicate(timeout=30)
            self.assertEqual((run.returncode, said.splitlines()[-1]), (130, "lib: stopped; target/log/lib.log has what rt printed"))
            self.assertEqual(working_in(self.top), [])
            (self.top / "held").unlink()


if __name__ == "__main__":
    sys.exit(counted("the Makefile's targets"))
