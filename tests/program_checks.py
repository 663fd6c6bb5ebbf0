"""What the tests of the programs share: runs of a program, compared with what is expected of it and counted."""
import os
import subprocess
import tty

LONGEST = 4095      # octets of a file's name
SHOWN = 20          # checks that failed


def shown(values, others):
    """The values of a check that failed; of an output the lines at its start that the other has too are left out."""
    if isinstance(values, str):
        return repr(values[os.path.commonprefix([values, others]).rfind("\n") + 1:])
    if isinstance(values, tuple):
        return ", ".join(map(shown, values, others))
    return repr(values)


class Checks:
    def __init__(self, program, folder, name, octets, printed):
        """The program's name is as it says it itself; `printed` is what it prints of the input `octets`."""
        self.program, self.folder, self.name, self.octets, self.printed = program, folder, name, octets, printed
        self.made, self.failures, self.whole = 0, [], self.file("whole", octets)

    def file(self, name, octets):
        path = self.folder / name
        path.write_bytes(octets)
        return str(path)

    def same(self, what, found, expected):
        self.made += 1
        if found != expected:
            self.failures.append(f"{what}:\n  found    {shown(found, expected):.300}\n  expected {shown(expected, found):.300}")

    def run(self, what, arguments, printed, said, **given):
        """What a run prints on standard output and says on standard error. Its status is 0, as long as both can be written."""
        if "input" not in given:
            given = {"stdin": subprocess.DEVNULL, **given}
        done = subprocess.run([self.program, *arguments], capture_output=True, timeout=60, **given)
        self.same(what, (done.stdout.decode("latin-1"), done.stderr.decode("latin-1"), done.returncode), (printed, said, 0))

    def told(self, test):
        """Tells how many checks passed, or the first that failed, and gives the status."""
        for failure in self.failures[:SHOWN]:
            print(f"{test}: {failure}")
        if self.failures:
            print(f"{test}: {len(self.failures)} of {self.made} checks failed")
            return 1
        print(f"{test}: {self.made} checks of the program passed")
        return 0


def arguments(checks):
    """A file or none is taken, and what can't be read is named with the reason."""
    whole, folder, none = checks.whole, str(checks.folder), str(checks.folder / "none")
    one_file = f"{checks.name}: one file at most; usage: {checks.name} [FILE]\n"
    name_size = f"{checks.name}: a file's name has 1 to {LONGEST} octets; usage: {checks.name} [FILE]\n"
    checks.run("a file", [whole], checks.printed, "")
    checks.run("a missing file", [none], "", f"{none}: No such file or directory\n")
    checks.run("a directory", [folder], "", f"{folder}: Is a directory\n")
    checks.run("a file that opens and is not read", ["/proc/self/mem"], "", "/proc/self/mem: Input/output error\n")
    checks.run("two files", [whole, whole], "", one_file)
    checks.run("a second argument that is empty", [whole, ""], "", one_file)
    checks.run("an empty name", [""], "", name_size)
    longest = "./" * ((LONGEST - len("whole")) // 2) + "whole"
    checks.run(f"a name of {len(longest)} octets", [longest], checks.printed, "", cwd=folder)
    checks.run("a name that is one octet longer", [f"/{longest}"], "", name_size, cwd=folder)
    part = "x" * 256
    checks.run("a name with a part that is too long", [part], "", f"{part}: File name too long\n")
    checks.run("a name that is not UTF-8", [b"\xff"], "", f"{checks.name}: a file's name is UTF-8; usage: {checks.name} [FILE]\n")


def full_output(checks):
    """What can't be written ends the run with status 1, and with the system's reason where that can be written."""
    reason = b'Error: Os { code: 28, kind: StorageFull, message: "No space left on device" }\n'
    for what, name, full, other, expected in (("results", checks.whole, "stdout", "stderr", reason),
                                              ("a message", str(checks.folder / "none"), "stderr", "stdout", b"")):
        with open("/dev/full", "wb") as device:
            given = {full: device, other: subprocess.PIPE}
            done = subprocess.run([checks.program, name], stdin=subprocess.DEVNULL, timeout=60, **given)
        checks.same(f"{what} that can't be written", (done.returncode, getattr(done, other)), (1, expected))


def failing_input(octets):
    """A descriptor that gives the octets, and then no end but an error: a terminal whose other side was closed."""
    reader, writer = os.openpty()
    tty.setraw(writer)      # else it would change line ends
    os.write(writer, octets)
    os.close(writer)
    return reader


def standard_input(checks, cut, part):
    """What can't be read is named; `cut` is a part of one more line or record, as `part` says, which is not run."""
    with open(checks.whole, "rb") as file:
        checks.run("standard input", [], checks.printed, "", stdin=file)
    checks.run("standard input, closed", [], "", "standard input: Bad file descriptor\n", preexec_fn=lambda: os.close(0))
    folder = os.open(checks.folder, os.O_RDONLY)
    checks.run("standard input, a directory", [], "", "standard input: Is a directory\n", stdin=folder)
    os.close(folder)
    failing = failing_input(checks.octets + cut)
    checks.run(f"a read that fails in a {part}, which is not run", [], checks.printed, "standard input: Input/output error\n",
               stdin=failing)
    os.close(failing)
