#!/usr/bin/env python3
"""Installs the library into an empty folder, builds and runs a program by what was installed alone, and uninstalls."""
import os
import pathlib
import re
import shutil
import subprocess
import sys
import tempfile
import unittest

from counted import counted

os.environ.pop("MAKEFLAGS", None)   # the words of a make that runs this test
TOP = pathlib.Path(__file__).resolve().parent.parent
PROGRAM = r"""
#include <ntp5.h>
#include <stdio.h>

int main(void)
{
    ntp5_measurement m = ntp5_measure(1000, 1300, 1400, 1500);
    printf("%s %d.%d.%d ", NTP5_VERSION, NTP5_VERSION_MAJOR, NTP5_VERSION_MINOR, NTP5_VERSION_PATCH);
    printf("%d %lld %llu\n", m.judgement, (long long) m.offset, (unsigned long long) m.delay);
    return 0;
}
"""


def output(*command, **given):
    return subprocess.run(command, check=True, stdout=subprocess.PIPE, text=True, **given).stdout


def values(package):
    """The variables and keys of a pkg-config file, the variables put in."""
    found = {}
    for name, value in re.findall(r"^(\w+)(?:=|: )(.*)$", package.read_text(), re.M):
        found[name] = re.sub(r"\$\{(\w+)\}", lambda match: found[match[1]], value)
    return found


class Install(unittest.TestCase):
    def setUp(self):
        self.folder = pathlib.Path(tempfile.mkdtemp())
        self.addCleanup(shutil.rmtree, self.folder)

    def make(self, target, *words):
        return output("make", "--silent", "-C", TOP, target, f"DESTDIR={self.folder}/root", *words)

    def installed(self):
        return sorted(str(path.relative_to(self.folder / "root")) for path in self.folder.glob("root/**/*") if path.is_file())

    def runs(self, package, prefix):
        """Builds a program with the words of the pkg-config file, once the prefix is where the files are, and runs it."""
        package.write_text(package.read_text().replace(f"prefix={prefix}\n", f"prefix={self.folder}/root{prefix}\n"))
        found = values(package)
        words = (found["Cflags"] + " " + found["Libs"]).split()
        if shutil.which("pkg-config"):
            self.assertEqual(output("pkg-config", "--cflags", "--libs", str(package)).split(), words)
            self.assertEqual(output("pkg-config", "--modversion", str(package)).strip(), found["Version"])
        (self.folder / "program.c").write_text(PROGRAM)
        output("cc", "-std=c11", "-Wall", "-Wextra", "-Werror", "program.c", *words, "-o", "program", cwd=self.folder)
        version = found["Version"]
        self.assertRegex(version, r"^\d+\.\d+\.\d+$")
        self.assertIn(f"|---|---|---|\n| {version} |", (TOP / "README.md").read_text(), "README's last version is another")
        self.assertEqual(output(self.folder / "program"), f"{version} {version} 0 100 400\n")

    def test_prefix(self):
        self.make("install", "PREFIX=/opt/unit")
        self.assertEqual(self.installed(), ["opt/unit/include/ntp5.h", "opt/unit/lib/libntp5.a", "opt/unit/lib/pkgconfig/ntp5.pc"])
        self.runs(self.folder / "root/opt/unit/lib/pkgconfig/ntp5.pc", "/opt/unit")
        self.make("uninstall", "PREFIX=/opt/unit")
        self.assertEqual(self.installed(), [])

    def test_library_folder(self):
        self.make("install", "LIBDIR=/lib64")
        self.assertEqual(self.installed(), ["lib64/libntp5.a", "lib64/pkgconfig/ntp5.pc", "usr/local/include/ntp5.h"])
        self.assertEqual(values(self.folder / "root/lib64/pkgconfig/ntp5.pc")["libdir"], "/lib64")
        self.make("uninstall", "LIBDIR=/lib64")
        self.assertEqual(self.installed(), [])

    def test_refused_folders(self):
        for word in ("PREFIX=here", "LIBDIR=here", "PREFIX=/opt/time unit", "LIBDIR=/opt/time unit"):
            ended = subprocess.run(("make", "-C", TOP, "install", f"DESTDIR={self.folder}/root", word), stdout=subprocess.PIPE,
                                   stderr=subprocess.STDOUT, text=True)
            self.assertIn("install: PREFIX and LIBDIR are absolute paths without a space", ended.stdout)
            self.assertNotEqual(ended.returncode, 0)
        self.assertEqual(self.installed(), [])


if __name__ == "__main__":
    sys.exit(counted("make install"))
