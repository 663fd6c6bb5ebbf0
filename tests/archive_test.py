#!/usr/bin/env python3
"""Holds the archive to what README and header say that a linker meets.

usage: archive_test.py [ARCHIVE]

It defines the header's functions and no others, needs three functions of the C library, has no data that are written and no
unwind tables, is position-independent, has a section for each function, and no instruction that came after SSE2.
"""
import pathlib
import re
import subprocess
import sys

TOP = pathlib.Path(__file__).resolve().parent.parent
NEEDED = {"memcpy", "memmove", "memset"}
# Relative to the place of use: nothing that a loader would have to mend.
RELATIVE = {"R_X86_64_PC32", "R_X86_64_PLT32"}
# Instructions of SSE3 to AVX-512, of bit manipulation and of ciphers. tzcnt is not among them: an older processor reads it as bsf.
NEWER = re.compile(r"""
    v\w+ | pshufb | pabs\w | palignr | ph(add|sub)\w+ | pmaddubsw | pmulhrsw | psign\w | pm(in|ax)(sb|sd|ud|uw) | pmul(ld|dq)
    | pmov[sz]x\w+ | ptest | pcmp(eqq|gtq|[ei]str\w) | packusdw | p?blend\w+ | round[ps][sd] | dpp[sd] | p(ins|ext)r[bdq]
    | (extract|insert)ps | mpsadbw | h(add|sub)p[sd] | addsubp[sd] | mov(d|sh|sl)dup | lddqu | popcnt | lzcnt | crc32\w? | movbe
    | andn | bextr | bls\w+ | bzhi | mulx | pdep | pext | rorx | (sar|shl|shr)x | adcx | adox | aes\w+ | sha\d\w+ | pclmul\w+
""", re.X)


def printed(*command):
    return subprocess.run(command, check=True, capture_output=True, text=True).stdout


def symbols(archive):
    """The names that it defines for others, and those that it needs."""
    kinds = re.findall(r"^\S* +(\w) (\S+)$", printed("nm", archive), re.M)
    return {name for kind, name in kinds if kind.isupper() and kind != "U"}, {name for kind, name in kinds if kind == "U"}


def declared():
    """The functions of the header."""
    return set(re.findall(r"\b(ntp5_\w+)\(", re.sub(r"/\*.*?\*/", "", (TOP / "include/ntp5.h").read_text(), flags=re.S)))


def differ(what, found, wanted):
    return [] if found == wanted else [f"{what}: {sorted(found - wanted)} too many, {sorted(wanted - found)} missing"]


def main():
    archive = sys.argv[1] if len(sys.argv) > 1 else str(TOP / "target/staticlib/libntp5.a")
    defined, needed = symbols(archive)
    sections = re.findall(r"^ *\d+ (\S+) +([0-9a-f]+) .*\n +(.*)$", printed("objdump", "-h", archive), re.M)
    relocations = set(re.findall(r"R_X86_64_\w+", printed("objdump", "-r", archive)))
    faults = differ("functions", defined, declared()) + differ("needed", needed, NEEDED)
    faults += [f"section {name} is written to" for name, size, flags in sections
               if int(size, 16) and "ALLOC" in flags and "READONLY" not in flags]
    faults += [f"section {name}: unwind tables" for name, _, _ in sections if name.startswith((".eh_frame", ".gcc_except"))]
    faults += [f"relocation {name}" for name in sorted(relocations - RELATIVE)]
    code = printed("objdump", "-d", "--no-show-raw-insn", archive)
    instructions = set(re.findall(r"^ +[0-9a-f]+:\t(?:(?:rep\w*|lock|data16|cs|ds) )*(\w+)", code, re.M))
    faults += [f"instruction {name}" for name in sorted(instructions) if NEWER.fullmatch(name)]
    faults += [f"section {name} has code of more than one function" for name, size, _ in sections if name == ".text" and int(size, 16)]
    size = sum(int(size, 16) for _, size, flags in sections if "ALLOC" in flags)
    if faults or not size or not instructions:
        print("\n".join(faults) or "no code")
        return 1
    print(f"archive: {len(defined)} functions, {size} octets of code and constants, as README and header say")
    return 0


if __name__ == "__main__":
    sys.exit(main())
