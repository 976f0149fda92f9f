"""What a program or library for x86-64 Linux asks of the machine: versions of the C library, instructions, other libraries."""
import os
import re
import subprocess

# The least processor.
PROCESSOR = "x86-64-v2"
# Instructions beyond it that compilers emit: what is coded by VEX, and on plain registers. `tzcnt` runs as `bsf` elsewhere, and `lzcnt`
# doesn't run as `bsr`.
BEYOND = re.compile(r"v(?!err|erw)[a-z0-9]+|andn|bextr|bls(?:i|r|msk)|bzhi|pdep|pext|mulx|rorx|s(?:ar|hl|hr)x|lzcnt\w*|movbe\w*")


def told_by(path, *options):
    """What objdump tells of a file."""
    return subprocess.run(["objdump", *options, path], stdout=subprocess.PIPE, text=True, check=True, env={**os.environ, "LC_ALL": "C"}).stdout


def names_of(path, tag):
    """The names that the dynamic section has under a tag: NEEDED, the libraries that it asks for, or SONAME, its own."""
    return re.findall(r"^ +%s +(\S+)$" % tag, told_by(path, "-p"), re.M)


def glibc_of(path):
    """The oldest glibc that has all that it asks for, as (2, 14)."""
    numbers = [tuple(map(int, number.split("."))) for number in re.findall(r" GLIBC_([\d.]+)$", told_by(path, "-p"), re.M)]
    return max(numbers, default=(2, 2))[:2]


def is_beyond(instruction):
    return BEYOND.fullmatch(instruction) is not None


def beyond_of(path):
    """The instructions of a file that its processor need not have, by objdump. What is chosen while it runs isn't seen."""
    rows = [line.split("\t") for line in told_by(path, "-d", "--no-show-raw-insn").splitlines()]
    return sorted(filter(is_beyond, {row[1].split()[0] for row in rows if len(row) > 1 and row[1].strip()}))
