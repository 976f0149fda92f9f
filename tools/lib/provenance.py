"""PROVENANCE.txt: from what, with what and by which verdicts a release was made."""
import calendar
import os
import re
import shutil
import subprocess
import sys
import time
import zlib

import elf
from facts import TESTED
from places import TOP

# In what tools/prove prints, and in PROVENANCE.txt.
COMMIT = re.compile(r"^(?:tools/prove: at commit|commit:) ([0-9a-f]{40})$", re.M)
DATE = re.compile(r"^date: (\d+-\d+-\d+ \d+:\d+:\d+) UTC$", re.M)
PART = re.compile(r"^== (.+)$")
VERDICT = re.compile(r"^(?:verdict of (.+?): )?(logic=proved .*)$")
LAST = re.compile(r"^(?:gate: |tools/prove: all checks have ended, and the gate says\n)(\d+ passed, (\d+) failed)$", re.M)

TAKEN_OVER = re.compile(r"^tools/prove: this run is no whole proof", re.M)


class Gate:
    """What the gate said: the commit, a verdict for each crate and its tests, and its last line."""

    def __init__(self, text):
        commits, lasts = COMMIT.findall(text), LAST.findall(text)
        self.took_over = TAKEN_OVER.search(text) is not None
        self.commit = commits[-1] if commits else None
        self.last, self.failed = lasts[-1] if lasts else (None, None)
        self.verdicts, part = {}, None
        for line in text.splitlines():
            begun, verdict = PART.match(line), VERDICT.match(line)
            part = begun.group(1) if begun else part
            if verdict and (verdict.group(1) or part):
                self.verdicts.setdefault(verdict.group(1) or part, verdict.group(2))

    def fault(self, commit, crates):
        """Why no release of these crates is made after it, or None."""
        if self.last is None:
            return "it isn't what tools/prove prints to its end"
        if self.took_over:
            return "it took over proofs that others made"
        if self.failed != "0":
            return "its last line is %s" % self.last
        if self.commit != commit:
            return "it is of commit %s, and the checkout is at %s" % (self.commit, commit)
        unproved = [name for name in crates if name not in self.verdicts]
        return "it has no verdict of %s" % unproved[0] if unproved else None


def moment_told(text):
    """The date of a release's archives, in seconds since 1970."""
    return calendar.timegm(time.strptime(DATE.search(text).group(1), "%Y-%m-%d %H:%M:%S"))


def said_by(*command):
    """The first line of what a command prints, or that it isn't there."""
    if not shutil.which(command[0]):
        return "%s isn't there" % command[0]
    return (subprocess.run(command, stdout=subprocess.PIPE, stderr=subprocess.STDOUT, text=True, cwd=TOP,
                           env={**os.environ, "LC_ALL": "C"}).stdout.splitlines() or [""])[0]


def made_with():
    """What else the bytes of the files may depend on."""
    yield "made with: " + said_by("cc", "--version")
    yield "made with: " + said_by("ld", "--version")
    yield "made with: " + said_by("git", "--version")
    yield "made with: Python %s with its headers, zlib %s" % (".".join(map(str, sys.version_info[:3])), zlib.ZLIB_RUNTIME_VERSION)


def text(version, commit, changed, moment, gate, needs):
    """The page. The needs are those of the program, of the library and of Python's module."""
    unproved = "proved: NO. It was made by `tools/release --unproved`: nothing of its program and libraries is proved or checked"
    return "\n".join([
        "Rookdresser %s for Linux on x86-64" % version,
        *([] if gate else [unproved]),
        "commit: %s%s" % (commit, ", with changes that no commit has" if changed else ""),
        "date: %s" % time.strftime("%Y-%m-%d %H:%M:%S UTC", time.gmtime(moment)),
        "toolchain: %s" % said_by("rt", "version"),
        *(["verdict of %s: %s" % row for row in gate.verdicts.items()] if gate else []),
        "gate: %s" % gate.last if gate else "gate: not seen",
        *("tested, not proved: " + what for what in TESTED.values()),
        *("needs: %s: Linux on x86-64, a processor of %s or later, glibc %s or later" % (name, elf.PROCESSOR, glibc)
          for name, glibc in needs.items()),
        *made_with(),
    ]) + "\n"
