#!/usr/bin/env python3
"exec" "python3" "$0" "$@"  # sh hands this file to Python
__doc__ = """The gate: every proof from nothing, the tests as they are proved, each program as two compilers build it, the edits that are due,
and what has to be seen on what the proofs have built. `sh tools/test` has what needs no proof.
The last line is the gate's, 'N passed, M failed': of `rt ci`, of the edits, and of the other parts, each of which counts as one.
"""
import os
import re
import sys
import tempfile
from pathlib import Path

LIB = Path(__file__).resolve().parent.parent
sys.path.insert(0, str(LIB))

import kit
from groups import end_at_signals
from kit import ahead, kept_store
from places import CRATES, TOP
from progress import Line, Progress, follow
from suite.all_parts import LANGUAGES, python
from suite.lanes import Lanes
from suite.part import AT_WORK, FAILED, Part
from trees import in_git
from words import Parser, end, wants

EDITS, LIBRARY = "the edits that are due", "the library for C, proved as it is built"
# After a change in a low crate nearly all edits are due, which take hours: later runs try what is left.
EDIT_SECONDS = 900
NUMBERS = re.compile(r"\b(\d+) passed, (\d+) failed")


def parts_of(library):
    """What the gate checks behind `rt ci`, side by side, on what that has proved and built."""
    gate = TOP / "tools" / "gate"
    # Libraries with a stamp are a session's own, which `rt ci` put back. `tools/embed` may build them anew, and edits stand on them.
    is_own = any(CRATES.glob("*/out/rlib/stamp"))
    yield Part(EDITS, [gate / "try_edits", "--empty", "--seconds", str(EDIT_SECONDS)], TOP, EDIT_SECONDS, after=(LIBRARY,) if is_own else ())
    yield Part("each edit compiles", python(gate / "check_edits", "--lanes", "1"), TOP, EDIT_SECONDS, after=(LIBRARY,) if is_own else ())
    yield Part("refused memory, on the proved tests and the program", python(gate / "refuse_memory"), TOP, 60)
    yield Part("the program beside the model", python(gate / "check_program"), TOP, 40)
    yield Part("the scenarios beside the model", python(gate / "check_scenarios"), TOP, 10)
    yield Part("the options", python(gate / "check_facts", "--built"), TOP, 1)
    yield Part(LIBRARY, ["sh", "tools/embed", library], TOP, 300)
    for language, (_, seconds) in LANGUAGES.items():
        yield Part("the proved library from %s" % language, ["sh", "tools/embed", "test", "--library", library, language], TOP, seconds,
                   after=(LIBRARY,))


class Tally:
    """Adds up what passed and failed."""

    def __init__(self):
        self.passed = self.failed = 0

    def add(self, text, other=(0, 1)):
        """Adds the numbers of a text's last line that has them, or others."""
        told = NUMBERS.findall(text)
        numbers = map(int, told[-1]) if told else other
        self.passed, self.failed = map(sum, zip((self.passed, self.failed), numbers))

    def line(self):
        return "%d passed, %d failed" % (self.passed, self.failed)


def commit():
    try:
        return in_git(TOP, "describe", "--always", "--abbrev=40", "--dirty", "--exclude=*").strip()
    except OSError:
        return "none"


def prove(tally):
    """Every proof, the tests and the programs, by `rt ci`; its status."""
    with ahead.two_runs() as said:
        line = Line("tools/prove")
        status, text = follow(line, Progress(), ["rt", "ci"], lambda text: line.above(text, sys.stdout), cwd=TOP)
    print("".join(said), end="")
    tally.add(text)
    return status


def check(tally):
    """The parts behind it. Prints what each printed, as it ends."""
    with tempfile.TemporaryDirectory(prefix="gate-") as room:
        logs = Path(room, "logs")
        logs.mkdir()

        def tell(outcome, left):
            log = outcome.part.log(logs)
            text = log.read_text(errors="replace") if log.is_file() else outcome.said + "\n"
            failed = outcome.how == FAILED
            tally.add(text if outcome.part.name == EDITS else "", (not failed, failed))
            print("%stools/prove: %s: %s after %d s, %d left" % (text, outcome.part.name, outcome.how, outcome.seconds, left), flush=True)

        try:
            Lanes(len(os.sched_getaffinity(0)), os.environ, logs, tell).run(list(parts_of(Path(room, "library"))))
        finally:
            AT_WORK.end()


def main():
    parser = Parser(__doc__, "tools/prove")
    parser.add_argument("--kept", metavar="FILE", type=Path, help="take over the proofs of FILE, if it is there, and at the end write into it all that "
                        "are kept. For whoever trusts the file's maker: such a run is no whole proof, and no release is made of it")
    given = parser.parse_args()
    wants(parser, "rt", "cc")
    if given.kept and not kit.has(kit.STORE):
        parser.exit(1, "tools/prove: %s\n" % kit.STORE.lack)
    end_at_signals()
    # `tools/release` reads this line, so that what the gate said isn't taken for that of another commit.
    print("tools/prove: at commit %s" % commit(), flush=True)
    taken, tally = None, Tally()
    if given.kept and given.kept.exists():
        taken = kept_store.take(given.kept)
        print("tools/prove: this run is no whole proof: it takes over %s" % taken)
    print("tools/prove: part 1 of 2: every proof, the tests, the programs", flush=True)
    status = prove(tally)
    if status == 0:
        print("tools/prove: part 2 of 2: the edits that are due, and the checks of what was built", flush=True)
        check(tally)
    if given.kept:
        kept_store.write(given.kept)
    if taken:
        print("tools/prove: this run was no whole proof: it took over %s" % taken)
    # By this line `tools/release` tells the gate's last line from that of a check, in what a run that was cut off has printed.
    print("tools/prove: all checks have ended, and the gate says\n%s" % tally.line())
    return 1 if status or tally.failed or not tally.passed else 0


if __name__ == "__main__":
    end(main)
