"""All that can be known without a proof: the pages and what they tell you to type, every crate's tests, the examples, the program, the
library for C and its wrappers, a release, the benchmarks' runners. Each of them is built without any proof, in a fresh copy of this tree.

A part has a line as it ends, and a part that failed what it printed; all of it stays in out/test/logs. The last line is
'N passed, M failed', with ', K skipped' if a tool isn't there.
"""
import os
import shutil
import subprocess
import sys
import tempfile
import time
from pathlib import Path

LIB = Path(__file__).resolve().parent.parent
sys.path.insert(0, str(LIB))

from groups import end_at_signals
from places import TOP
from suite.all_parts import all_parts
from suite.lanes import Lanes
from suite.part import AT_WORK, FAILED, PASSED
from trees import fresh_copy
from words import Parser, end, whole

# A space in the folder's name shows which command leaves its words unquoted.
NAME = "a copy"
LOGS = TOP / "out" / "test" / "logs"


class Told:
    """Tells each part's end in a line: what came of it, and how many are left."""

    def __init__(self, count):
        self.began, self.count, self.ended = time.monotonic(), count, 0

    def __call__(self, outcome, left):
        self.ended += 1
        if outcome.how == FAILED:
            print(failed_text(outcome), end="")
        gone = time.monotonic() - self.began
        print("tools/test: %s: %s%s; %d s, %d of %d, %d left after %d min %02d s" % (
            outcome.part.name, outcome.how, ", " + outcome.said if outcome.said else "", outcome.seconds, self.ended, self.count, left, gone // 60, gone % 60),
            flush=True)


def failed_text(outcome):
    """The last lines of what a part printed."""
    log = outcome.part.log(LOGS)
    lines = log.read_text(errors="replace").splitlines() if log.is_file() else []
    return "".join("    %s\n" % line for line in lines[-40:])


def environment():
    """The tests see no setting of the caller's that would lead them to another library or folder."""
    return {name: value for name, value in os.environ.items() if not name.startswith("ROOKDRESSER_") and name not in ("PYTHONPATH", "CARGO_TARGET_DIR")}


def last_line(outcomes, fail_skips):
    skips = [skip for outcome in outcomes for skip in outcome.skips]
    passed, failed = (sum(outcome.how == how for outcome in outcomes) for how in (PASSED, FAILED))
    for skip in skips:
        print("tools/test: skipped: %s" % skip)
    print("%d passed, %d failed%s" % (passed, failed + (len(skips) if fail_skips else 0), ", %d skipped" % len(skips) if skips else ""))
    return 1 if failed or not passed or fail_skips and skips else 0


def main():
    parser = Parser(__doc__, "tools/test")
    parser.add_argument("words", nargs="*", metavar="PART", help="only the parts whose names have one of these words, and those that they need")
    parser.add_argument("--all", action="store_true", help="install first what the tests need (tools/setup); a skipped part is a failure")
    parser.add_argument("--list", action="store_true", help="name the parts")
    parser.add_argument("--lanes", type=whole(1, 64), default=len(os.sched_getaffinity(0)), help="so many parts at once [default: one for each core]")
    given = parser.parse_args()
    if given.all and subprocess.run(["sh", TOP / "tools" / "setup"]).returncode:
        return 1
    end_at_signals()
    with tempfile.TemporaryDirectory(prefix="rookdresser-") as room:
        try:
            return test(Path(room).resolve() / NAME, given)
        finally:
            AT_WORK.end()


def test(copy, given):
    parts = all_parts(fresh_copy(copy))
    if given.list:
        print("\n".join(part.name for part in parts))
        return 0
    if given.words:
        parts = chosen(parts, given.words)
    shutil.rmtree(LOGS, ignore_errors=True)
    LOGS.mkdir(parents=True)
    hand_over(TOP, copy)
    print("tools/test: %d parts" % len(parts), flush=True)
    outcomes = Lanes(given.lanes, environment(), LOGS, Told(len(parts))).run(parts)
    hand_over(copy, TOP)
    return last_line(outcomes, given.all)


def hand_over(source, target):
    """Copies the program that `tools/try` keeps, which is named for the sum of its sources."""
    for kept in (source / "out" / "try").glob("*/wt_replay"):
        place = target / "out" / "try" / kept.parent.name
        if not place.exists():
            place.mkdir(parents=True)
            shutil.copy2(kept, place)


def chosen(parts, words):
    """The parts whose names have one of the words, with those that they begin after."""
    by_name = {part.name: part for part in parts}
    found = [part for part in parts if any(word in part.name for word in words)]
    for part in found:
        found += [by_name[name] for name in part.after if by_name[name] not in found]
    return found


if __name__ == "__main__":
    end(main)
