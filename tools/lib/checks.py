"""What the checks share: the words that they take, and how they tell what they found."""
import sys
from pathlib import Path

from progress import Line
from words import Parser


def arguments(doc, **flags):
    """The words of a check that takes flags alone: which of them were given."""
    parser = Parser(doc)
    for name, does in flags.items():
        parser.add_argument("--" + name, action="store_true", help=does)
    return parser.parse_args()


def tell(name, parts):
    """Tells the faults of each part, and in a line how many rows it has; returns the status, which is 1 if there is a fault, or
    a part without a row."""
    failed = False
    for part, (faults, count) in parts:
        for fault in faults:
            print(fault, file=sys.stderr)
        print("%s: %s: %d rows, %d faults" % (name, part, count, len(faults)))
        failed = failed or bool(faults) or not count
    return 1 if failed else 0


class Outcomes:
    """Checks that passed or failed; one that failed has a line, and on a terminal a line says how many there were."""

    def __init__(self):
        self.passed = self.failed = 0
        self.progress = Line(Path(sys.argv[0]).name)

    def check(self, title, well, why=None):
        """Counts a check. `why` returns what else to print of one that failed."""
        self.passed, self.failed = self.passed + bool(well), self.failed + (not well)
        if not well:
            self.progress.wipe()
            print("FAIL %s" % title, *([why()] if why else []), sep="\n", flush=True)
        self.progress.tell("%d passed, %d failed; latest: %s" % (self.passed, self.failed, title[:60]))

    def end(self):
        """Prints the last line, and returns the status."""
        self.progress.wipe()
        print("%d passed, %d failed" % (self.passed, self.failed))
        return 1 if self.failed else 0
