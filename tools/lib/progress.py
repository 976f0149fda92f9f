"""Says how far a run is: which crate of how many is at work, and the time so far. On a terminal the line moves at the bottom; in a log there
is a line for each crate that begins."""
import contextlib
import re
import subprocess
import sys
import threading
import time

from crates_txt import stands_on
from groups import end_at_signals, group

BEGUN = re.compile(r"^(?:rt: chose --jobs \d+ for|==) (\w+)")


class Line:
    """A line at the bottom of a terminal that says how far a run is, once it has lasted two seconds; in a log nothing."""

    def __init__(self, name):
        self.name, self.start, self.drawn, self.lock = name, time.monotonic(), 0.0, threading.Lock()
        self.moves = sys.stderr.isatty()

    def text(self, words):
        minutes, seconds = divmod(int(time.monotonic() - self.start), 60)
        return "%s: %s, %s%d s" % (self.name, words, "%d min " % minutes if minutes else "", seconds)

    def tell(self, words):
        now = time.monotonic()
        with self.lock:
            if self.moves and now - self.start > 2 and now - self.drawn > 0.1:
                self.drawn = now
                sys.stderr.write("\r\x1b[K" + self.text(words))
                sys.stderr.flush()

    def wipe(self):
        self.above("", sys.stderr)

    def above(self, text, stream):
        """Writes a text in the place of the line, which the next `tell` draws below it."""
        with self.lock:
            if self.moves and self.drawn:
                sys.stderr.write("\r\x1b[K")
                sys.stderr.flush()
            stream.write(text)
            stream.flush()

    @contextlib.contextmanager
    def each_second(self, words):
        """Tells what `words` returns, each second until the block ends."""
        ended = threading.Event()

        def tick():
            while not ended.wait(1):
                self.tell(words())

        teller = threading.Thread(target=tick, daemon=True)
        teller.start()
        try:
            yield
        finally:
            ended.set()
            teller.join()
            self.wipe()


class Progress:
    """How far a command of rt is, read from its lines: of the crates that a crate is made of, or of all, and in so many seconds as it is
    reckoned to take."""

    def __init__(self, crate=None, seconds=0):
        below = stands_on()
        self.crates = len({crate, *below[crate]} & set(below) if crate else below)
        self.end, self.begun = time.monotonic() + seconds, []

    def read(self, line):
        """Whether the line says that another crate begins."""
        found = BEGUN.match(line)
        is_new = found is not None and found.group(1) not in self.begun
        if is_new:
            self.begun.append(found.group(1))
        return is_new

    def words(self):
        number, left = len(self.begun), self.end - time.monotonic()
        told = "crate %d of %d: %s" % (number, max(number, self.crates), self.begun[-1]) if number else "at work"
        return told + (", some %d min left" % (left / 60 + 1) if left > 0 else "")


def follow(line, progress, command, passed=lambda text: None, cwd=None):
    """Runs a command in a group of processes of its own, tells how far it is, and hands each of its lines on. Returns its status and all that it
    printed. If this program is interrupted or killed, it ends the command."""
    said = []
    end_at_signals()
    try:
        with group(command, cwd=cwd, stdout=subprocess.PIPE, text=True, errors="replace") as child, line.each_second(progress.words):
            for text in child.stdout:
                if progress.read(text) and not line.moves:
                    print(line.text(progress.words()), file=sys.stderr, flush=True)
                said.append(text)
                passed(text)
            return child.wait(), "".join(said)
    except SystemExit:
        print("%s: interrupted" % line.name, file=sys.stderr)
        raise
