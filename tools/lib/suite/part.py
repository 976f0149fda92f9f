"""A part of tools/test or of the gate, and how it ended."""
import re
import shutil
import signal
import threading
import time
from dataclasses import dataclass, field
from pathlib import Path

import groups

PASSED, FAILED, SKIPPED = "ok", "FAILED", "skipped"
# A part says by such a line that it leaves something out, and why.
LEFT_OUT = re.compile(r"^skipped: (.+)$", re.M)


@dataclass
class Part:
    """A command that passes if it ends with status 0. It begins after the parts that it names, and is skipped if a tool isn't there."""

    name: str
    command: list
    folder: Path
    seconds: int = 5
    needs: tuple = ()
    after: tuple = ()
    environment: dict = field(default_factory=dict)

    def lacks(self):
        return [tool for tool in self.needs if not shutil.which(tool)]

    def log(self, logs):
        """Where what it prints is kept, below a folder."""
        return logs / (re.sub(r"[^\w.]+", "_", self.name) + ".log")


@dataclass
class Outcome:
    """How a part ended, and what a line says of it."""

    part: Part
    how: str
    said: str
    seconds: float = 0.0
    skips: list = field(default_factory=list)


class AtWork:
    """The commands that are running, each in a group of processes of its own, so that all can be ended."""

    def __init__(self):
        self.lock, self.running, self.is_over = threading.Lock(), set(), False

    def run(self, words, **how):
        """Runs a command, and returns its status."""
        with self.lock:
            if self.is_over:
                return -signal.SIGTERM
            child = groups.started(words, **how)
            self.running.add(child)
        status = child.wait()
        with self.lock:
            self.running.discard(child)
        return status

    def end(self):
        """Ends them: first so that each can end what it began in groups of its own, and those that are still there two seconds later at once."""
        with self.lock:
            self.is_over = True
            left = list(self.running)
        for by, seconds in ((signal.SIGTERM, 2), (signal.SIGKILL, 0)):
            for child in left:
                groups.end(child, by)
            end = time.monotonic() + seconds
            while any(child.poll() is None for child in left) and time.monotonic() < end:
                time.sleep(0.05)


AT_WORK = AtWork()


def outcome_of(part, environment, logs):
    """Runs a part; what it prints is kept in its log."""
    log = part.log(logs)
    with open(log, "wb") as out:
        status = AT_WORK.run(part.command, cwd=part.folder, env={**environment, **part.environment}, stdout=out)
    text = log.read_text(errors="replace")
    last = text.strip().rsplit("\n", 1)[-1][:100]
    if status:
        return Outcome(part, FAILED, "status %d, %s" % (status, log))
    skips = LEFT_OUT.findall(text)
    return Outcome(part, SKIPPED if skips else PASSED, skips[0] if skips else last, skips=skips)
