"""Which edits are due, and runs that try them in lanes.

A verdict is kept outside the tree, as a file whose name has the crate, the edit and the sum of what the verdict stands on. These files are
beside the proofs that `rt ci` keeps on this machine, or in out/ if that store isn't there.
"""
import os
import sys
import tempfile
import threading
from collections import Counter
from concurrent.futures import ThreadPoolExecutor
from pathlib import Path

from edit_sums import sum_of
from edit_trials import AT_LIMIT, BY_OTHER, REFUSED
from edits import batches_of
from kit import store
from places import TOP
from progress import Line

# An edit that is refused by another goal than a clause which it names passes too; the last lines list these.
WELL = (REFUSED, BY_OTHER, AT_LIMIT)
SHARES = 40


class Verdicts:
    """The edits that were refused, as they and what their verdicts stand on are now."""

    def __init__(self, folder, logic):
        self.folder, self.logic = folder, logic

    @classmethod
    def of_kit(cls, logic):
        kept = store()
        return cls(kept / "edits-rookdresser" if os.access(kept, os.W_OK) else TOP / "out" / "tried_edits", logic)

    def path(self, crate, edit):
        return self.folder / ("%s.%s.%s" % (crate.name, edit.name, sum_of(self.logic, crate, edit)))


def due(crates, every, verdicts, turn):
    """The edits that are due, by crate: those without a verdict, and of the others one in forty. Those of a turn are next to each other in the
    batches of all, so few runs try them."""
    edits = [(name, edit) for name in crates for batch in batches_of(every[name]) for edit in batch]
    found = {name: [] for name in crates}
    for at, (name, edit) in enumerate(edits):
        if at * SHARES // len(edits) == turn % SHARES or not verdicts.path(crates[name], edit).exists():
            found[name].append(edit)
    return found


def turned(batches, turn):
    """The batches, of which another one is the first at each turn."""
    at = turn % SHARES * len(batches) // SHARES
    return batches[at:] + batches[:at]


class Runs:
    """Tries the edits of trials, tells each verdict once it stands, and keeps it if the edit is refused. Begins no trial once `is_over()`."""

    def __init__(self, trials, verdicts, is_over=lambda: False):
        self.waiting, self.is_over, self.lock = list(trials), is_over, threading.Lock()
        self.paths = {(trial.crate.name, edit.name): verdicts.path(trial.crate, edit) for trial in self.waiting for edit in trial.edits}
        self.passed, self.failed, self.others, self.seconds = 0, 0, [], 0.0
        self.progress = Line("try_edits")

    def run(self, lanes):
        with ThreadPoolExecutor(lanes) as pool:
            for lane in [pool.submit(self.work) for _ in range(lanes)]:
                lane.result()
        self.progress.wipe()

    def work(self):
        """Tries one batch after another. What those before it proved of its crate, a trial takes over."""
        with tempfile.TemporaryDirectory(prefix="tried-") as name:
            while (trial := self.next_trial()) is not None:
                self.finish(trial, Path(name, trial.crate.name))

    def next_trial(self):
        with self.lock:
            return self.waiting.pop(0) if self.waiting and not self.is_over() else None

    def finish(self, trial, over):
        """Runs a trial over what a folder holds. An edit that isn't refused beside others is tried alone."""
        verdicts = trial.run(over).verdicts()
        is_settled = {edit.name: len(trial.edits) == 1 or verdicts[edit.name][0] in (REFUSED, AT_LIMIT) for edit in trial.edits}
        with self.lock:
            self.seconds += trial.seconds
            for edit in trial.edits:
                if is_settled[edit.name]:
                    self.tell(trial.crate.name, edit.name, *verdicts[edit.name])
        for edit in trial.edits:
            if not is_settled[edit.name]:
                self.finish(trial.alone(edit), over)

    def tell(self, crate, name, kind, why):
        path = self.paths[crate, name]
        if kind in WELL:
            self.passed += 1
            path.parent.mkdir(parents=True, exist_ok=True)
            path.write_text("%s: %s\n" % (kind, why))
        else:
            self.failed += 1
            path.unlink(missing_ok=True)
        self.others += [name] if kind == BY_OTHER else []
        self.progress.above("%s: %s: %s: %s\n" % (crate, name, kind, why), sys.stdout)
        self.progress.tell("%d of %d edits" % (self.passed + self.failed, len(self.paths)))

    def not_tried(self):
        """How many edits weren't tried, by crate."""
        return Counter(trial.crate.name for trial in self.waiting for _ in trial.edits)
