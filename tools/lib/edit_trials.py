"""Tries edits: several stand in one copy of their crate, and the prover is asked for their functions alone.

An edit is refused if a function that it guards or changes has an open goal of its own: a clause that the edit names, the
invariant of a loop that carries the clause, or a clause of an inner function that it changes. An edit that is refused by another goal
alone, as by what a callee requires, or by a function that it doesn't change, is told apart. That a function calls one that isn't proved
is no goal of its own.
Why a refusal here is one of a whole check too: the prover is asked for the named functions and what they call in their modules, and a
whole check proves those and more. An edit that only another function's proof refuses shows as not refused.
"""
import os
import re
import shutil
import subprocess
import tempfile
from pathlib import Path

REFUSED, BY_OTHER, AT_LIMIT, BAD, UNCLEAR, PROVED = "refused", "refused, by another goal", "at a limit of the prover", "bad", "unclear", "NOT REFUSED"
UNPROVED = re.compile(r"^fn (\S+): (?:not proved|no proof)(.*)$")
BY_CALL = re.compile(r"it calls `[^;]*, which (?:is|are) not proved")
SEARCHED = re.compile(r"`search` did not prove (.*)$")
GOAL = re.compile(r"^(?:\./)?proofs/(\S+)/(?:Answers|Invariants|Proof)\.antt:\d+:\d+: error: (?:`([^`]*)`)?")
LIMIT = re.compile(r"^fn (\S+): could not tell", re.M)
ERROR = re.compile(r"\berror(\[[\w-]+\]|:)")
# The compiler refuses this function last. So a copy that compiles but for it isn't given to the prover, which takes several times as long.
MISFIT = "\nfn misfits<T>(misfit: T) -> (T, T) {\n    (misfit, misfit)\n}\n"
IS_MISFIT = "use of moved value: `misfit`"


def own_goals(lines):
    """Of each function that isn't proved its own goals that are open, and whether it is unproved only by what it calls."""
    goals, by_call = {}, {}
    for line in lines:
        unproved, goal = UNPROVED.match(line), GOAL.match(line)
        if unproved:
            name, rest = unproved.group(1).split("::", 1)[-1], unproved.group(2)
            searched = SEARCHED.search(rest)
            by_call[name] = bool(BY_CALL.search(rest))
            goals.setdefault(name, []).extend(re.findall(r"`([\w-]+)`", searched.group(1)) if searched else [])
        elif goal:
            goals.setdefault(goal.group(1).replace("/", "::"), []).append(goal.group(2) or "proof")
    return goals, by_call


def is_carried(goal, name, edit):
    """Whether a goal of a function is a clause that the edit names, or carries one: a loop's invariant, or an inner function's clause."""
    clause = re.search(r"clause-(\w+)$", goal)
    if goal.startswith("returns"):
        is_inner = not any(ends_with(name, function) for function in edit.asked)
        return is_inner or not clause or clause.group(1) in edit.labels or bool(edit.labels & {"ensures", "of its trait"})
    return "preserved" in goal or "-init" in goal or "smaller" in goal


class Trial:
    """A run of the prover over a copy of a crate in which these edits stand."""

    def __init__(self, kit, crate, edits, kept=None):
        self.kit, self.crate, self.edits, self.kept = kit, crate, edits, kept
        self.wrong, self.said, self.status, self.seconds = {}, "", 0, 0.0

    def alone(self, edit):
        """A run of its own for one of the edits."""
        return Trial(self.kit, self.crate, [edit], self.kept)

    def copy_into(self, room):
        for part in self.kit.PARTS:
            if os.path.isdir(os.path.join(self.crate.folder, part)):
                shutil.copytree(os.path.join(self.crate.folder, part), room / part)
        for edit in self.edits:
            texts, wrong = edit.applied(room)
            if wrong:
                self.wrong[edit.name] = "%r doesn't stand exactly once in its file" % wrong[0]
            for path, text in texts.items():
                (room / path).write_text(text)

    def run(self, over):
        """Runs it over what the folder `over` holds, and leaves there what it proved. A new folder begins with what is kept."""
        if not over.exists() and self.kept:
            shutil.copytree(self.kept, over, symlinks=True, copy_function=link_or_copy)
        over.mkdir(exist_ok=True)
        self.check("--incremental", over, *(word for edit in self.edits for function in edit.functions() for word in ("--only", function.printed())))
        return self

    def compile(self):
        """Compiles the copy, and proves nothing. The errors; none if it compiles."""
        self.check("--only", "", after=MISFIT)
        errors = [line for line in self.said.split("\n") if ERROR.search(line)]
        faults = [*self.wrong.values(), *(line for line in errors if IS_MISFIT not in line)]
        return faults if faults or errors else [self.last_line()]

    def check(self, *words, after=""):
        """Runs the prover over the copy with these words. The text stands behind the crate's first source."""
        with tempfile.TemporaryDirectory(prefix="edits-") as name:
            room = Path(name)
            self.copy_into(room)
            roots = [room / "src" / name for name in ("main.rt", "lib.rt")]
            with next(root for root in roots if root.exists()).open("a") as root:
                root.write(after)
            words = [self.kit.RATTLE, "check", *self.crate.words(["--jobs", "1"], keeps=False), *words]
            with open(room / "said", "wb") as said:
                ran = subprocess.Popen([*self.kit.guarded(), *words], cwd=room, stdin=subprocess.DEVNULL, stdout=said, stderr=subprocess.STDOUT)
                _, status, used = os.wait4(ran.pid, 0)
            ran.returncode = self.status = os.waitstatus_to_exitcode(status)
            self.seconds, self.said = used.ru_utime + used.ru_stime, (room / "said").read_text(errors="replace")

    def last_line(self):
        return self.said.rstrip("\n").rsplit("\n", 1)[-1]

    def has_ended(self, limits):
        # Without a function to ask for, the whole crate is checked.
        end = r"only=\d+ proved=\d+" if any(edit.functions() for edit in self.edits) else r"logic="
        return self.status in (0, 1) and re.match(end, self.last_line()) or self.status == 3 and limits

    def verdicts(self):
        """Of each edit what it came to, and a word on why."""
        lines, limits = self.said.rstrip("\n").split("\n"), {name.split("::", 1)[-1] for name in LIMIT.findall(self.said)}
        if not self.has_ended(limits):
            first = next((line for line in lines if ERROR.search(line)), lines[-1])
            # Another definition may leave a lemma without a proof, which no function names.
            is_lemma = self.status == 1 and first.startswith("./proofs/") and all(edit.is_outside for edit in self.edits)
            return {edit.name: (BY_OTHER if is_lemma else BAD if self.status in (1, 2) else UNCLEAR, first[:200]) for edit in self.edits}
        goals, by_call = own_goals(lines)
        of_ours = {name for name in by_call for edit in self.edits if belongs(name, edit)}
        strange = [name for name in by_call if name not in of_ours and (goals.get(name) or not by_call[name])]
        return {edit.name: self.verdict(edit, goals, by_call, limits, strange) for edit in self.edits}

    def verdict(self, edit, goals, by_call, limits, strange):
        if edit.name in self.wrong:
            return BAD, self.wrong[edit.name]
        names = [name for name in by_call if belongs(name, edit)]
        own = [(goal, name) for name in names for goal in goals.get(name, [])]
        alone = len(self.edits) == 1
        if own and (alone or not strange):
            named = [(goal, name) for goal, name in own if is_carried(goal, name, edit)]
            return (REFUSED if named else BY_OTHER), "%s of %s" % (named or own)[0]
        # Alone in a copy of a proved crate, it is this edit for which another function can't be proved.
        if alone and strange:
            return BY_OTHER, "%s, which it doesn't change" % strange[0]
        if any(belongs(name, edit) for name in limits):
            return AT_LIMIT, "it gave no verdict"
        if names or self.status == 3:
            return UNCLEAR, "%s isn't proved either" % strange[0] if strange else "not proved, by no goal of its own"
        return PROVED, "its functions are proved with this edit"


def ends_with(name, function):
    return ("::" + name).endswith("::" + function.printed())


def belongs(name, edit):
    return any(ends_with(name, function) for function in edit.functions())


def link_or_copy(source, target):
    """A check replaces a file of proved work, and changes none, so a link serves."""
    if source.endswith(".oantt"):
        try:
            return os.link(source, target)
        except OSError:
            pass
    return shutil.copy2(source, target)
