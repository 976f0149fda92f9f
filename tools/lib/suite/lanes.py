"""Runs parts side by side, the longest first, and tells each one's end."""
import threading
import time

from . import part as parts


class Lanes:
    """As many parts at once as there are lanes. A part whose forerunner failed isn't run, and has failed too."""

    def __init__(self, count, environment, logs, tell):
        self.count, self.environment, self.logs, self.tell = count, environment, logs, tell
        self.changed = threading.Condition()
        self.total, self.waiting, self.outcomes = 0, [], {}

    def run(self, all_parts):
        """The outcomes, in the order in which the parts ended."""
        self.total, self.waiting = len(all_parts), sorted(all_parts, key=lambda part: -part.seconds)
        lanes = [threading.Thread(target=self.work, daemon=True) for _ in range(self.count)]
        for lane in lanes:
            lane.start()
        for lane in lanes:
            lane.join()
        return list(self.outcomes.values())

    def work(self):
        while (part := self.next_part()) is not None:
            began = time.monotonic()
            outcome = self.outcome_of(part)
            outcome.seconds = time.monotonic() - began
            with self.changed:
                self.outcomes[part.name] = outcome
                self.tell(outcome, self.total - len(self.outcomes))
                self.changed.notify_all()

    def next_part(self):
        """Takes the first part that may begin, once there is one; none if no part waits."""
        with self.changed:
            while self.waiting:
                for part in self.waiting:
                    if all(name in self.outcomes for name in part.after):
                        self.waiting.remove(part)
                        return part
                self.changed.wait()
            return None

    def outcome_of(self, part):
        lacking = part.lacks()
        if lacking:
            why = "%s: %s isn't there" % (part.name, ", ".join(lacking))
            return parts.Outcome(part, parts.SKIPPED, why, skips=[why])
        for how in (parts.FAILED, parts.SKIPPED):
            before = [name for name in part.after if self.outcomes[name].how == how]
            if before:
                why = "%s: not run, since %s %s" % (part.name, " and ".join(before), "failed" if how == parts.FAILED else "was skipped")
                return parts.Outcome(part, how, why, skips=[why] if how == parts.SKIPPED else [])
        return parts.outcome_of(part, self.environment, self.logs)
