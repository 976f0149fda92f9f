"""The entries of one cache, over plain lists: which stand where, and which leave."""
from model.sketch import Sketch

COUNTED = ("lookups", "hits", "misses", "loads", "failed", "evicted")
REGIONS = ("window", "probation", "protected")


class Entry:
    def __init__(self, key, version, weight, life, moment):
        self.key, self.version, self.weight, self.life = key, version, weight, life
        self.written = self.used = moment


class Regions:
    """Three lists with the most recent entry first, the same entries by their keys, the sketch, and what is told of a step.

    `left` has what left in the step, as the report tells it. `notes` says what was done and by which rule, in order: each is a
    tuple of a word, the key that it is about, and further numbers, names of regions or keys. No report tells of them.
    """

    def __init__(self, s):
        self.s = s
        self.bound_regions(s["window"])
        self.window, self.probation, self.protected = [], [], []
        self.entries, self.weight = {}, 0
        self.sketch = Sketch(s["entries"])
        self.latest = 0
        self.counts = dict.fromkeys(COUNTED, 0)
        self.left, self.notes = [], []

    def bound_regions(self, window):
        """How many entries window, main and protected may hold."""
        self.window_most = window
        self.main = self.s["entries"] - window
        self.protected_most = self.main * 4 // 5

    # What is held.

    def regions(self):
        return (self.window, self.probation, self.protected)

    def region_of(self, entry):
        return next(name for name, region in zip(REGIONS, self.regions()) if entry in region)

    def take_out(self, entry):
        for region in self.regions():
            if entry in region:
                region.remove(entry)

    # What is told.

    def note(self, word, key, *more):
        self.notes.append((word, key) + more)

    def tell(self, entry, cause):
        """An entry has left, or is about to have another value."""
        self.left.append(" %s:%d:%s" % (entry.key[0], entry.version, cause))
        if cause != "replaced":
            del self.entries[entry.key]
            self.weight -= entry.weight
        self.note("left " + cause, entry.key, entry.version)
        if cause in ("expired", "size"):
            self.counts["evicted"] += 1

    # Moments.

    def begin_step(self, moment):
        if moment < self.latest:
            self.note("late", None, moment, self.latest)
        self.latest = max(self.latest, moment)

    def is_past(self, since, duration):
        return duration is not None and self.latest - since >= duration

    def is_expired(self, entry):
        return self.is_past(entry.written, self.s["write"]) or self.is_past(entry.used, self.s["access"]) or self.is_past(entry.written, entry.life)

    def expires_at(self, entry):
        """The moment from which the entry is expired, if nobody uses it; None is never."""
        spans = (entry.written, self.s["write"]), (entry.used, self.s["access"]), (entry.written, entry.life)
        return min((since + span for since, span in spans if span is not None), default=None)

    def is_due(self, entry):
        return self.is_past(entry.written, self.s["refresh"])

    def drop_own_expired(self, key):
        entry = self.entries.get(key)
        if entry is not None and self.is_expired(entry):
            self.note("own expired", key, self.expires_at(entry))
            self.take_out(entry)
            self.tell(entry, "expired")

    # The regions.

    def touch(self, entry):
        if entry in self.probation:
            self.probation.remove(entry)
            self.protected.insert(0, entry)
            self.note("promoted", entry.key)
            if len(self.protected) > self.protected_most:
                self.probation.insert(0, self.protected.pop())
                self.note("demoted", self.probation[0].key, self.protected_most)
            return
        for region in (self.window, self.protected):
            if entry in region:
                region.remove(entry)
                region.insert(0, entry)
                self.note("front", entry.key, self.region_of(entry))

    def wins(self, candidate, victim):
        return self.sketch.estimate(candidate.key[1]) > self.sketch.estimate(victim.key[1])

    def rule_for(self, candidate, victim):
        """The first case that fits the candidate."""
        if self.is_expired(candidate):
            return "candidate expired"
        if self.main == 0:
            return "no main"
        if len(self.probation) + len(self.protected) < self.main:
            return "room"
        if victim is None:
            return "no victim"
        if self.is_expired(victim):
            return "victim expired"
        return "wins" if self.wins(candidate, victim) else "loses"

    def place_candidate(self, candidate):
        victim = self.probation[-1] if self.probation else None
        rule = self.rule_for(candidate, victim)
        if rule in ("wins", "loses"):
            self.note(rule, candidate.key, victim.key, *(self.sketch.estimate(entry.key[1]) for entry in (candidate, victim)))
        else:
            self.note(rule, candidate.key, *([victim.key] if rule == "victim expired" else []))
        if rule in ("wins", "victim expired"):
            self.probation.pop()
            self.tell(victim, "expired" if rule == "victim expired" else "size")
        if rule in ("wins", "victim expired", "room"):
            self.probation.insert(0, candidate)
        else:
            self.tell(candidate, "expired" if rule == "candidate expired" else "size")

    def trim_order(self):
        return (self.probation, self.protected, self.window)

    def trim(self, stored):
        while self.weight > self.s["weight"]:
            region = next((r for r in self.trim_order() if any(e is not stored for e in r)), None)
            if region is None:
                break
            self.note("trimmed", region[-1].key, self.region_of(region[-1]), self.weight, self.s["weight"])
            self.tell(region.pop(), "size")

    def life_of(self, _key):
        """The own life of the value that is stored for the key, in milliseconds, or None. A trace gives none."""
        return None

    def store(self, key, version, weight):
        entry = self.entries.get(key)
        if entry is not None:
            self.note("replaces", key, version)
            self.tell(entry, "replaced")
            self.weight += weight - entry.weight
            entry.weight, entry.life = weight, self.life_of(key)
            entry.version, entry.written, entry.used = version, self.latest, self.latest
            self.touch(entry)
        else:
            entry = self.entries[key] = Entry(key, version, weight, self.life_of(key), self.latest)
            self.weight += weight
            self.window.insert(0, entry)
            self.note("enters", key, version)
            if len(self.window) > self.window_most:
                self.place_candidate(self.window.pop())
        self.trim(entry)

    def slide(self, wider):
        """Moves the border between window and main by one entry, and returns whether it moved."""
        window = self.window_most + (1 if wider else -1)
        if not 1 <= window <= self.s["entries"]:
            return False
        self.bound_regions(window)
        if len(self.window) > self.window_most:
            self.probation.insert(0, self.window.pop())
        if len(self.protected) > self.protected_most:
            self.probation.insert(0, self.protected.pop())
        if len(self.probation) + len(self.protected) > self.main:
            self.window.insert(0, self.probation.pop())
        return True

    # How often a key was counted.

    def count(self, key):
        before = self.sketch.additions
        self.sketch.count(key[1])
        if self.sketch.additions < before:
            self.note("halved", None, self.sketch.full)
