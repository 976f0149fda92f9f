"""One cache: the entries, the open loads, and what each letter does."""
from model.adviser import Adviser
from model.regions import Regions


class Load:
    """A load, with the lines that asked for it: the one that opened it, and those that joined."""

    def __init__(self, number, key, line):
        self.number, self.key, self.lines, self.current = number, key, [line], True

    @property
    def sharers(self):
        return len(self.lines)


class Shard(Regions):
    """One cache: the entries, and the open loads in the order of opening. `line` is the number of the line that is done."""

    def __init__(self, s):
        super().__init__(s)
        self.loads, self.next_load, self.line = [], 1, 0
        self.adviser = Adviser(s["entries"]) if s.get("adaptive") else None

    # The loads.

    def current(self, key):
        return next((load for load in self.loads if load.current and load.key == key), None)

    def forget(self, key):
        load = self.current(key)
        if load is not None:
            load.current = False
            self.note("forgotten", key, load.number)
        return load is not None

    def may_open(self):
        return len(self.loads) < self.s["flights"]

    def open(self, key):
        load = Load(self.next_load, key, self.line)
        self.next_load += 1
        self.loads.append(load)
        return load

    def weight_of(self, key):
        return 1 + key[1] % self.s["mod"]

    def fails(self, key):
        return self.s["fail-mod"] is not None and key[1] % self.s["fail-mod"] == 0

    def land(self, load, key, version):
        """Lands the load, and returns its word."""
        self.drop_own_expired(key)
        self.loads.remove(load)
        if self.fails(key):
            self.counts["failed"] += 1
            self.note("failed", key, load.number, load.sharers)
            return "fail 7"
        self.counts["loads"] += 1
        self.note("landed", key, load.number, load.sharers)
        weight = self.weight_of(key)
        if not load.current or weight > self.s["weight"]:
            self.note(*("too heavy to keep", key, weight, self.s["weight"]) if load.current else ("stale", key, load.number))
            return "loose %d" % load.sharers
        self.store(key, version, weight)
        return "land %d" % load.sharers

    # The window.

    def follow(self, moment, key):
        """Lets the window follow a look-up of the key, if there is an adviser. Each slide is a step."""
        if self.adviser is None:
            return
        self.adviser.saw(key[1])
        for wider in self.adviser.slides(self):
            self.latest = max(self.latest, moment)
            self.slide(wider)

    # The letters: each returns its words, or None where the line was no step.

    def look(self, moment, key, seeks):
        """What a look-up meets, and the load that a seek opened."""
        before = self.latest
        self.begin_step(moment)
        entry = self.entries.get(key)
        hit = entry is not None and not self.is_expired(entry)
        if seeks and not hit and self.current(key) is None and not self.may_open():
            self.latest, self.notes = before, [("full", key, len(self.loads))]
            return "full", None
        self.drop_own_expired(key)
        self.counts["lookups"] += 1
        self.counts["hits" if hit else "misses"] += 1
        words, opened = self.meet(entry, seeks) if hit else self.miss(key, seeks)
        self.count(key)
        return words, opened

    def meet(self, entry, seeks):
        """A look-up finds the entry; a seek opens a load beside it if it is due."""
        self.note("hit", entry.key, self.region_of(entry), entry.version)
        entry.used, opened = self.latest, None
        if seeks and self.is_due(entry) and self.current(entry.key) is None and self.may_open():
            opened = self.open(entry.key)
            self.note("refresh", entry.key, opened.number, self.latest - entry.written)
        self.touch(entry)
        return "hit %d" % entry.version, opened

    def miss(self, key, seeks):
        """A look-up finds nothing; a seek joins the key's load, or opens one."""
        self.note("miss", key)
        if not seeks:
            return "absent", None
        load = self.current(key)
        if load is None:
            load = self.open(key)
            self.note("lead", key, load.number)
            return "", load
        load.lines.append(self.line)
        self.note("join", key, load.number, load.sharers)
        return "join %d" % load.number, None

    def letter_L(self, moment, key, number):
        return self.look(moment, key, False)[0]

    def letter_S(self, moment, key, number):
        words, opened = self.look(moment, key, True)
        return (words + " lead %d" % opened.number).strip() if opened else words

    def letter_G(self, moment, key, number):
        words, opened = self.look(moment, key, True)
        if opened:
            landed = self.land(opened, key, number)
            words = (words + " " + ("load" if landed.startswith("land") else landed)).strip()
        return words

    def letter_E(self, moment, key, number):
        load = next((load for load in self.loads if load.key == key), None)
        if load is None:
            self.note("no load", key)
            return "none"
        self.begin_step(moment)
        return self.land(load, key, number)

    def letter_P(self, moment, key, number):
        weight = self.weight_of(key)
        if weight > self.s["weight"]:
            self.note("heavy", key, weight, self.s["weight"])
            return "heavy"
        self.begin_step(moment)
        self.drop_own_expired(key)
        self.forget(key)
        self.store(key, number, weight)
        self.count(key)
        return "put"

    def letter_D(self, moment, key, number):
        self.begin_step(moment)
        self.drop_own_expired(key)
        self.forget(key)
        entry = self.entries.get(key)
        if entry is None:
            self.note("nothing to drop", key)
            return "absent"
        self.take_out(entry)
        self.tell(entry, "explicit")
        return "drop"

    def letter_F(self, moment, key, number):
        self.begin_step(moment)
        self.drop_own_expired(key)
        if self.forget(key):
            return "forget"
        self.note("nothing to forget", key)
        return "none"

    def letter_C(self, moment, key, number):
        self.begin_step(moment)
        for region in self.regions():
            for entry in reversed(list(region)):
                if self.is_expired(entry):
                    region.remove(entry)
                    self.tell(entry, "expired")
        self.note("cleaned", None, len(self.left))
        return "clean"

    def letter_X(self, moment, key, number):
        self.begin_step(moment)
        for region in self.regions():
            for entry in reversed(list(region)):
                region.pop()
                self.tell(entry, "expired" if self.is_expired(entry) else "explicit")
        for key in [load.key for load in self.loads if load.current]:
            self.forget(key)
        self.note("cleared", None, len(self.left))
        return "clear"
