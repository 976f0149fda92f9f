"""Models with one mistake each, for `--wrong` of `tools/gate/check_program` and `check_scenarios`: each check has to find every one."""
from itertools import islice

import model
from model.adviser import SHARES, Adviser
from model.shard import Shard
from model.sketch import Sketch


class AddsAtFull(Sketch):
    def count(self, word):
        for row, place in zip(self.rows, self.places(word)):
            row[place] = min(15, row[place] + 1)
        self.additions += 1
        if self.is_time_to_halve():
            self.halve()


class StopsAt7(Sketch):
    def count(self, word):
        if self.estimate(word) < 7:
            super().count(word)


def opened(change):
    """The opening of a shard, which is then changed."""
    def init(self, s):
        Shard.__init__(self, s)
        change(self)
    return init


def with_sketch(kind):
    return opened(lambda self: setattr(self, "sketch", kind(self.s["entries"])))


def during(method, **members):
    """A method that is done while the shard has these members in place of its own."""
    def done(self, *given):
        self.__dict__.update(members)
        words = getattr(Shard, method)(self, *given)
        for name in members:
            del self.__dict__[name]
        return words
    return {method: done}


def turned_round(lists, method):
    """A method that is done while lists of the shard are turned round."""
    def done(self, *given):
        for one in lists(self):
            one.reverse()
        words = getattr(Shard, method)(self, *given)
        for one in lists(self):
            one.reverse()
        return words
    return {method: done}


def set_current(load):
    load.current = True
    return load


# What a shard has in place of its own members.
CHANGED = {
    "EqualAgeIsServed": {"is_past": lambda self, since, duration: duration is not None and self.latest - since > duration},
    "TieAdmits": {"wins": lambda self, candidate, victim: self.sketch.estimate(candidate.key[1]) >= self.sketch.estimate(victim.key[1])},
    "TrimBeginsAtWindow": {"trim_order": lambda self: (self.window, self.probation, self.protected)},
    "TrimBeginsAtProtected": {"trim_order": lambda self: (self.protected, self.probation, self.window)},
    # In a trace the weight of a key is always the same, so only a scenario shows it.
    "TrimMayTakeTheStored": {"trim": lambda self, stored: Shard.trim(self, None)},
    "HalvesLate": {"__init__": opened(lambda self: setattr(self.sketch, "full", self.sketch.full + 1))},
    "NeverHalves": {"__init__": opened(lambda self: setattr(self.sketch, "full", 2 ** 60))},
    "FullCountersStillAdd": {"__init__": with_sketch(AddsAtFull)},
    "CountersStopAt7": {"__init__": with_sketch(StopsAt7)},
    "ProtectedHoldsAllOfMain": {"__init__": opened(lambda self: setattr(self, "protected_most", self.main))},
    "PutsAreNotCounted": during("letter_P", count=lambda key: None),
    "ExpiredIsReplaced": during("letter_P", drop_own_expired=lambda key: None),
    "PutKeepsTheLoadCurrent": during("letter_P", forget=lambda key: False),
    "ForgottenLoadIsStored": {"land": lambda self, load, key, version: Shard.land(self, set_current(load), key, version)},
    "OnlyCurrentLoadsFillTheLimit": {"may_open": lambda self: sum(1 for load in self.loads if load.current) < self.s["flights"]},
    "NewestLoadIsLanded": turned_round(lambda self: [self.loads], "letter_E"),
    "CleanFromTheFront": turned_round(Shard.regions, "letter_C"),
    "ClearTellsExplicit": during("letter_X", is_expired=lambda entry: False),
    "MomentsGoBack": {"begin_step": lambda self, moment: setattr(self, "latest", moment)},
    "WeightOfTheKey": {"weight_of": lambda self, key: key[1] % self.s["mod"]},
    "KeyZeroDoesNotFail": {"fails": lambda self, key: Shard.fails(self, key) and key[1] != 0},
    "RefreshJoinsNothing": {"is_due": lambda self, entry: False},
    "OneLatestMomentForAllShards": {"latest": property(lambda self: self.s["latest"], lambda self, moment: self.s.update(latest=moment))},
    "OneCountOfLoadsForAllShards": {"next_load": property(lambda self: self.s["next load"], lambda self, number: self.s.update({"next load": number}))},
}
MADE = [type(name, (Shard,), members) for name, members in CHANGED.items()]


class SlideForgetsProtected(Shard):
    def bound_regions(self, window):
        before = getattr(self, "protected_most", None)
        super().bound_regions(window)
        self.protected_most = self.protected_most if before is None else before


class SlideGivesToTheEnd(Shard):
    def slide(self, wider):
        before = list(self.window)
        moved = super().slide(wider)
        if self.window[1:] == before and len(self.window) > 1:
            self.window.append(self.window.pop(0))
        return moved


class LifeFromTheLastUse(Shard):
    def is_expired(self, entry):
        spans = (entry.written, self.s["write"]), (entry.used, self.s["access"]), (entry.used, entry.life)
        return any(self.is_past(since, span) for since, span in spans)


class LifeIsKeptOver(Shard):
    def store(self, key, version, weight):
        replaced = self.entries.get(key)
        life = replaced and replaced.life
        super().store(key, version, weight)
        if replaced is not None:
            replaced.life = life


class LifeEndsALittleLater(Shard):
    def is_expired(self, entry):
        spans = (entry.written, self.s["write"]), (entry.used, self.s["access"]), (entry.written, entry.life and entry.life + 1)
        return any(self.is_past(since, span) for since, span in spans)


class SlideDropsAnEntry(Shard):
    def slide(self, wider):
        moved = super().slide(wider)
        if moved and not wider and self.probation:
            del self.entries[self.probation.pop().key]
        return moved


class PutsAreLookups(Shard):
    def letter_P(self, moment, key, number):
        words = super().letter_P(moment, key, number)
        self.follow(moment, key)
        return words


class TurnsAreNotFollowed(Shard):
    def follow(self, moment, key):
        if not self.s.get("turn"):
            super().follow(moment, key)


class OtherAdviser:
    def __init__(self, s):
        super().__init__(s)
        self.adviser = self.Adviser(s["entries"]) if s.get("adaptive") else None


class FollowsByThree(OtherAdviser, Shard):
    class Adviser(Adviser):
        def slides(self, cache):
            return islice(super().slides(cache), 3)


class AdvisesByAnotherSample(OtherAdviser, Shard):
    class Adviser(Adviser):
        def __init__(self, entries):
            super().__init__(entries)
            self.below //= 2


class AdvisesWithNoLead(OtherAdviser, Shard):
    class Adviser(Adviser):
        def choose(self):
            self.chosen = max(SHARES, key=self.hits.get)


class AdviceNeverFades(OtherAdviser, Shard):
    class Adviser(Adviser):
        def fade(self):
            pass


class TrimStopsAfterOne(Shard):
    def trim(self, stored):
        over = self.weight - self.s["weight"]
        regions = [region for region in self.trim_order() if any(entry is not stored for entry in region)]
        if over > 0 and regions:
            self.tell(regions[0].pop(), "size")


class CountsBeforeTheStep(Shard):
    def letter_P(self, moment, key, number):
        if self.weight_of(key) <= self.s["weight"]:
            self.sketch.count(key[1])
        counting, self.sketch.count = self.sketch.count, lambda word: None
        words = super().letter_P(moment, key, number)
        self.sketch.count = counting
        return words


class ExpiredVictimDuels(Shard):
    def place_candidate(self, candidate):
        expired = self.is_expired
        if not expired(candidate):
            self.is_expired = lambda entry: False
        super().place_candidate(candidate)
        self.__dict__.pop("is_expired", None)


class HitsDoNotCountAsUse(Shard):
    def touch(self, entry):
        entry.used = entry.written
        super().touch(entry)


class HitsInProbationStay(Shard):
    def touch(self, entry):
        if entry in self.probation:
            self.probation.remove(entry)
            self.probation.insert(0, entry)
        else:
            super().touch(entry)


class FullIsAStep(Shard):
    def look(self, moment, key, seeks):
        words, opened = super().look(moment, key, seeks)
        if words == "full":
            self.begin_step(moment)
        return words, opened


class ForgetLeavesTheExpired(Shard):
    def letter_F(self, moment, key, number):
        self.begin_step(moment)
        return "forget" if self.forget(key) else "none"


def shard_by_lower_bits(options, trace):
    upper, model.shard_of = model.shard_of, lambda word, shards: model.SHARD_FACTOR * word % shards
    told = model.run(options, trace)
    model.shard_of = upper
    return told


def entries_for_all_shards(options, trace):
    """A program that divides the entries among its shards."""
    shards = options.get("shards", 1)
    shared = dict(options, entries=max(1, options.get("entries", 1024) // shards)) if shards in (2, 4) else options
    return model.run(shared, trace)


def swapped(one, other):
    """A program that takes one option for another."""
    def run(options, trace):
        names = {one: other, other: one}
        return model.run({names.get(name, name): number for name, number in options.items()}, trace)
    return run


def fault_is_status_0(options, trace):
    status, out, err = model.run(options, trace)
    return (0 if err.startswith(b"fault 1") else status), out, err


def summary_after_a_fault(options, trace):
    status, out, err = model.run(options, trace)
    return status, out + (b"lookups 0 hits 0 misses 0 loads 0 failed 0 evicted 0 entries 0 weight 0\n" if status else b""), err


def last_line_is_lost(options, trace):
    return model.run(options, trace if trace.endswith(b"\n") else trace[:trace.rfind(b"\n") + 1])


def with_shard(shard_type):
    return lambda options, trace: model.run(options, trace, shard_type)


# What is of a letter, or of what a trace makes of a key.
OF_TRACES = ("NewestLoadIsLanded", "WeightOfTheKey", "KeyZeroDoesNotFail", "PutsAreLookups", "TurnsAreNotFollowed")


def wrong_shards():
    return [shard_type for shard_type in Shard.__subclasses__() if shard_type.__module__ == __name__]


def of_calls():
    """Those that a call of the cache shows: all but those of a letter, and of what a trace makes of a key."""
    return [shard_type for shard_type in wrong_shards() if shard_type.__name__ not in OF_TRACES and not issubclass(shard_type, OtherAdviser)]


# No trace shows these.
OF_SCENARIOS = ("TrimMayTakeTheStored", "SlideForgetsProtected", "SlideGivesToTheEnd", "SlideDropsAnEntry", "LifeFromTheLastUse",
                "LifeIsKeptOver", "LifeEndsALittleLater")


def all_wrong():
    """The name and the run of each that a trace shows."""
    for shard_type in wrong_shards():
        if shard_type.__name__ not in OF_SCENARIOS:
            yield shard_type.__name__, with_shard(shard_type)
    yield "WriteForAccess", swapped("write", "access")
    yield "EntriesForWindow", swapped("entries", "window")
    yield "WriteForRefresh", swapped("write", "refresh")
    yield "ShardByLowerBits", shard_by_lower_bits
    yield "EntriesForAllShards", entries_for_all_shards
    yield "FaultIsStatus0", fault_is_status_0
    yield "SummaryAfterAFault", summary_after_a_fault
    yield "LastLineIsLost", last_line_is_lost
