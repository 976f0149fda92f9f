"""Foretells what crates/wt_scenarios prints of a scenario, by the rules of this folder over plain lists.

The form of a scenario and of what is printed stands in crates/wt_scenarios/README.md.
"""
from model import COUNTED, shard_of
from model.regions import REGIONS
from model.sampler import Sampler
from model.shard import Shard

DEFAULTS = {"entries": 4, "window": 1, "weight": 2 ** 48, "write": None, "access": None, "refresh": None, "flights": 64, "ring": 128, "shards": 1}
OF_SHARDS = {"look", "peek", "seek", "land", "put", "drop", "forget", "clean", "clear", "slide"}
OF_CACHE = OF_SHARDS - {"seek", "land"} | {"get"}
CALLS = {"core": OF_SHARDS | {"get"}, "shards": OF_SHARDS | {"read"}, "cache": OF_CACHE | {"read"}, "callers": OF_CACHE | {"read"}}
# A caller isn't told how many steps its sweeps made, nor of the look behind a read, and a peek is no step.
UNTOLD = {("callers", "clean"), ("callers", "clear")} | {(layer, word) for layer in CALLS for word in ("peek", "read")}
HEAVY, FULL, FAILED = 3, 4, 6


def as_key(number):
    """A key as the model has it: the text that is printed, and its word."""
    return str(number), number


class Played(Shard):
    """One cache whose calls are handed their values: `given` is what the present call stores, as its number, weight and life, or None if the
    load fails."""

    def __init__(self, s, sampler=None):
        super().__init__(s)
        # The sampler is the caller's, of whom there is one for all shards.
        self.steps, self.given, self.sampler = 0, None, sampler or Sampler()
        # Each load that a seek opened, by its number and key.
        self.sought = set()

    # What the rules of a trace would make of the key, a scenario says.

    def weight_of(self, key):
        return self.given[1]

    def life_of(self, key):
        return self.given[2] or None

    def fails(self, key):
        return self.given is None

    def entry_words(self, entry):
        return "%d %d" % (entry.version, entry.weight)

    def full(self):
        return "fault %d %d" % (FULL, self.s["flights"])

    # The calls: each returns what it says, which is a refusal if it begins with 'fault' and no step was made.

    def step(self, words):
        self.steps += 1
        return words

    def look(self, moment, key, seeks=False):
        """As the model's, but what is found is told with its weight."""
        found = self.entries.get(key)
        words, opened = super().look(moment, key, seeks)
        if words == "full":
            return self.full(), None
        self.steps += 1
        return ("hit " + self.entry_words(found) if words.startswith("hit") else words), opened

    def call_look(self, moment, key):
        return self.look(moment, key)[0]

    def call_peek(self, moment, key):
        """What a look would find, with nothing moved: not even the latest moment."""
        latest, self.latest = self.latest, max(self.latest, moment)
        found = self.entries.get(key)
        words = "absent" if found is None or self.is_expired(found) else "hit " + self.entry_words(found)
        self.latest = latest
        return words

    def call_read(self, moment, key):
        """A peek, and then a look if the policy hears of this hit."""
        words = self.call_peek(moment, key)
        if words == "absent":
            self.sampler.missed()
        elif self.s["access"] is not None or self.sampler.is_told():
            self.look(moment, key)
        return words

    def call_seek(self, moment, key):
        words, opened = self.look(moment, key, True)
        if opened is None:
            return words
        self.sought.add((opened.number, key))
        return words.replace("hit", "hit-lead") + " %d" % opened.number if words else "lead %d" % opened.number

    def call_get(self, moment, key, given):
        """A seek, and the landing of the load that it opened. Returns the number of the seek's step too."""
        words, opened = self.look(moment, key, True)
        at = self.steps
        if opened is None:
            return words, at
        self.given = given[1]
        self.step(self.land(opened, key, self.given and self.given[0]))
        if words:
            return words.replace("hit", "refreshed"), at
        return ("fault %d %d" % (FAILED, given[0]) if self.given is None else "loaded %d %d" % self.given[:2]), at

    def call_land(self, moment, key, number, word, given):
        """`given` is kept, if `word` says so; a load that is landed loose brings what is too heavy to keep."""
        self.begin_step(moment)
        load = next((load for load in self.loads if (load.number, load.key) == (number, key)), None)
        if load is None:
            self.drop_own_expired(key)
            return self.step("gone")
        self.given = {"keep": given, "loose": (0, self.s["weight"] + 1, 0), "failed": None}[word]
        landed = self.land(load, key, self.given and self.given[0]).split()[0]
        return self.step("%s %d" % ({"land": "kept", "loose": "loose", "fail": "failed"}[landed], load.sharers))

    def call_put(self, moment, key, given):
        self.given = given
        if self.letter_P(moment, key, given[0]) == "heavy":
            return "fault %d %d %d" % (HEAVY, given[1], self.s["weight"])
        return self.step("stored")

    def call_drop(self, moment, key):
        return self.step({"drop": "dropped", "absent": "not-there"}[self.letter_D(moment, key, 0)])

    def call_forget(self, moment, key):
        return self.step({"forget": "forgot", "none": "no-load"}[self.letter_F(moment, key, 0)])

    def call_clean(self, moment):
        self.letter_C(moment, None, 0)
        return self.step("cleaned")

    def call_clear(self, moment):
        self.letter_X(moment, None, 0)
        return self.step("cleared")

    def call_slide(self, moment, _key, way):
        self.begin_step(moment)
        return self.step("slid" if self.slide(way == "wider") else "at-the-end")


class Scenario:
    """A scenario's settings, its lines as words, and the layers on which it is to be played."""

    def __init__(self, text):
        self.settings, self.lines, self.layers = dict(DEFAULTS), [], []
        for line in text.splitlines():
            words = line.split("#")[0].split()
            if line.startswith("# layers:"):
                self.layers = line.split(":")[1].split()
            elif words[:1] == ["settings"]:
                self.settings.update((name, int(number)) for name, number in zip(words[1::2], words[2::2]))
            elif words:
                self.lines.append(words)


def value_of(words):
    """A value's number, weight, and life, which is 0 for none."""
    return int(words[0]), int(words[1]), int(words[2]) if words[2:] else 0


def arguments(words):
    """What a call is handed beside its moment: the key, and what is stored or how a load ends."""
    if len(words) == 2:
        return ()
    key = as_key(int(words[2]))
    if words[1] == "slide":
        return key, words[3]
    if words[1] == "get":
        failed = words[3] == "failed"
        return key, (int(words[4]), None if failed else value_of(words[3:]))
    if words[1] == "put":
        return key, value_of(words[3:])
    if words[1] == "land":
        return key, int(words[3]), words[4], value_of(words[5:]) if words[5:] else None
    return (key,)


def told(shards, words, layer):
    """The line that is printed of a call: the step, what it says, and what left."""
    if words[1] not in CALLS[layer]:
        return "- no-such-call"
    handed = arguments(words)
    at = [shards[shard_of(handed[0][1], len(shards))]] if handed else shards
    # Shards land a load by its lead, and a core by any number.
    if words[1] == "land" and layer == "shards" and handed[1::-1] not in at[0].sought:
        return "- no-such-call"
    for shard in at:
        shard.left = []
        said = getattr(shard, "call_" + words[1])(int(words[0]), *handed)
    said, step = said if isinstance(said, tuple) else (said, at[0].steps)
    untold = said.startswith("fault") or (layer, words[1]) in UNTOLD
    return "%s %s%s" % ("-" if untold else step, said, "".join(text for shard in at for text in shard.left))


def stats(shards):
    sums = {name: sum(shard.counts[name] for shard in shards) for name in COUNTED}
    sums["entries"] = sum(len(shard.entries) for shard in shards)
    sums["weight"] = sum(shard.weight for shard in shards)
    return "stats " + " ".join("%s %d" % part for part in sums.items())


def order(shard):
    regions = zip(REGIONS, shard.regions())
    return "order " + " ".join(" ".join([name] + [entry.key[0] for entry in region]) for name, region in regions)


def foretell(scenario, layer, shard_type=Played):
    """The lines that are printed of a scenario on a layer."""
    sampler = Sampler()
    shards = [shard_type(scenario.settings, sampler) for _ in range(1 if layer == "core" else scenario.settings["shards"])]
    printed = []
    for words in scenario.lines:
        if words == ["stats"]:
            printed.append(stats(shards))
        elif words == ["order"]:
            printed += [order(shards[0])] if layer == "core" else []
        else:
            printed.append(told(shards, words, layer))
    return printed
