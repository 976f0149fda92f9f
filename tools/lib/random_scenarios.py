"""Random scenarios for tools/gate/check_scenarios, each of settings, layers and calls that are likely to meet one another."""
from cases import skewed
from model.sampler import Sampler
from model.scenario import Played, told
from options import BELOW_64

# How often each call is drawn: on layers with loads by hand, and on those with gets.
BY_HAND = {"look": 4, "peek": 3, "read": 3, "seek": 8, "land": 7, "put": 5, "drop": 2, "forget": 2, "clean": 0.5, "clear": 0.2, "slide": 3}
BY_GETS = {"look": 4, "peek": 3, "read": 3, "get": 10, "put": 4, "drop": 2, "forget": 1, "clean": 0.5, "clear": 0.2, "slide": 3}
LINES, MOST_WEIGHT = 150, 1_000_000


def random_settings(rng):
    entries = rng.choice((1, 2, 2, 3, 4, 4, 6, 8, 12))
    flights = rng.choice((1, 1, 2, 3, 5))
    some = {
        "window": rng.choice((1, 1, rng.randint(1, entries))),
        "weight": rng.choice((rng.randint(0, 8), rng.randint(1, 4 * entries), 1_000_000)),
        "write": rng.choice((0, rng.randint(1, 20), rng.randint(1, 100))),
        "access": rng.choice((0, rng.randint(1, 20), rng.randint(1, 60))),
        "refresh": rng.choice((0, rng.randint(1, 20), rng.randint(1, 60))),
    }
    chosen = {name: number for name, number in some.items() if number and rng.random() < 0.6}
    return {"entries": entries, "window": 1, **chosen, "flights": flights, "ring": rng.choice((flights + 1, flights + 2, 40))}


class Maker:
    """Makes the lines of a scenario, and plays them at once, so that it knows which loads are open."""

    def __init__(self, rng, settings, calls):
        self.rng, self.settings, self.calls = rng, settings, calls
        sampler = Sampler()
        self.shards = [Played(settings, sampler) for _ in range(settings["shards"])]
        self.keys = range(1, rng.randint(1, 2 * settings["entries"] + 2) * settings["shards"] + 1)
        self.often = skewed(rng, len(self.keys))
        self.moment, self.version, self.opened = rng.choice((0, 0, 1000, 1_700_000_000_000, BELOW_64 - 500)), 0, []

    def later(self):
        """The next moment: the same, a little later, or now and then earlier."""
        back = self.rng.randint(0, 20) if self.rng.random() < 0.2 else 0
        self.moment = min(BELOW_64, max(0, self.moment + self.rng.choice((0, 0, 1, 3, 9)) - back))
        return self.moment

    def stored(self):
        """A new value and its weight, mostly one that fits, and now and then its life, as words."""
        self.version += 1
        most = min(self.settings["weight"], MOST_WEIGHT)
        weight = self.rng.choice((0, 1, 1, self.rng.randint(0, min(most, 12)), self.rng.randint(0, most), most + 1))
        life = " %d" % self.rng.randint(0, 30) if self.rng.random() < 0.3 else ""
        return "%d %d%s" % (self.version, weight, life)

    def landing(self):
        """The load that is landed, of those that were ever opened, most often the newest, and how."""
        number, key = self.opened[-1] if self.rng.random() < 0.6 else self.rng.choice(self.opened)
        how = self.rng.choice(("keep " + self.stored(), "keep " + self.stored(), "loose", "failed"))
        return "land %d %d %s" % (key, number, how)

    def call(self):
        word = self.rng.choices(list(self.calls), self.calls.values())[0]
        key = self.rng.choices(self.keys, self.often)[0]
        if word in ("clean", "clear"):
            return word
        if word == "slide":
            return "slide %d %s" % (key, self.rng.choice(("wider", "narrower")))
        if word == "land":
            return self.landing() if self.opened else "seek %d" % key
        if word == "put":
            return "put %d %s" % (key, self.stored())
        if word == "get":
            failed = self.rng.random() < 0.2
            return "get %d failed %d" % (key, self.rng.getrandbits(32)) if failed else "get %d %s" % (key, self.stored())
        return "%s %d" % (word, key)

    def line(self):
        """A call as a line. A load that it opens may be landed by a later one."""
        line = "%d %s" % (self.later(), self.call())
        words = line.split()
        said = told(self.shards, words, "core").split()
        if words[1] == "seek" and said[1] in ("lead", "hit-lead"):
            self.opened.append((int(said[2 if said[1] == "lead" else 4]), int(words[2])))
        return line


def random_scenario(rng):
    """The text of a scenario."""
    settings = {**random_settings(rng), "shards": rng.choice((1, 1, 2, 4))}
    calls = rng.choice((BY_HAND, BY_GETS))
    layers = ["shards"] if calls is BY_HAND else ["cache", "callers"]
    layers = (["core"] if settings["shards"] == 1 else []) + layers
    maker = Maker(rng, {**dict.fromkeys(("write", "access", "refresh")), "weight": 2 ** 48, **settings}, calls)
    lines = ["# layers: " + " ".join(layers), "settings " + " ".join("%s %d" % pair for pair in settings.items())]
    for number in range(1, LINES + 1):
        lines += [maker.line()] + (["stats", "order"] if number % 6 == 0 else [])
    return "\n".join(lines) + "\n"
