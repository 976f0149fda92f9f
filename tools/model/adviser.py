"""The advice on a window, and a cache that follows it, over plain lists.

It is written from crates/wt_adviser/README.md alone and shares nothing with the proved adviser. A cache here takes as long for each
look-up as it has entries.
"""
from model.regions import Regions
from model.sketch import Sketch

SAMPLE_FACTOR = 0xA0761D6478BD642F
HIT = 65_536
# In hundredths of the entries.
SHARES = (1, 10, 40, 100)
FIRST_SHARE = 10
LEAST_ENTRIES, MOST_ENTRIES = 64, 64 * 65_536
SLIDES = 4


def window_of(entries, share):
    return max(entries * share // 100, 1)


def small_entries(entries):
    return max(min(entries // 8, 64), 32, entries // 64)


class Cache(Regions):
    """A cache that stores at once what it doesn't find. No entry of it expires, and none weighs anything."""

    def __init__(self, entries, window, sketch):
        super().__init__({"entries": entries, "window": window, "weight": 1, "write": None, "access": None, "refresh": None})
        self.sketch = sketch

    def look(self, word):
        """Whether the key with this word was there. The caller has counted it."""
        self.left, self.notes = [], []
        key = (str(word), word)
        entry = self.entries.get(key)
        if entry is None:
            self.store(key, 0, 0)
        else:
            self.touch(entry)
        return entry is not None


class Adviser:
    """Four small caches, one for each share, that look a sample of the keys up; and the hits of each, of which older ones weigh less."""

    def __init__(self, entries):
        if not LEAST_ENTRIES <= entries <= MOST_ENTRIES:
            raise ValueError("entries is %d, and has to be from %d to %d" % (entries, LEAST_ENTRIES, MOST_ENTRIES))
        self.entries = entries
        small = small_entries(entries)
        self.below = (2 ** 64 - 1) // (entries // small)
        self.sketch = Sketch(small)
        self.small = {share: Cache(small, window_of(small, share), self.sketch) for share in SHARES}
        self.hits, self.sampled, self.since = dict.fromkeys(SHARES, 0), 0, 0
        self.chosen, self.choices = FIRST_SHARE, 0

    def wanted(self):
        return window_of(self.entries, self.chosen)

    def saw(self, word):
        """Takes note of a look-up of the key with this word."""
        if SAMPLE_FACTOR * word % 2 ** 64 < self.below:
            self.sample(word)
        self.since += 1
        if self.since == self.entries // 2:
            self.since = 0
            self.choose()
            self.fade()

    def sample(self, word):
        self.sketch.count(word)
        self.sampled += HIT
        for share, cache in self.small.items():
            if cache.look(word):
                self.hits[share] += HIT

    def slides(self, cache):
        """The slides that follow a look-up, for each whether it makes the window wider. The caller makes one before the next."""
        for _ in range(SLIDES):
            if cache.window_most != self.wanted():
                yield cache.window_most < self.wanted()

    def choose(self):
        best = max(SHARES, key=self.hits.get)
        if 100 * (self.hits[best] - self.hits[self.chosen]) > self.sampled:
            self.chosen = best
            self.choices += 1

    def fade(self):
        self.hits = {share: 15 * hits // 16 for share, hits in self.hits.items()}
        self.sampled = 15 * self.sampled // 16


def window_after(keys, entries):
    """The window that is advised after look-ups of these keys."""
    adviser = Adviser(entries)
    for word in keys:
        adviser.saw(word)
    return adviser.wanted()


def play(keys, entries):
    """The hits of a cache that follows the advice, its mean window, and how often another window was chosen."""
    adviser = Adviser(entries)
    cache = Cache(entries, adviser.wanted(), Sketch(entries))
    hits = windows = 0
    for word in keys:
        cache.count((str(word), word))
        hits += cache.look(word)
        windows += cache.window_most
        adviser.saw(word)
        for wider in adviser.slides(cache):
            cache.slide(wider)
    return hits, windows / max(len(keys), 1), adviser.choices
