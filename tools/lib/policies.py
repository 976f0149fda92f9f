"""Caches over the same keys, for tools/hit_curve: each tells of every look-up whether it hits, with so many entries."""
import heapq
from collections import OrderedDict, deque

from model.adviser import Adviser
from model.sketch import Sketch
from model.trace import word_of_name


def lru(keys, entries):
    """The least recently used entry leaves."""
    held = OrderedDict()
    for key in keys:
        hit = key in held
        if hit:
            held.move_to_end(key)
        else:
            held[key] = None
            if len(held) > entries:
                held.popitem(last=False)
        yield hit


def fifo(keys, entries):
    """The oldest entry leaves."""
    held, order = set(), deque()
    for key in keys:
        hit = key in held
        if not hit:
            held.add(key)
            order.append(key)
            if len(held) > entries:
                held.discard(order.popleft())
        yield hit


def next_uses(keys):
    """For each look-up the place of the next one of its key, or the number of look-ups."""
    nexts, seen = [0] * len(keys), {}
    for at in range(len(keys) - 1, -1, -1):
        nexts[at] = seen.get(keys[at], len(keys))
        seen[keys[at]] = at
    return nexts


def optimum(keys, entries):
    """Belady's rule: the entry whose next look-up is farthest away leaves. No cache that keeps what it has just loaded does better."""
    nexts, due, farthest = next_uses(keys), {}, []
    for at, key in enumerate(keys):
        hit = key in due
        if not hit and len(due) >= entries:
            while True:
                when, other = heapq.heappop(farthest)
                if due.get(other) == -when:
                    del due[other]
                    break
        due[key] = nexts[at]
        heapq.heappush(farthest, (-nexts[at], key))
        yield hit


class Lists:
    """The rules of docs/FORMATS.md without moments and weights, over ordered dicts: each ends with its most recent key.

    tools/model has the same rules over plain lists, which takes as long for each look-up as there are entries; the sketch is its.
    """

    def __init__(self, entries, window):
        self.entries = entries
        self.bound_regions(window)
        self.window, self.probation, self.protected = OrderedDict(), OrderedDict(), OrderedDict()
        self.sketch = Sketch(entries)

    def bound_regions(self, window):
        """How many entries window, main and protected may hold."""
        self.window_most, self.main = window, self.entries - window
        self.protected_most = self.main * 4 // 5

    def slide(self, wider):
        """The border between window and main moves by one entry."""
        self.bound_regions(self.window_most + (1 if wider else -1))
        for region, most in ((self.window, self.window_most), (self.protected, self.protected_most)):
            if len(region) > most:
                oldest, word = region.popitem(last=False)
                self.probation[oldest] = word
        if len(self.probation) + len(self.protected) > self.main:
            oldest, word = self.probation.popitem(last=False)
            self.window[oldest] = word

    def touch(self, key):
        """Whether the key is held; it becomes the most recent then."""
        if key in self.probation:
            self.protected[key] = self.probation.pop(key)
            if len(self.protected) > self.protected_most:
                oldest, word = self.protected.popitem(last=False)
                self.probation[oldest] = word
            return True
        region = next((region for region in (self.window, self.protected) if key in region), None)
        if region is not None:
            region.move_to_end(key)
        return region is not None

    def store(self, key, word):
        """The key enters the window, and the window's oldest leaves it for the main part if it is let in."""
        self.window[key] = word
        if len(self.window) <= self.window_most:
            return
        candidate, word = self.window.popitem(last=False)
        if len(self.probation) + len(self.protected) >= self.main:
            if not self.probation:
                return
            victim = next(iter(self.probation))
            if self.sketch.estimate(word) <= self.sketch.estimate(self.probation[victim]):
                return
            del self.probation[victim]
        self.probation[candidate] = word


def words_of(keys, names):
    """The word of each key."""
    words = {}
    for key in keys:
        if key not in words:
            words[key] = word_of_name(key) if names else int(key)
        yield words[key]


def ours(keys, entries, window, names=False):
    """A key is counted at each look-up, and one that isn't held is loaded and stored. Without a window it follows the stream."""
    adviser = Adviser(entries) if window is None else None
    lists = Lists(entries, adviser.wanted() if adviser else window)
    for key, word in zip(keys, words_of(keys, names)):
        hit = lists.touch(key)
        lists.sketch.count(word)
        if not hit:
            lists.store(key, word)
        if adviser:
            adviser.saw(word)
            for wider in adviser.slides(lists):
                lists.slide(wider)
        yield hit


POLICIES = {"LRU": lru, "FIFO": fifo, "optimum": optimum}
