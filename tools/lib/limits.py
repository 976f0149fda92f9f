"""Weights and ages of look-ups, for tools/hit_curve: how the program is given them, and plain caches under the same limits."""
from collections import OrderedDict
from itertools import accumulate

# The greatest number that the program's --mod takes.
MOST_MOD = 1_000_000


class Limits:
    """What limits a cache besides its number of entries: how much they may weigh together, and how long after its store one is served."""

    def __init__(self, keys, moments, weights, bound, write):
        self.bound, self.write, self.mod, self.unit = bound, write, 1, 1
        self.moments = list(accumulate((int(moment - moments[0]) for moment in moments), max))
        self.weights, self.several = dict.fromkeys(keys, 1), 0
        if bound is not None:
            self.weigh(keys, weights)
        self.numbers = {key: number for number, key in enumerate(self.weights)}

    def weigh(self, keys, weights):
        """A key weighs what its first line says, to the nearest of units in which the heaviest isn't too heavy for the program."""
        seen = {}
        for key, weight in zip(keys, weights):
            seen.setdefault(key, []).append(weight)
        self.several = sum(len(set(found)) > 1 for found in seen.values())
        self.unit = -(-max(found[0] for found in seen.values()) // MOST_MOD) or 1
        self.weights = {key: max(1, (found[0] + self.unit // 2) // self.unit) for key, found in seen.items()}
        self.mod, self.bound = max(self.weights.values()), self.bound // self.unit

    def options(self):
        """The program's options."""
        weighs = [] if self.bound is None else ["--weight", str(self.bound), "--mod", str(self.mod)]
        return weighs + ([] if self.write is None else ["--write", str(self.write)])

    def lines(self, keys):
        """The trace. A key whose weight counts is a number that weighs that much: 1 + the number modulo --mod."""
        for key, moment in zip(keys, self.moments):
            written = key if self.bound is None else b"%d" % (self.numbers[key] * self.mod + self.weights[key] - 1)
            yield b"%d G %s\n" % (moment, written)

    def told(self):
        weighs = [] if self.bound is None else ["{:,} of weight together{}".format(self.bound, ", in units of {:,}".format(self.unit) if self.unit > 1 else "")]
        return ", ".join(weighs + ([] if self.write is None else ["expired {:,} ms after a store".format(self.write)]))


def kept(keys, entries, limits, renews):
    """LRU under the limits, or FIFO if a use doesn't renew a place: of each look-up whether it hits. A value that is too heavy isn't stored."""
    held, total, weights = OrderedDict(), 0, limits.weights
    for key, moment in zip(keys, limits.moments):
        stored = held.get(key)
        hit = stored is not None and (limits.write is None or moment - stored < limits.write)
        if hit and renews:
            held.move_to_end(key)
        if not hit:
            if held.pop(key, None) is not None:
                total -= weights[key]
            if limits.bound is None or weights[key] <= limits.bound:
                held[key] = moment
                total += weights[key]
            while len(held) > entries or limits.bound is not None and total > limits.bound:
                total -= weights[held.popitem(last=False)[0]]
        yield hit


def lru(keys, entries, limits):
    return kept(keys, entries, limits, True)


def fifo(keys, entries, limits):
    return kept(keys, entries, limits, False)


POLICIES = {"LRU": lru, "FIFO": fifo}
