"""Hit ratios by thousand look-ups, for tools/hit_curve --over-time: the numbers and a table."""
from itertools import islice

from model.adviser import Adviser
from policies import POLICIES, words_of

PART, MOST_PARTS = 1000, 200


def part_of(lookups):
    """A thousand, or the least number of thousands by which there are few parts."""
    return PART * max(1, -(-lookups // (PART * MOST_PARTS)))


def by_part(hits, size):
    """The hit ratio of each part, the last of what is left."""
    hits, ratios = iter(hits), []
    while part := list(islice(hits, size)):
        ratios.append(sum(part) / len(part))
    return ratios


def windows_of(default, best):
    """The windows to show, by what each is called; it is one if the default is the best."""
    if default == best:
        return {"window {:,}".format(best): best}
    return {"window {:,}".format(default): default, "window {:,}, the best".format(best): best}


def measure(keys, entries, windows, our_hits):
    """The ratio of each part, by the window and the other caches. `our_hits` tells of each look-up whether it hits with a window."""
    size = part_of(len(keys))
    curves = {name: by_part(our_hits(window), size) for name, window in windows.items()}
    return curves | {name: by_part(POLICIES[name](keys, entries), size) for name in ("LRU", "optimum")}


def advised(keys, entries, names):
    """The window that is advised at the end of each part."""
    size, adviser, windows = part_of(len(keys)), Adviser(entries), []
    for at, word in enumerate(words_of(keys, names), 1):
        adviser.saw(word)
        if at % size == 0 or at == len(keys):
            windows.append(adviser.wanted())
    return windows


def print_table(curves, entries, lookups, told):
    size = part_of(lookups)
    print("hit ratio in percent by {:,} look-ups, {:,} entries, {}".format(size, entries, told))
    print("%12s" % "to look-up" + "".join("%23s" % name for name in curves))
    for at, ratios in enumerate(zip(*curves.values()), 1):
        print("%12s" % "{:,}".format(min(lookups, at * size)) + "".join("%23.1f" % (100 * ratio) for ratio in ratios))


def rows(windows, curves, entries, lookups):
    yield ["cache", "entries", "window", "to_look_up", "hit_ratio"]
    for name, ratios in curves.items():
        cache = name if windows.get(name) is None else "Rookdresser"
        for at, ratio in enumerate(ratios, 1):
            yield [cache, entries, windows.get(name, ""), min(lookups, at * part_of(lookups)), "%.6f" % ratio]
