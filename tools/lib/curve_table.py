"""The numbers of tools/hit_curve as a table and as rows of CSV, and the windows that they speak of."""
from typing import Dict, NamedTuple, Optional

from facts import FOLLOWS

OURS = "Rookdresser"
ADAPTIVE = "adaptive"
LEAST_ADAPTIVE = int(FOLLOWS)


class Sweep(NamedTuple):
    """The hit ratios at one size: by the window, and of a window that follows the stream, if the size is large enough for one."""

    at: int
    windows: Dict[int, float]
    adaptive: Optional[float]


def default_window(entries):
    return max(1, entries // 100)


def best_window(sweep):
    """The window that hits most, the smallest of several."""
    return max(sweep, key=lambda window: (sweep[window], -window))


def print_best(sweep):
    """The best window that stays, beside the default one and one that follows the stream."""
    best, default = best_window(sweep.windows), default_window(sweep.at)
    follows = "" if sweep.adaptive is None else "; --adaptive 1, %.1f" % (100 * sweep.adaptive)
    print("best there: --entries %d --window %d (%.1f percent; the default window, %d, %.1f%s)"
          % (sweep.at, best, 100 * sweep.windows[best], default, 100 * sweep.windows[default], follows))


def cell(ratio):
    return "%13s" % ("" if ratio is None else "%.1f" % (100 * ratio))


def print_table(curves, sweep, told):
    names = list(curves)
    print("hit ratio in percent, %s" % told)
    print("%10s" % "entries" + "".join("%13s" % name for name in names))
    for entries in curves[OURS]:
        print("%10d" % entries + "".join(cell(curves[name].get(entries)) for name in names))
    print("window at %d entries: %s" % (sweep.at, ", ".join("%d: %.1f" % (window, 100 * ratio) for window, ratio in sweep.windows.items())))
    print_best(sweep)


def rows(curves, sweep):
    yield ["cache", "entries", "window", "hit_ratio"]
    for name, curve in curves.items():
        yield from ([name, entries, "", "%.6f" % ratio] for entries, ratio in curve.items())
    yield from ([OURS, sweep.at, window, "%.6f" % ratio] for window, ratio in sweep.windows.items())
