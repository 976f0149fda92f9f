"""The picture of tools/hit_curve --over-time: the hit ratios by parts of the stream, and below them the window that is advised."""
from math import ceil

import curve_svg
from curve_svg import BOLD, WIDTH, cut, line, svg, text

LEFT, RIGHT = 58, 650
TOP, BOTTOM = 84, 330
STRIP_TOP, STRIP_BOTTOM = 372, 424
HEIGHT = 476
# A picture of more parts can't be read, so neighbours are drawn as one.
MOST_PARTS = 60
KINDS = {"adaptive": "adapt", "LRU": "lru", "optimum": "best"}


def kind_of(name, names):
    """The default window is drawn as the program's curve, the best one as FIFO's is elsewhere."""
    return KINDS.get(name, "ours" if name == names[0] else "fifo")


class Plot:
    """Where a look-up and a ratio stand."""

    def __init__(self, parts, top):
        self.parts, self.top = parts, top

    def x(self, at):
        return LEFT + at / self.parts * (RIGHT - LEFT)

    def y(self, ratio):
        return BOTTOM - ratio / self.top * (BOTTOM - TOP)

    def points(self, ratios):
        return " ".join("%.1f,%.1f" % (self.x(at + 0.5), self.y(ratio)) for at, ratio in enumerate(ratios))


def merged(values, count):
    """The mean of each so many neighbours."""
    return [sum(values[at:at + count]) / len(values[at:at + count]) for at in range(0, len(values), count)]


def axes(plot, step, size, lookups):
    parts = []
    for percent in range(0, round(100 * plot.top) + 1, step):
        y = plot.y(percent / 100)
        parts.append(line(LEFT, y, RIGHT, y, "axis" if percent == 0 else "grid"))
        parts.append(text(LEFT - 8, y + 4, "%d %%" % percent, "soft small end"))
    for at in range(0, plot.parts + 1, max(1, ceil(plot.parts / 6))):
        parts.append(line(plot.x(at), STRIP_BOTTOM, plot.x(at), STRIP_BOTTOM + 5, "axis"))
        parts.append(text(plot.x(at), STRIP_BOTTOM + 20, "{:,}".format(min(lookups, at * size)), "soft small mid"))
    parts.append(text((LEFT + RIGHT) / 2, STRIP_BOTTOM + 42, "look-ups", "soft mid"))
    return parts


def lines_of(plot, curves):
    parts, names = [], list(curves)
    for name in reversed(names):
        parts.append('<polyline points="%s" class="line %s-line"/>' % (plot.points(curves[name]), kind_of(name, names)))
    heights = curve_svg.spread([plot.y(curves[name][-1]) + 4 for name in names], 18)
    for at, name in enumerate(names):
        parts.append(line(RIGHT + 5, plot.y(curves[name][-1]), RIGHT + 18, heights[at] - 4, "lead %s-lead" % kind_of(name, names)))
        parts.append(text(RIGHT + 22, heights[at], name, "%s label" % kind_of(name, names)))
    return parts


def strip_of(plot, advised, entries):
    """The advised window of each part as a bar, of a height in proportion to the entries."""
    parts = [line(LEFT, STRIP_BOTTOM, RIGHT, STRIP_BOTTOM, "axis"), line(LEFT, STRIP_TOP, RIGHT, STRIP_TOP, "grid")]
    for at, window in enumerate(advised):
        height = window / entries * (STRIP_BOTTOM - STRIP_TOP)
        parts.append('<rect x="%.1f" y="%.1f" width="%.2f" height="%.1f" class="adapt"/>'
                     % (plot.x(at), STRIP_BOTTOM - height, plot.x(1) - plot.x(0), height))
    parts.append(text(LEFT - 8, STRIP_TOP + 4, "100 %", "soft small end"))
    parts.append(text(RIGHT + 22, STRIP_BOTTOM - 18, "advised window", "adapt label"))
    return parts


def draw(title, told, curves, advised, entries, size, lookups):
    """The curves by name, and of each part the window that is advised, or nothing if there are too few entries."""
    count = ceil(len(next(iter(curves.values()))) / MOST_PARTS)
    curves, advised, size = {name: merged(ratios, count) for name, ratios in curves.items()}, merged(advised, count), size * count
    most = 100 * max(ratio for ratios in curves.values() for ratio in ratios)
    step = next(step for step in (1, 2, 5, 10, 20) if most / step <= 6.5 or step == 20)
    plot = Plot(len(next(iter(curves.values()))), max(step, step * ceil(most / step)) / 100)
    parts = [
        '<rect width="%d" height="%d" rx="8" class="page"/>' % (WIDTH, HEIGHT),
        text(24, 34, cut(title, BOLD * 19), "ink title"),
        text(24, 57, cut("{:,} entries, {}".format(entries, told), 13), "soft"),
        *axes(plot, step, size, lookups),
        *lines_of(plot, curves),
        *(strip_of(plot, advised, entries) if advised else []),
    ]
    words = "%s. Hit ratio by look-ups, with %d entries." % (curve_svg.printable(title), entries)
    return svg(HEIGHT, words, curve_svg.STYLE, parts)
