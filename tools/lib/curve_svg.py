"""The picture of tools/hit_curve: hit ratio over entries, or of one size as bars, and beside it over the window.

Colours can be told apart by the colour-blind, and by dashes without any; they suit a light and a dark page.
"""
from html import escape
from math import ceil, log2
from unicodedata import east_asian_width

from curve_table import best_window

WIDTH, HEIGHT = 880, 440
TOP, BOTTOM = 104, 376
MAIN_LEFT, MAIN_RIGHT = 58, 500
SWEEP_LEFT, SWEEP_RIGHT = 676, 850
# Half as wide as the words at the best window.
HALF_LABEL = 64
# How far words of the title and of the line below it may reach, and how wide letters are, of their size; bold ones are wider.
ROOM = WIDTH - 48
BOLD = 1.2
WIDTHS = (("iljtfrI.,:;'|!()[] ", 0.38), ("mwMWQO@%&", 0.98))
CLASSES = {"adaptive": "adapt", "LRU": "lru", "FIFO": "fifo", "optimum": "best"}

LIGHT = {"page": "#ffffff", "ink": "#1f2933", "soft": "#5b6675", "grid": "#e3e7ed", "axis": "#98a2b3",
         "ours": "#0072b2", "adapt": "#00785a", "lru": "#c2410c", "fifo": "#8e5572", "best": "#5b6675"}
DARK = {"page": "#12161d", "ink": "#e8ebf0", "soft": "#a3adbb", "grid": "#2a323e", "axis": "#667085",
        "ours": "#56b4e9", "adapt": "#3fc79a", "lru": "#f0a54a", "fifo": "#d896b8", "best": "#a3adbb"}
SHAPES = """
  text { font: 13px system-ui, -apple-system, "Segoe UI", Roboto, "DejaVu Sans", Helvetica, Arial, sans-serif }
  .title { font-size: 19px; font-weight: 700 } .small { font-size: 12px } .label { font-weight: 600 } .end { text-anchor: end } .mid { text-anchor: middle }
  .line { fill: none; stroke-width: 2.25; stroke-linejoin: round; stroke-linecap: round } .lead { stroke-width: 1; stroke-opacity: .5 }
  .ours-line { stroke-width: 3.25 } .adapt-line { stroke-width: 2.75; stroke-dasharray: 14 3 3 3 } .lru-line { stroke-dasharray: 9 4.5 } .fifo-line { stroke-dasharray: 1.5 5 } .best-line { stroke-width: 1.5 }
  .gain { fill-opacity: .12 }"""


def colours(palette):
    """The rules of one palette."""
    rules = [".%s { fill: %s }" % (name, palette[name]) for name in ("page", "ink", "soft")]
    rules += [".%s { stroke: %s; stroke-width: 1 }" % (name, palette[name]) for name in ("grid", "axis")]
    for name in ("ours", "adapt", "lru", "fifo", "best"):
        rules.append(".%s { fill: %s } .%s-line, .%s-lead { stroke: %s }" % (name, palette[name], name, name, palette[name]))
    return " ".join(rules)


STYLE = "%s\n  %s\n  @media (prefers-color-scheme: dark) { %s }\n" % (SHAPES, colours(LIGHT), colours(DARK))


class Panel:
    """A plot: where a number of entries and a ratio stand."""

    def __init__(self, left, right, least, greatest, top_ratio):
        self.left, self.right, self.top_ratio = left, right, top_ratio
        self.least, self.span = log2(least), max(1e-9, log2(greatest) - log2(least))

    def x(self, n):
        return self.left + (log2(n) - self.least) / self.span * (self.right - self.left)

    def y(self, ratio):
        return BOTTOM - ratio / self.top_ratio * (BOTTOM - TOP)

    def points(self, curve):
        return " ".join("%.1f,%.1f" % (self.x(n), self.y(ratio)) for n, ratio in curve.items())


def text(x, y, words, kinds):
    return '<text x="%.1f" y="%.1f" class="%s">%s</text>' % (x, y, kinds, escape(words))


def svg(height, told, style, parts):
    """A whole picture. `told` says what it shows to who can't see it."""
    return "\n".join([
        '<svg xmlns="http://www.w3.org/2000/svg" viewBox="0 0 %d %d" width="%d" height="%d" role="img" aria-label="%s">' % (WIDTH, height, WIDTH, height, escape(told, True)),
        "<title>%s</title>" % escape(told),
        "<style>%s</style>" % style,
        *parts,
        "</svg>",
    ]) + "\n"


def line(x1, y1, x2, y2, kind):
    return '<line x1="%.1f" y1="%.1f" x2="%.1f" y2="%.1f" class="%s"/>' % (x1, y1, x2, y2, kind)


def width_of(words, size):
    """About how wide words are, rather too wide."""
    def of(letter):
        wide = 1.05 if east_asian_width(letter) in "WF" else 0.74 if letter.isupper() else 0.61
        return next((width for letters, width in WIDTHS if letter in letters), wide)

    return size * sum(map(of, words))


def printable(words):
    return "".join(letter if letter.isprintable() else " " for letter in words)


def cut(words, size, room=ROOM):
    """The words, or as many letters of them as there is room for, with dots behind."""
    words = printable(words)
    if width_of(words, size) <= room:
        return words
    while words and width_of(words + "\u2026", size) > room:
        words = words[:-1]
    return words.rstrip() + "\u2026"


def below_title(told, gain):
    """What stands below the title, in one line or in two."""
    both = "%s. %s" % (told, gain)
    lines = [both] if width_of(both, 13) <= ROOM else [told, gain]
    return [text(24, 57 + 18 * at, cut(words, 13), "soft") for at, words in enumerate(lines)]


def kind_of(name):
    return CLASSES.get(name, "ours")


def top_of(curves, sweep):
    """The upper end of the ratios' axis, and its step, in percent."""
    most = 100 * max([ratio for curve in curves.values() for ratio in curve.values()] + list(sweep.values()))
    step = next(step for step in (1, 2, 5, 10, 20) if most / step <= 6.5 or step == 20)
    return max(step, step * ceil(most / step)), step


def labelled(panel, ticks):
    """The ticks that have room for their numbers: both ends, and from the left what fits between them."""
    def half(n):
        return 4 + 3.5 * len("{:,}".format(n))

    kept, last = [ticks[0]], ticks[-1]
    for n in ticks[1:-1]:
        if all(abs(panel.x(n) - panel.x(other)) > half(n) + half(other) for other in (kept[-1], last)):
            kept.append(n)
    return {*kept, last}


def axes(panel, step, ticks, title):
    parts, numbered = [], labelled(panel, ticks) if ticks else ()
    for percent in range(0, round(100 * panel.top_ratio) + 1, step):
        y = panel.y(percent / 100)
        parts.append(line(panel.left, y, panel.right, y, "axis" if percent == 0 else "grid"))
        parts.append(text(panel.left - 8, y + 4, "%d %%" % percent, "soft small end"))
    for n in ticks:
        if n in numbered:
            parts.append(text(panel.x(n), BOTTOM + 20, "{:,}".format(n), "soft small mid"))
        parts.append(line(panel.x(n), BOTTOM, panel.x(n), BOTTOM + 5, "axis"))
    parts.append(text((panel.left + panel.right) / 2, BOTTOM + 44, title, "soft mid"))
    return parts


def spread(wanted, gap):
    """Heights as near the wanted ones as they may be with so much between them."""
    order = sorted(range(len(wanted)), key=lambda at: wanted[at])
    placed = [wanted[at] for at in order]
    for _ in range(200):
        for at in range(1, len(placed)):
            over = gap - (placed[at] - placed[at - 1])
            if over > 0:
                placed[at - 1] -= over / 2
                placed[at] += over / 2
    low = placed[-1] - (BOTTOM - 2) if placed else 0
    placed = [y - max(0, low) for y in placed]
    return {at: y for at, y in zip(order, placed)}


def main_panel(panel, step, curves):
    ours = next(iter(curves))
    sizes = list(curves[ours])
    parts = axes(panel, step, sizes, "entries that the cache may hold")
    # What is gained over LRU is shaded; where LRU hits more there is nothing.
    upper = {n: max(ratio, curves["LRU"][n]) for n, ratio in curves[ours].items()}
    back = " ".join(reversed(panel.points(curves["LRU"]).split()))
    parts.append('<polygon points="%s %s" class="ours gain"/>' % (panel.points(upper), back))
    names = list(curves)
    for name in reversed(names):
        parts.append('<polyline points="%s" class="line %s-line"/>' % (panel.points(curves[name]), kind_of(name)))
    parts += ['<circle cx="%.1f" cy="%.1f" r="3.6" class="ours"/>' % (panel.x(n), panel.y(ratio)) for n, ratio in curves[ours].items()]
    heights = spread([panel.y(curves[name][sizes[-1]]) + 4 for name in names], 18)
    for at, name in enumerate(names):
        end = panel.y(curves[name][sizes[-1]])
        parts.append(line(panel.right + 5, end, panel.right + 18, heights[at] - 4, "lead %s-lead" % kind_of(name)))
        parts.append(text(panel.right + 22, heights[at], name, "%s label" % kind_of(name)))
    return parts


def bars_panel(panel, step, curves, entries):
    """One size alone: a bar for each cache."""
    parts = axes(panel, step, [], "of {:,} entries".format(entries))
    width = (panel.right - panel.left) / len(curves)
    for at, (name, curve) in enumerate(curves.items()):
        middle, y = panel.left + (at + 0.5) * width, panel.y(curve[entries])
        parts.append('<rect x="%.1f" y="%.1f" width="%.1f" height="%.1f" class="%s"/>'
                     % (middle - 0.3 * width, y, 0.6 * width, BOTTOM - y, kind_of(name)))
        parts.append(text(middle, y - 8, "%.1f %%" % (100 * curve[entries]), "%s label mid" % kind_of(name)))
        parts.append(text(middle, BOTTOM + 20, name, "%s label mid" % kind_of(name)))
    return parts


def sweep_panel(panel, step, sweep_at, sweep):
    best = best_window(sweep)
    parts = axes(panel, step, list(sweep), "its window, of {:,} entries".format(sweep_at))
    parts.append('<polyline points="%s" class="line ours-line"/>' % panel.points(sweep))
    parts += ['<circle cx="%.1f" cy="%.1f" r="3.6" class="ours"/>' % (panel.x(n), panel.y(ratio)) for n, ratio in sweep.items()]
    x, y = panel.x(best), panel.y(sweep[best])
    place = "ours label" if x - panel.left <= HALF_LABEL else "ours label end" if panel.right - x <= HALF_LABEL else "ours label mid"
    parts.append(text(x, y - 12, "best window: {:,}".format(best), place))
    return parts


def gain_told(curves):
    """The size at which the difference from LRU is greatest, in words."""
    ours = next(iter(curves))
    at = max(curves[ours], key=lambda n: abs(curves[ours][n] - curves["LRU"][n]))
    told = "With {:,} entries {:.0f} % of look-ups hit; LRU {:.0f} %".format(at, 100 * curves[ours][at], 100 * curves["LRU"][at])
    return told + (", the optimum {:.0f} %".format(100 * curves["optimum"][at]) if "optimum" in curves else "")


def draw(title, told, curves, sweep_at, sweep):
    ours = next(iter(curves))
    sizes = list(curves[ours])
    top, step = top_of(curves, sweep)
    main = Panel(MAIN_LEFT, MAIN_RIGHT, sizes[0], sizes[-1], top / 100)
    side = Panel(SWEEP_LEFT, SWEEP_RIGHT, min(sweep), max(sweep), top / 100)
    gain, name = gain_told(curves), cut(title, BOLD * 19)
    words = "%s. Hit ratio over entries: %s." % (printable(title), gain)
    parts = [
        '<rect width="%d" height="%d" rx="8" class="page"/>' % (WIDTH, HEIGHT),
        text(24, 34, name, "ink title"),
        *below_title(told, gain),
        text(MAIN_LEFT - 34, TOP - 14, "hit ratio", "soft small"),
    ]
    parts += bars_panel(main, step, curves, sizes[0]) if len(sizes) == 1 else main_panel(main, step, curves)
    return svg(HEIGHT, words, STYLE, parts + sweep_panel(side, step, sweep_at, sweep))
