"""The still picture of tools/show_trace --picture: some lines of a trace one below the other, each with the regions after it."""
import re

from curve_svg import BOLD, cut, line, svg, text, width_of
from page_html import PARTS, settings_told
from page_names import shortened
from page_states import LISTS, states
from page_words import MARKS, SENTENCES, WORDS, picture_notes

WIDTH, LEFT, RIGHT, BOXES = 880, 24, 856, 212
CHIP, SPACE, ROW, HEAD, GAP = 30, 6, 46, 34, 12
MOST_ENTRIES, MOST_LINES = 24, 8
LOADS = 150
# The letters of a key that a picture shows.
LONGEST = 12
SHAPES = """
  text { font: 13px system-ui, -apple-system, "Segoe UI", Roboto, "DejaVu Sans", Helvetica, Arial, sans-serif }
  .mono { font-family: ui-monospace, "Cascadia Mono", Menlo, Consolas, "DejaVu Sans Mono", monospace }
  .title { font-size: 19px; font-weight: 700 } .big { font-size: 16px } .bold { font-weight: 700 } .small { font-size: 12px } .end { text-anchor: end }
  .mark { font-size: 11px; font-weight: 600 } .none { fill: none } .dashed { fill: none; stroke-dasharray: 4 3 } .strong { stroke-width: 2 }"""


def colours():
    """The rules of the page's two palettes, which are those of page.css."""
    found = re.findall(r"--(\w+): (#\w+)", (PARTS / "page.css").read_text().split("\n* {")[0])
    half = len(found) // 2
    rules = [" ".join(".%s { fill: %s } .%s-edge { stroke: %s }" % (name, colour, name, colour) for name, colour in part) for part in (found[:half], found[half:])]
    return "%s\n  @media (prefers-color-scheme: dark) { %s }\n" % tuple(rules)


def box(x, y, width, height, kinds, radius=5):
    return '<rect x="%.1f" y="%.1f" width="%.1f" height="%.1f" rx="%d" class="%s"/>' % (x, y, width, height, radius, kinds)


def wrapped(words, room, size=13):
    """The words in as many lines as they need."""
    lines = [""]
    for word in words.split(" "):
        longer = (lines[-1] + " " + word).strip()
        if width_of(longer, size) > room and lines[-1]:
            lines.append(word)
        else:
            lines[-1] = longer
    return lines


class Frame:
    """A line of the trace with the state after it."""

    def __init__(self, numbers, step, state):
        self.names, self.estimates = [shortened(name, LONGEST) for name in numbers["texts"] or numbers["keys"]], list(state["estimates"])
        self.number, self.text, self.report = step[:3]
        self.shard = max(0, step[3])
        self.lists = dict(zip(LISTS, [list(rows) for rows in state["lists"][4 * self.shard:4 * self.shard + 4]]))
        self.notes = [(WORDS[note[0]], [self.names[part[0]] if isinstance(part, list) else part for part in note[1:]], note[1:]) for note in step[4]]
        self.lookups, self.hits = state["sums"][:2]

    def marks(self):
        marks = {}
        for word, _, (key, *_) in self.notes:
            if word in MARKS and not (word == "front" and key[0] in marks):
                marks[key[0]] = MARKS[word]
        return marks

    def sentences(self):
        kept = picture_notes([word for word, _, _ in self.notes], self.text.split(" ")[1])
        return [SENTENCES[word].format(*told) for word, told, _ in self.notes if word in kept]

    def left(self):
        return ["%s left: %s" % (told[0], word[5:]) for word, told, _ in self.notes if word.startswith("left ")]

    def duel(self):
        return next((told for word, told, _ in self.notes if word in ("wins", "ties", "loses")), None)


class Layout:
    """Where the boxes of the regions stand, alike in all frames: as wide as what they hold at most, as far as there is room."""

    def __init__(self, frames, limits):
        self.limits = limits
        self.chip = max(54, max(26 + 9 * len(frame.names[row[0]]) for frame in frames for name in LISTS[:3] for row in frame.lists[name] or [[0]]))
        most = {name: max(1, *(len(frame.lists[name]) for frame in frames), limits.get(name, 0) if limits.get(name, 0) <= 8 else 0) for name in LISTS[:3]}
        has_loads = any(frame.lists["loads"] for frame in frames)
        room = RIGHT - BOXES - 2 * GAP - (LOADS + GAP if has_loads else 0)
        least = {name: 176 if name == "probation" else 124 for name in most}
        wide = {name: max(least[name], 20 + n * (self.chip + SPACE)) for name, n in most.items()}
        over = sum(wide.values()) - room
        spare = sum(wide[name] - least[name] for name in wide)
        self.boxes, x = {}, BOXES
        for name in wide:
            width = wide[name] - (over * (wide[name] - least[name]) / spare if over > 0 else over / 3)
            self.boxes[name] = (x, width, max(1, int((width - 12) // (self.chip + SPACE))))
            x += width + GAP
        self.loads = x if has_loads else None

    def rows(self, frame):
        return max(-(-max(1, len(frame.lists[name])) // each) for name, (_, _, each) in self.boxes.items())


def chip(layout, frame, x, y, row, hue, mark):
    name, estimate = frame.names[row[0]], frame.estimates[row[0]]
    parts = [box(x, y, layout.chip, CHIP, "well %s" % ("%s-edge strong" % hue if mark else "edge-edge")),
             box(x + 4, y + CHIP - 5, (layout.chip - 8) * estimate / 15, 3, hue, 1),
             text(x + 8, y + 19, name, "ink mono bold"), text(x + layout.chip - 7, y + 19, str(estimate), "soft small end")]
    if mark:
        # The mark stands in a gap of the edge.
        parts += [box(x + 5, y - 2, BOLD * width_of(mark, 11) + 6, 4, "card", 0), text(x + 8, y + 3, mark, "%s mark" % hue)]
    return parts


def region(layout, frame, name, y, height):
    x, width, each = layout.boxes[name]
    rows, most, marks = frame.lists[name], layout.limits.get(name), frame.marks()
    main = len(frame.lists["probation"]) + len(frame.lists["protected"])
    told = "%d of %d" % (len(rows), most) if most is not None else "main %d of %d" % (main, layout.limits["main"])
    parts = [box(x, y, width, height, "card edge-edge", 6), box(x, y, width, 3, name, 1),
             text(x + 10, y + 21, name, "%s bold" % name), text(x + width - 10, y + 21, told, "soft small end")]
    places = max(len(rows), most if most is not None and most <= 8 else 0)
    for at in range(places):
        left, top = x + 10 + at % each * (layout.chip + SPACE), y + HEAD + 6 + at // each * ROW
        if at < len(rows):
            parts += chip(layout, frame, left, top, rows[at], name, marks.get(rows[at][0]))
        else:
            parts.append(box(left, top, layout.chip, CHIP, "dashed edge-edge"))
    return parts


def loads(layout, frame, y, height):
    x = layout.loads
    parts = [box(x, y, RIGHT - x, height, "none edge-edge", 6), text(x + 10, y + 21, "open loads", "soft bold")]
    for at, (number, key, lines, current) in enumerate(frame.lists["loads"][:2]):
        parts.append(text(x + 10, y + 43 + 36 * at, "load %d of %s%s" % (number, frame.names[key], "" if current else ", stale"), "ink"))
        parts.append(text(x + 10, y + 59 + 36 * at, "for line%s %s" % ("s" if len(lines) > 1 else "", ", ".join(map(str, lines[:4]))), "soft small"))
    return parts if frame.lists["loads"] else parts + [text(x + 10, y + 43, "none", "soft")]


def pips(told, y):
    """The two of a duel, each with its estimate as so many of fifteen bars."""
    parts = []
    won = told[2] > told[3]
    for at, (role, name, estimate, hue, stays) in enumerate((("candidate", told[0], told[2], "window", won), ("victim", told[1], told[3], "probation", not won))):
        top = y + 20 * at
        parts += [text(BOXES, top + 11, role, "soft"), text(BOXES + 72, top + 11, name, "ink mono bold")]
        start = BOXES + 90 + 9 * max(len(told[0]), len(told[1]))
        parts += [box(start + 10 * n, top, 8, 12, hue if n < estimate else "none edge-edge", 1) for n in range(15)]
        parts.append(text(start + 162, top + 11, "%d, %s" % (estimate, "stays" if stays else "leaves"), "ink" if stays else "gone"))
    return parts


def line_of(frame, y):
    """What stands to the left: the line, what it prints, the hits so far, and what left."""
    room = BOXES - LEFT - 14
    parts = [text(LEFT, y + 12, "line %d" % frame.number, "soft small"), text(LEFT, y + 34, cut(frame.text, 16, room), "ink mono big bold"),
             text(LEFT, y + 53, cut("%d %s" % (frame.number, frame.report), 12, room), "soft mono small"),
             text(LEFT, y + 72, "hits: %d of %d" % (frame.hits, frame.lookups), "soft small")]
    for at, told in enumerate(frame.left()[:3]):
        told = cut(told, 12, room - 16)
        parts += [box(LEFT, y + 82 + 25 * at, width_of(told, 12) + 16, 20, "dashed gone-edge", 4), text(LEFT + 8, y + 96 + 25 * at, told, "gone small")]
    return parts


def drawn(layout, frame, y):
    """A frame from y down, and where it ends."""
    height = HEAD + 2 + layout.rows(frame) * ROW
    parts, low = line_of(frame, y), y + 82 + 25 * min(3, len(frame.left()))
    for name in LISTS[:3]:
        parts += region(layout, frame, name, y, height)
    if layout.loads:
        parts += loads(layout, frame, y, height)
    y += height + 12
    if frame.duel():
        parts += pips(frame.duel(), y)
        y += 42
    for sentence in frame.sentences():
        for words in wrapped(sentence, RIGHT - BOXES):
            parts.append(text(BOXES, y + 11, words, "ink"))
            y += 18
    return parts, max(y, low)


def frames_of(numbers, lines):
    after = states(numbers)
    next(after)
    return [Frame(numbers, step, state) for step, state in zip(numbers["steps"], after) if step[0] in lines]


def picture(title, s, numbers, lines):
    """The picture as a text: each of the lines that the trace has, with the state after it."""
    frames, main = frames_of(numbers, lines), s["entries"] - s["window"]
    layout = Layout(frames, {"window": s["window"], "protected": main * 4 // 5, "main": main})
    parts, y = [], 68
    for words in wrapped(settings_told(s), RIGHT - LEFT):
        parts.append(text(LEFT, y - 11, words, "soft"))
        y += 18
    for at, frame in enumerate(frames):
        if at:
            parts.append(line(LEFT, y + 10, RIGHT, y + 10, "edge-edge"))
        more, y = drawn(layout, frame, y + (26 if at else 10))
        parts += more
    told = "%s. %s" % (title, " ".join("Line %d, %s: %s" % (frame.number, frame.text, " ".join(frame.sentences())) for frame in frames))
    height = y + 20
    return svg(height, told, "%s\n  %s" % (SHAPES, colours()), [box(0, 0, WIDTH, height, "page", 8), text(LEFT, 36, cut(title, BOLD * 19), "ink title")] + parts)
