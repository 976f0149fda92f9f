"""The options of the program, as docs/facts.txt has them, and what their ranges and defaults come to."""
import re

from facts import FOLLOWS, rows_of_options

BELOW_64 = 2 ** 64 - 1


class Option:
    """One option: its name, the text of its range and of its default, and what numbers those texts stand for."""

    def __init__(self, name, reach, default):
        self.name, self.reach, self.default_text = name, reach, default
        self.milliseconds = "milliseconds" in reach
        self.listed = None
        self.least_text, self.greatest_text = bounds_of(name, reach)
        if isinstance(self.least_text, list):
            self.listed = self.least_text
            self.least_text, self.greatest_text = self.listed[0], self.listed[-1]

    def least(self, given):
        return number_in(self.least_text, given)

    def greatest(self, given):
        return BELOW_64 if self.greatest_text is None else number_in(self.greatest_text, given)

    def default(self, given):
        """The number, or None where the option is absent by default."""
        if self.default_text in ("never", "none fails"):
            return None
        if self.default_text.startswith("entries / 100"):
            return max(1, given["entries"] * (10 if given.get("adaptive") else 1) // 100)
        if self.default_text.startswith("64, or flights + 1"):
            return max(64, given["flights"] + 1)
        return int(self.default_text)

    def allows(self, number, given):
        if self.listed is not None:
            return str(number) in self.listed
        return self.least(given) <= number <= self.greatest(given)


def bounds_of(name, reach):
    """The least and the greatest number of a range, as texts; None is no upper bound; a list of the only ones."""
    text = reach.replace(", milliseconds", "")
    listed = re.fullmatch(r"(\d+(?:, \d+)*),? or (\d+)", text)
    if listed:
        return listed.group(1).split(", ") + [listed.group(2)], None
    up = re.fullmatch(r"(\d+) up", text)
    if up:
        return up.group(1), None
    both = re.fullmatch(r"(\d+|[a-z]+ \+ 1) to (\d+|[a-z]+)", text)
    if both:
        return both.groups()
    if re.fullmatch(r"\d+", text):
        return text, text
    raise ValueError("docs/facts.txt: the range of --%s can't be read: %s" % (name, reach))


def number_in(text, given):
    """A number, the name of an option, or that plus 1."""
    word = re.fullmatch(r"([a-z]+)( \+ 1)?", text)
    return given[word.group(1)] + (1 if word.group(2) else 0) if word else int(text)


OPTIONS = [Option(name, reach, default) for name, reach, default, _, _ in rows_of_options()]
NAMES = [option.name for option in OPTIONS]


def settings(given, options=OPTIONS):
    """All options, with the defaults of those that aren't given, and the name of the first that is out of its range."""
    full, fixed = dict(given), given.get("window") is not None
    for option in options:
        full.setdefault(option.name, None)
        if full[option.name] is None:
            full[option.name] = option.default(full) if option.name != "ring" else None
    if full["ring"] is None:
        full["ring"] = next(option for option in options if option.name == "ring").default(full)
    for option in options:
        number = full[option.name]
        fits = number is None or option.allows(number, full)
        if option.name == "turn" and full["threads"] or option.name == "workers" and not full["turn"]:
            fits = number == 0
        if option.name == "adaptive" and (full["entries"] < int(FOLLOWS) or fixed):
            fits = number == 0
        if not fits:
            return full, option.name
    return full, None
