"""For each option a run that tells it from every other option, for tools/gate/check_program.

The trace of a row is searched for: of random ones it is the first whose foretold report with `--X n` differs from that with
`--Y n`, for every other option Y, and from that with no such option. So a program that mixed up two options fails a row.
"""
import random

import cases
import model
from options import NAMES, OPTIONS, settings

BASE = {"entries": 4}
# Options that change no report as long as they are in their range: their rows are faults.
SILENT = ("ring", "threads", "turn", "workers", "adaptive")
NUMBERS = {"entries": 3, "window": 2, "weight": 3, "mod": 5, "write": 6, "access": 4, "refresh": 5, "fail-mod": 2, "flights": 1}


def others(name, number):
    """The option sets that must give another report: without the option, and with another one in its place."""
    rest = {other: n for other, n in BASE.items() if other != name}
    yield rest
    for other in NAMES:
        if other != name and other not in SILENT:
            yield dict(rest, **{other: number})


def tells(name, number, trace):
    mine = model.run(dict(BASE, **{name: number}), trace)
    return mine[0] == 0 and all(model.run(options, trace) != mine for options in others(name, number))


def telling_trace(name, number):
    for seed in range(1000):
        rng = random.Random("%s %d" % (name, seed))
        trace = cases.random_trace(rng, 6)
        if tells(name, number, trace):
            return trace
    raise ValueError("no trace tells --%s from the others" % name)


def rows():
    """Title, options and trace of each row."""
    for option in OPTIONS:
        if option.name in NUMBERS:
            number = NUMBERS[option.name]
            yield "--%s told apart" % option.name, dict(BASE, **{option.name: number}), telling_trace(option.name, number)
        if option.name == "shards" and option.listed:
            for number in (2, 4):
                yield "--shards %d told apart" % number, dict(BASE, shards=number), telling_trace("shards", number)
        yield from range_rows(option)


def range_rows(option):
    """The ends of the range, and the numbers next to it, which are faults of that option's own name."""
    full, _ = settings(BASE)
    ends = [int(n) for n in option.listed] if option.listed else [option.least(full), option.greatest(full)]
    for number in sorted({n + step for n in ends for step in (-1, 0, 1)}):
        # What several threads that take turns write isn't foretold.
        foretold = option.name != "turn" or number < 2 or not option.allows(number, full)
        if 0 <= number < 2 ** 64 and foretold:
            yield "--%s %d" % (option.name, number), dict(BASE, **{option.name: number}), b"0 P 1\n0 L 1\n"
