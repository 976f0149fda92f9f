"""Random options and traces for tools/gate/check_program, and the smallest part of a case that still tells."""
import string

from options import BELOW_64, OPTIONS

LETTERS = "LSGEPDFCX"
NAME_BYTES = [c for c in string.printable[:94] if c != ":"]
BAD_LINES = (b"", b"0 L", b"0  L 1", b"0 Q 1", b"0 L 1\r", b" 0 L 1", b"0 L 1 ", b"0 C 1", b"0 l 1", b"L 1", b"0 LL 1", b"\xff",
             b"18446744073709551616 L 1", b"0 L 18446744073709551616", b"000000000000000000001 C", b"-1 C", b"0 L +1",
             b"0 L " + b"a" * 61, b"0 L :", b"wt 2", b"0\tL 1", b"0 L 1\x00", b"0 C ")


def option_values(rng, entries):
    """A value of each option, likely to matter at so many entries, or None."""
    small = rng.randint(1, 9)
    return {
        "window": rng.choice((None, 1, 1, rng.randint(1, entries))),
        "mod": rng.choice((None, small, rng.randint(1, 100), 1_000_000)),
        "weight": rng.choice((None, rng.randint(1, 8), rng.randint(1, entries * small + 1), rng.randint(1, 60))),
        "write": rng.choice((None, None, rng.randint(1, 20), rng.randint(1, 300), BELOW_64)),
        "access": rng.choice((None, None, rng.randint(1, 20), rng.randint(1, 300))),
        "refresh": rng.choice((None, None, rng.randint(1, 20), rng.randint(1, 100))),
        "fail-mod": rng.choice((None, None, small)),
        "flights": rng.choice((None, 1, 1, 2, small)),
        "ring": rng.choice((None, None, None, 4097)),
    }


def random_options(rng):
    entries = rng.choice((1, 2, 2, 3, 4, 4, 5, 6, 8, 8, 12, 20, 50, 64, 65, 130))
    given = {"entries": entries}
    given.update({name: n for name, n in option_values(rng, entries).items() if n is not None and rng.random() < 0.7})
    for option in OPTIONS:
        if option.name == "shards" and option.listed and rng.random() < 0.6:
            given["shards"] = int(rng.choice(option.listed))
        if option.name == "threads" and option.greatest({}) > 0 and rng.random() < 0.4:
            given["threads"] = rng.randint(0, 8)
    if rng.random() < 0.04:
        option = rng.choice(OPTIONS)
        given[option.name] = rng.choice((0, BELOW_64, 65537, 2 ** 48 + 1))
    items = list(given.items())
    rng.shuffle(items)
    return dict(items)


def random_keys(rng, entries):
    """Keys to draw from, with the weights of a skewed draw."""
    count = rng.choice((2, entries + 1, 2 * entries + 1, 4 * entries + 2))
    kind = rng.choice(("small", "small", "large", "names", "names"))
    if kind == "names":
        def key():
            return "".join(rng.choice(NAME_BYTES) for _ in range(rng.choice((1, 1, 2, 3, 8, 24))))
    elif kind == "large":
        def key():
            return str(rng.choice((rng.getrandbits(64), BELOW_64 - rng.randint(0, 3), rng.randint(0, 99))))
    else:
        first = rng.choice((0, 1, 1, 100))
        return [str(first + i) for i in range(count)], skewed(rng, count), False
    return [key() for _ in range(count)], skewed(rng, count), kind == "names"


def skewed(rng, count):
    power = rng.choice((0, 0.7, 1.0, 1.5))
    return [1 / (i + 1) ** power for i in range(count)]


def random_trace(rng, entries):
    keys, weights, names = random_keys(rng, entries)
    common = rng.choice((LETTERS, "PL", "PPPL", "G", "GGP", "SSE", "SSEEP", "SSPL", "GLPD", "SEFPL"))
    count = rng.choice((0, 5, 20, 60, 60, 120, 300))
    step, back = rng.choice((0, 1, 1, 3, 10)), rng.choice((0, 20, 40))
    moment = rng.choice((0, 0, 0, 1000, BELOW_64 - 200))
    lines = [b"wt 2"] if names else []
    for _ in range(count):
        moment = min(BELOW_64, max(0, moment + rng.randint(0, 2 * step) - (rng.randint(0, back) if rng.random() < 0.1 else 0)))
        letter = rng.choice(common if rng.random() < 0.8 else LETTERS)
        if letter in "CX" and rng.random() < 0.7:
            letter = "L"
        zeros = "0" * rng.randint(1, 3) if rng.random() < 0.02 and moment < 10 ** 17 else ""
        key = rng.choices(keys, weights)[0]
        if not names and zeros and len(key) < 18:
            key = zeros + key
        lines.append(("%s%d %s" % (zeros, moment, letter) + ("" if letter in "CX" else " " + key)).encode())
    if rng.random() < 0.06:
        lines.insert(rng.randint(0, len(lines)), rng.choice(BAD_LINES))
    return b"\n".join(lines) + (b"" if rng.random() < 0.1 or not lines else b"\n")


def adaptive_case(rng):
    """The case of a window that follows the stream: long enough for several choices, with hot keys that stay, change or come round."""
    entries = rng.choice((64, 100, 130, 512, 513, 600, 1100))
    options = {"entries": entries, "adaptive": 1, **rng.choice(({}, {"shards": 2}, {"threads": 2}, {"weight": 300, "mod": 3}, {"write": 300}, {"flights": 1}))}
    items = list(options.items())
    rng.shuffle(items)
    letters = rng.choice(("G", "GGGP", "LP", "GGSE", "GGGGD"))
    lines = []
    for at in range(rng.choice((600, 2500, 4000))):
        if at % 1300 == 0:
            kind = rng.choice(("shift", "shift", "skewed", "round"))
        if kind == "shift":
            key = at // 3 + rng.randint(0, entries)
        elif kind == "skewed":
            key = int(rng.paretovariate(0.6)) % 4000
        else:
            key = at % (entries * 3 // 2)
        lines.append(b"%d %s %d" % (at // 7, rng.choice(letters).encode(), key))
    options, trace = dict(items), b"\n".join(lines) + b"\n"
    return in_turn(rng, options, trace) if rng.random() < 0.3 else (options, trace)


def short_case(rng):
    options = random_options(rng)
    trace = random_trace(rng, min(200, max(1, options["entries"])))
    return in_turn(rng, options, trace) if rng.random() < 0.15 else (options, trace)


def random_case(rng):
    case = short_case(rng)
    return adaptive_case(rng) if rng.random() < 0.05 else case


def in_turn(rng, options, trace):
    """The case turn by turn on one thread, mostly without the letters that are bad lines then."""
    options = {name: n for name, n in options.items() if name != "threads"}
    options["turn"] = 1
    # A worker runs a refresh in its own time, so that what is written isn't foretold.
    if "refresh" not in options and rng.random() < 0.3:
        options["workers"] = rng.randint(1, 3)
    if rng.random() < 0.9:
        trace = trace.replace(b" S ", b" G ").replace(b" E ", b" L ")
    return options, trace


def without_parts(lines, tells):
    """The lines that are left where ever smaller parts are taken out, as long as the rest still tells."""
    size = max(1, len(lines) // 2)
    while size:
        at = 0
        while at < len(lines):
            fewer = lines[:at] + lines[at + size:]
            if tells(fewer):
                lines = fewer
            else:
                at += size
        size //= 2
    return lines


def simpler_lines(lines, tells):
    """The lines with each moment and key made simple, where the rest still tells."""
    for at in range(len(lines)):
        for part, simple in ((0, b"0"), (2, b"1"), (2, b"2")):
            parts = lines[at].split(b" ")
            if len(parts) == 3 and len(parts[part]) > len(simple):
                changed = lines[:at] + [b" ".join(parts[:part] + [simple] + parts[part + 1:])] + lines[at + 1:]
                lines = changed if tells(changed) else lines
    return lines


def smaller_options(options, tells):
    """Fewer options and smaller numbers, as long as the case still tells."""
    for name in list(options):
        fewer = {other: n for other, n in options.items() if other != name}
        options = fewer if tells(fewer) else options
    for name in list(options):
        for less in (1, 2, options[name] // 2, options[name] - 1):
            smaller = dict(options, **{name: less})
            if 0 < less < options[name] and tells(smaller):
                options = smaller
    return options


def shrunk(options, trace, tells):
    """A smaller case that still tells. `tells(options, trace)` says whether a case does."""
    def as_trace(lines):
        return b"".join(line + b"\n" for line in lines)

    lines = trace.split(b"\n")
    if lines[-1] == b"":
        lines.pop()
    if not tells(options, as_trace(lines)):
        return options, trace
    before = None
    while before != (options, lines):
        before = (options, lines)
        lines = without_parts(lines, lambda fewer: tells(options, as_trace(fewer)))
        options = smaller_options(options, lambda smaller: tells(smaller, as_trace(lines)))
        lines = simpler_lines(lines, lambda simpler: tells(options, as_trace(simpler)))
    return options, as_trace(lines)
