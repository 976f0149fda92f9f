#!/usr/bin/env python3
"exec" "python3" "$0" "$@"  # sh hands this file to Python
__doc__ = """Replays random traces with random options by the proved program and through the header: both have to write the same bytes and
end with the same status. Keys are numbers, or names that spell one."""
import random
import subprocess
import sys
from pathlib import Path

sys.path.insert(0, str(Path(__file__).resolve().parent.parent.parent / "tools" / "lib"))

from words import Parser, end, program, whole


def trace_of(r, lines, names):
    """A trace of a number of lines, by letters as FORMATS has them, with moments that sometimes go back."""
    keys, now, text = r.choice([6, 30, 200]), 0, ["wt 2\n"] * names
    for _ in range(lines):
        now += r.choice([0, 0, 1, 3, 20])
        letter = r.choices("LSGEPDFCX", [10, 20, 15, 15, 15, 4, 3, 2, 0.3])[0]
        key = "" if letter in "CX" else (" k%d" if names else " %d") % min(r.randrange(keys), r.randrange(keys))
        text.append("%d %s%s\n" % (max(0, now - r.choice([0, 0, 0, 7])), letter, key))
    return "".join(text).encode()


def options_of(r):
    entries = r.choice([1, 2, 4, 16, 64, 100])
    options = ["--entries", entries, "--window", r.randint(1, entries), "--mod", r.choice([1, 5, 40])]
    options += ["--flights", r.choice([1, 3, 32])]
    if r.random() < 0.7:
        options += ["--weight", r.randint(1, 60) * r.choice([1, 5, 20])]
    for option in ("--write", "--access", "--refresh", "--fail-mod"):
        if r.random() < 0.5:
            options += [option, r.choice([3, 20, 60, 300])]
    return [str(option) for option in options]


def main():
    parser = Parser(__doc__)
    parser.add_argument("traces", type=whole(1, 1_000_000), help="how many traces")
    parser.add_argument("proved", type=program, help="wt_replay, as the gate built it")
    parser.add_argument("tried", type=program, help="the replay through the header")
    parser.add_argument("keys", nargs="?", choices=("numbers", "names"), default="numbers")
    words = parser.parse_args()
    total = 0
    for seed in range(words.traces):
        r = random.Random(seed)
        lines = r.choice([50, 300, 2000])
        trace, options = trace_of(r, lines, words.keys == "names"), options_of(r)
        one, two = (subprocess.run([path, *options], input=trace, capture_output=True) for path in (words.proved, words.tried))
        if (one.stdout, one.returncode) != (two.stdout, two.returncode):
            sys.exit("seed %d, %s: they differ" % (seed, " ".join(options)))
        total += lines
    print("%d traces of %s, %d lines: the same bytes" % (words.traces, words.keys, total))


if __name__ == "__main__":
    end(main)
