#!/usr/bin/env python3
"exec" "python3" "$0" "$@"  # sh hands this file to Python
__doc__ = """Plays random streams through rookdresser_adaptive.h and by tools/model/adviser.py, which is written from the rule alone: the hits, the
windows at each look-up and how often another was chosen have to be the same."""
import random
import subprocess
import sys
from pathlib import Path

TOOLS = Path(__file__).resolve().parent.parent.parent / "tools"
sys.path[:0] = [str(TOOLS), str(TOOLS / "lib")]

from model.adviser import play
from words import Parser, end, program, whole


def stretch(r, entries, lines):
    """Keys of one kind: of a skewed stream, of a loop with others between, or each again once some others were looked up."""
    first, kind = r.randrange(2 ** 40), r.randrange(3)
    if kind == 0:
        return [first + int(r.paretovariate(0.6)) % 2 ** 32 for _ in range(lines)]
    if kind == 1:
        popular = max(1, int(entries * r.uniform(0.5, 1)))
        return [first + (i // 2 % popular if i % 2 else 10 * entries + i) for i in range(lines)]
    behind = r.randint(1, entries)
    return [first + (i // 2 if i % 2 else i // 2 + behind) for i in range(lines)]


def stream_of(r, entries, lines):
    keys = []
    while len(keys) < lines:
        keys += stretch(r, entries, lines // 3)
    return keys


def main():
    parser = Parser(__doc__)
    parser.add_argument("streams", type=whole(1, 1_000_000), help="how many streams")
    parser.add_argument("tried", type=program, help="adaptive_hits")
    words = parser.parse_args()
    total = choices = 0
    for seed in range(words.streams):
        r = random.Random(seed)
        entries = r.choice([64, 100, 200, 512, 513, 700, 1024])
        keys = stream_of(r, entries, 20 * entries)
        hits, mean, chosen = play(keys, entries)
        said = subprocess.run([words.tried, str(entries)], input="\n".join(map(str, keys)), capture_output=True, text=True, check=True).stdout
        if said.split() != [str(hits), str(round(mean * len(keys))), str(chosen)]:
            sys.exit("seed %d, %d entries: %s, and by the rule %d %d %d" % (seed, entries, said.strip(), hits, round(mean * len(keys)), chosen))
        total += len(keys)
        choices += chosen
    if choices < words.streams:
        sys.exit("only %d other windows were chosen" % choices)
    print("%d streams, %d look-ups, %d other windows chosen: the same hits and windows" % (words.streams, total, choices))


if __name__ == "__main__":
    end(main)
