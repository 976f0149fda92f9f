"""Pages of random traces beside the states of tools/model, for tools/gate/check_page."""
import json
import random
import re

import cases
from model import Run
from options import settings


def numbers_of(page):
    """What a page holds, read from its text as a browser does."""
    return json.loads(re.search(r'<script type="application/json" id="numbers">(.*?)</script>', page).group(1))


def shown(numbers, state):
    """A state of a page: per shard the entries of each region and the loads with their keys as they are printed, and the rest."""
    keys = [name.encode("ascii") for name in numbers["keys"]]

    def number(told):
        return told if told is None else int(told)

    lists = [[(keys[key], version, number(written), number(used), number(end)) for key, version, written, used, end in rows] if at % 4 < 3
             else [(keys[key], load, len(lines), lines[0], bool(current)) for load, key, lines, current in rows] for at, rows in enumerate(state["lists"])]
    return lists, [int(n) for n in state["latest"]], state["sums"], dict(zip(keys, state["estimates"]))


def wanted(run, keys):
    """The same of a run of the model."""
    lists = []
    for shard in run.shards:
        lists += [[(entry.key[0].encode("ascii"), entry.version, entry.written, entry.used, shard.expires_at(entry)) for entry in region]
                  for region in (shard.window, shard.probation, shard.protected)]
        lists.append([(load.key[0].encode("ascii"), load.number, load.sharers, load.lines[0], load.current) for load in shard.loads])
    estimates = {key[0].encode("ascii"): run.shards_at((0, 0, "L", key))[0].sketch.estimate(key[1]) for key in keys}
    return lists, [shard.latest for shard in run.shards], list(run.sums().values()), estimates


def keys_between(run, lines):
    """The keys that are held or loaded, and those of the lines."""
    held = {key for shard in run.shards for key in shard.entries} | {load.key for shard in run.shards for load in shard.loads}
    return held | {line[3] for line in lines if line[3]}


def random_pages(seed):
    """Settings, a trace without a fault, and the first line that is shown, without end."""
    number = 0
    while True:
        number += 1
        rng = random.Random("page %d %d" % (seed, number))
        options, trace = cases.short_case(rng)
        s, outside = settings(options)
        run = None if outside or s["turn"] else Run(s, trace)
        if run and run.lines and not run.fault:
            yield number, s, trace, rng.choice(run.lines)[0] if number % 2 else run.lines[0][0]
