"""A second program of the rules of docs/FORMATS.md, over plain lists, for tools/gate/check_program, tools/hit_curve and
tools/show_trace.

It is written from that page alone and shares nothing with the proved program.
"""
from model.regions import COUNTED
from model.shard import Shard
from model.trace import read_trace
from options import settings

SHARD_FACTOR = 0xC2B2AE3D27D4EB4F


def shard_of(word, shards):
    bits = {1: 0, 2: 1, 4: 2}[shards]
    return (SHARD_FACTOR * word) % 2 ** 64 >> 64 - bits


class Run:
    """A run line by line, with all options in their ranges: the lines, the fault that ends them, and the shards as they are."""

    def __init__(self, s, trace, shard_type=Shard):
        self.lines, self.fault = read_trace(trace)
        self.shards = [shard_type(s) for _ in range(s["shards"])]

    def shards_at(self, line):
        """The shards whose step the line is."""
        key = line[3]
        return self.shards if key is None else [self.shards[shard_of(key[1], len(self.shards))]]

    def do(self, line):
        """Does a line, and returns its line of the report, without LF."""
        number, moment, letter, key = line
        at = self.shards_at(line)
        for shard in at:
            shard.line, shard.left, shard.notes = number, [], []
            words = getattr(shard, "letter_" + letter)(moment, key, number)
            if letter in "LSG":
                shard.follow(moment, key)
        return "%d %s%s" % (number, words, "".join(text for shard in at for text in shard.left))

    def sums(self):
        """The numbers of the summary, as they are now."""
        sums = {name: sum(shard.counts[name] for shard in self.shards) for name in COUNTED}
        sums["entries"] = sum(len(shard.entries) for shard in self.shards)
        sums["weight"] = sum(shard.weight for shard in self.shards)
        return sums

    def summary(self):
        return " ".join("%s %d" % part for part in self.sums().items())


def run(options, trace, shard_type=Shard):
    """The exit status, the standard output and the standard error of a run. Turn by turn it is foretold for one thread."""
    s, outside = settings(options)
    if outside is not None:
        return 1, b"", b"fault 2 field %s\n" % outside.encode()
    whole = Run(s, trace, shard_type)
    fault = whole.fault
    if s["turn"]:
        fault = next(("fault 11 line %d\n" % number for number, _, letter, _ in whole.lines if letter in "SE"), fault)
        if fault:
            return 1, b"", fault.encode("ascii")
    report = [whole.do(line) for line in whole.lines]
    if not fault:
        report.append(whole.summary())
    if s["turn"]:
        del report[:-1]
    return (1 if fault else 0), "".join(line + "\n" for line in report).encode("ascii"), fault.encode("ascii")
