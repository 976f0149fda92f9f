"""The steps of a trace for tools/show_trace: the states of tools/model, each stored as its difference from the one before.

A page's lists are those of its shards, four for each: window, probation, protected and the open loads, each with rows. An
entry's row is its key, version, moments of its store and of its latest use, and the moment from which it is expired; a load's is
its number, its key, the lines that share it, and whether it is current. Keys are numbers of the page's table of keys.
"""
from model import COUNTED, Run
from page_words import JUMPS, NUMBER_OF
from progress import Line

MOST_STEPS = 5000
LISTS = ("window", "probation", "protected", "loads")
# Numbers above this are texts in a page, since a browser rounds them.
EXACT = 2 ** 53


def exact(number):
    return number if number is None or number < EXACT else str(number)


class Keys:
    """The keys of a page, each with its number, its counters in the sketch of its shard, and the keys that share one with it."""

    def __init__(self, run):
        self.run, self.numbers, self.names, self.words, self.counters, self.sharing = run, {}, [], [], [], {}

    def number(self, key):
        if key not in self.numbers:
            number = self.numbers[key] = len(self.names)
            self.names.append(key[0])
            self.words.append(key[1])
            sketch = self.run.shards_at((0, 0, "L", key))[0].sketch
            self.counters.append([(sketch, row, place) for row, place in enumerate(sketch.places(key[1]))])
            for counter in self.counters[number]:
                self.sharing.setdefault(counter, []).append(number)
        return self.numbers[key]

    def beside(self, number):
        return {other for counter in self.counters[number] for other in self.sharing[counter]}

    def estimate(self, number):
        return min([sketch.rows[row][place] for sketch, row, place in self.counters[number]])


def changes(number, before, after):
    """What leaves a list, by its places from the last on, and what comes into it, by its places from the first on. What stays has
    kept its order: the entry of the line's key, which alone may move within a list, always has a new row."""
    gone, new = set(map(id, before)), set(map(id, after))
    gone, new = gone - new, new - gone
    outs = [[number, at] for at in reversed(range(len(before))) if id(before[at]) in gone] if gone else []
    return outs, [[number, at, row] for at, row in enumerate(after) if id(row) in new] if new else []


def as_told(part, keys):
    """A part of a note: a key is a list of its number."""
    if isinstance(part, tuple):
        return [keys.number(part)]
    return ("the window" if part == "window" else part) if isinstance(part, str) else exact(part)


def notes_of(shards, keys):
    """The notes of a step, and what it may be jumped to for."""
    notes, words = [], set()
    for word, *told in (note for shard in shards for note in shard.notes):
        if word == "loses" and told[2] == told[3]:
            word = "ties"
        words.add(word)
        notes.append([NUMBER_OF[word]] + [as_told(part, keys) for part in told])
    return notes, [at for at, kinds in enumerate(JUMPS.values()) if kinds & words]


class Recorder:
    """Records these lines of a run: how it was before them, and the step of each."""

    def __init__(self, run, lines):
        self.run, self.keys, self.rows, self.steps = run, Keys(run), {}, []
        for shard in run.shards:
            for entry in shard.entries.values():
                self.renew(shard, entry)
        self.lists = [[]] * 4 * len(run.shards)
        self.lists = [rows for number, shard in enumerate(run.shards) for rows in self.rows_of(number, shard)]
        for key in [line[3] for line in lines if line[3]]:
            self.keys.number(key)
        self.latest = [shard.latest for shard in run.shards]
        self.estimates = [self.keys.estimate(number) for number in range(len(self.keys.names))]
        self.start = {"lists": list(self.lists), "latest": [exact(n) for n in self.latest], "sums": list(run.sums().values()), "estimates": list(self.estimates)}

    def renew(self, shard, entry):
        self.rows[entry] = [self.keys.number(entry.key), entry.version, exact(entry.written), exact(entry.used), exact(shard.expires_at(entry))]

    def rows_of(self, number, shard):
        """The four lists of a shard. A row that is as it was is the same one."""
        before = {row[0]: row for row in self.lists[4 * number + 3]}
        loads = [[load.number, self.keys.number(load.key), list(load.lines), int(load.current)] for load in shard.loads]
        loads = [row if row != before.get(row[0]) else before[row[0]] for row in loads]
        return [[self.rows[entry] for entry in region] for region in shard.regions()] + [loads]

    def do(self, line):
        report = self.run.do(line)
        number, moment, letter, key = line
        shards = self.run.shards_at(line)
        outs, ins, latest = [], [], []
        for shard in shards:
            at = self.run.shards.index(shard)
            if key in shard.entries:
                self.renew(shard, shard.entries[key])
            for place, rows in enumerate(self.rows_of(at, shard), 4 * at):
                less, more = changes(place, self.lists[place], rows)
                outs, ins, self.lists[place] = outs + less, ins + more, rows
            if shard.latest != self.latest[at]:
                self.latest[at] = shard.latest
                latest.append([at, exact(shard.latest)])
        notes, jumps = notes_of(shards, self.keys)
        text = "%d %s%s" % (moment, letter, " " + key[0] if key else "")
        whose = self.run.shards.index(shards[0]) if key else -1
        words, sums, counted = report.partition(" ")[2], list(self.run.sums().values()), self.recount(shards, key)
        self.steps.append([number, text, words, whose, notes, jumps, outs, ins, latest, sums, counted])

    def recount(self, shards, key):
        """The keys whose estimate is another one now, with it."""
        if any(note[0] == "halved" for shard in shards for note in shard.notes):
            counted = range(len(self.estimates))
        else:
            counted = sorted(self.keys.beside(self.keys.number(key))) if key else ()
        changed = [[number, self.keys.estimate(number)] for number in counted if self.keys.estimate(number) != self.estimates[number]]
        for number, estimate in changed:
            self.estimates[number] = estimate
        return changed


def record(s, trace, first, last):
    """The page's numbers for the lines from `first` to `last`, which have to be there, and the report up to `last`."""
    run, progress, report = Run(s, trace), Line("show_trace"), []
    lines = [line for line in run.lines if line[0] <= last]
    early = [line for line in lines if line[0] < first]
    for line in early:
        report.append(run.do(line))
        progress.tell("line {:,} of {:,}".format(line[0], last))
    recorder = Recorder(run, lines[len(early):])
    for line in lines[len(early):]:
        recorder.do(line)
        report.append("%d %s" % (line[0], recorder.steps[-1][2]))
        progress.tell("line {:,} of {:,}".format(line[0], last))
    progress.wipe()
    keys = recorder.keys
    numbers = {
        "keys": keys.names, "texts": None, "shown": None, "names": trace.split(b"\n", 1)[0] == b"wt 2", "weights": [1 + word % s["mod"] for word in keys.words] if s["mod"] > 1 else None,
        "shards": s["shards"], "sums": list(COUNTED) + ["entries", "weight"], "start": recorder.start, "steps": recorder.steps,
    }
    return numbers, report + [run.summary()]


def states(numbers):
    """The states of a page, as its script makes them: before the first step, and after each. The next one overwrites the last."""
    start = numbers["start"]
    lists, latest, estimates = ([list(part) for part in start["lists"]], list(start["latest"]), list(start["estimates"]))
    yield {"lists": lists, "latest": latest, "sums": start["sums"], "estimates": estimates}
    for *_, outs, ins, moments, sums, counted in numbers["steps"]:
        for number, at in outs:
            del lists[number][at]
        for number, at, row in ins:
            lists[number].insert(at, row)
        for shard, moment in moments:
            latest[shard] = moment
        for key, estimate in counted:
            estimates[key] = estimate
        yield {"lists": lists, "latest": latest, "sums": sums, "estimates": estimates}
