"""The sentences of tools/show_trace: what each note of tools/model says, and what a reader may jump to.

{0} is the key that a note is about, {1} and up is what stands behind it.
"""

SENTENCES = {
    "late": "Moment {1} comes before the latest one: it counts as {2}.",
    "own expired": "Key {0} has been expired since moment {1}: it leaves first, whatever the line asks for.",
    "hit": "Key {0} is in {1}: a hit, version {2}.",
    "miss": "Key {0} isn't there: a miss.",
    "front": "Key {0} stands at the front of {1} now.",
    "promoted": "Key {0} moves up from probation to the front of protected.",
    "demoted": "Protected has room for {1}: its last, key {0}, goes back to the front of probation.",
    "lead": "The line opens load {1} of key {0}.",
    "join": "Load {1} of key {0} is open: the line shares it. Sharers now: {2}.",
    "refresh": "Key {0} was stored {2} ms ago and is due: the line gets the old value at once, and opens load {1} beside it.",
    "full": "Key {0} would need a load, but {1} are open, and no more may be. Nothing is done.",
    "landed": "Load {1} of key {0} lands with a value. Sharers: {2}.",
    "failed": "Load {1} of key {0} fails, and stores nothing. Sharers: {2}.",
    "stale": "Key {0} was put, dropped, forgotten or cleared while load {1} was open: its value is stale, and isn't stored.",
    "too heavy to keep": "The value of key {0} weighs {1}, more than the bound of {2}: it isn't stored.",
    "forgotten": "Load {1} of key {0} is joined no more, and its value will not be stored.",
    "no load": "Key {0} has no open load. Nothing is done.",
    "heavy": "The value of key {0} would weigh {1}, more than the bound of {2}. Nothing is done.",
    "nothing to drop": "Key {0} isn't there: nothing to take out.",
    "nothing to forget": "Key {0} has no load that could be joined: nothing to forget.",
    "cleaned": "Every expired entry is taken out: {1}.",
    "cleared": "Every entry is taken out: {1}. No open load is joined any more.",
    "replaces": "Key {0} is held: version {1} takes the place of the old value.",
    "enters": "Key {0} enters at the front of the window, as version {1}.",
    "candidate expired": "The window is too long by one. Its last, key {0}, is expired, and leaves.",
    "no main": "The window is too long by one, and there is no other region: its last, key {0}, leaves.",
    "room": "The window is too long by one: its last, key {0}, moves on to probation, which has room.",
    "no victim": "The window is too long by one: its last, key {0}, finds no victim in probation, and leaves.",
    "victim expired": "Candidate {0} meets victim {1}, the last of probation, which is expired: {1} leaves, and {0} moves in.",
    "wins": "Candidate {0} meets victim {1}, the last of probation. Estimates: {2} against {3}, which is more: {1} leaves, and {0} moves in.",
    "ties": "Candidate {0} meets victim {1}, the last of probation. Estimates: {2} against {3}, a tie: {0} leaves.",
    "loses": "Candidate {0} meets victim {1}, the last of probation. Estimates: {2} against {3}, which is less: {0} leaves.",
    "trimmed": "All weights sum to {2}, more than {3}: the last of {1}, key {0}, leaves.",
    "halved": "That was addition number {1}: all counters are halved, so that old popularity fades.",
    "left explicit": "Key {0}, version {1}, left: explicit.",
    "left replaced": "Key {0}, version {1}, left: replaced.",
    "left expired": "Key {0}, version {1}, left: expired.",
    "left size": "Key {0}, version {1}, left: size.",
}

# What a reader may jump to, and the notes that make a step one.
JUMPS = {
    "hit": {"hit"},
    "removal": {"left explicit", "left replaced", "left expired", "left size"},
    "load": {"lead", "join", "refresh", "landed", "failed"},
    "duel": {"wins", "ties", "loses", "victim expired"},
    "refused": {"full", "heavy", "no load", "stale", "too heavy to keep"},
}
# What stands on a key that a line did something with.
MARKS = {"enters": "+ new", "replaces": "new value", "front": "used", "promoted": "\u2191 up", "demoted": "\u2193 back",
         "room": "\u2192 in", "wins": "\u2192 won", "victim expired": "\u2192 in"}
# What a still picture leaves out, if a line has more to tell: what is seen in it, and of a get its load.
SEEN = {"miss", "front"}
OF_A_GET = {"lead", "landed", "enters"}

WORDS = list(SENTENCES)
NUMBER_OF = {word: number for number, word in enumerate(WORDS)}


def picture_notes(words, letter):
    """Those notes of a line whose sentences stand in a picture."""
    told = [word for word in words if not word.startswith("left ")]
    few = [word for word in told if word not in SEEN and not (letter == "G" and word in OF_A_GET)]
    return set(few or told)
