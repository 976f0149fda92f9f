#!/usr/bin/env python3
"exec" "python3" "$0" "$@"  # sh hands this file to Python
__doc__ = """Plays the calls that shared_calls lists, in the order of their places, on the model: it has to give the same replies."""
import subprocess
import sys
from pathlib import Path

TOOLS = Path(__file__).resolve().parent.parent.parent / "tools"
sys.path[:0] = [str(TOOLS / "lib"), str(TOOLS)]

from model.scenario import DEFAULTS, Played, arguments
from words import Parser, end, program, whole

# The setup of shared_calls.c.
SETUP = {**DEFAULTS, "entries": 100, "window": 10, "flights": 8, "weight": 500, "write": 900, "access": 400, "refresh": 300}
# Each kind of answer by its number, with the fields that it tells.
KINDS = {1: ("hit", "token", "weight"), 2: ("absent",), 3: ("hit-lead", "token", "weight", "number"), 4: ("join", "number"), 5: ("lead", "number"),
         6: ("kept", "number"), 7: ("loose", "number"), 8: ("failed", "number"), 9: ("gone",), 10: ("stored",), 12: ("cleared",), 14: ("cleaned",)}
WHETHER = {11: ("not-there", "dropped"), 13: ("no-load", "forgot"), 16: ("at-the-end", "slid")}


def reply_of(words):
    """The words of a scenario for an answer's four numbers; of a refusal the fault alone."""
    kind, token, weight, number = map(int, words)
    if kind in WHETHER:
        return WHETHER[kind][number]
    if kind == 15:
        return "fault %d" % number
    of = {"token": token, "weight": weight, "number": number}
    return " ".join(str(of.get(word, word)) for word in KINDS[kind])


def main():
    parser = Parser(__doc__)
    parser.add_argument("calls", type=whole(1, 1_000_000), help="how many calls")
    parser.add_argument("shared_calls", type=program, help="the program")
    words = parser.parse_args()
    listed = subprocess.run([words.shared_calls, str(words.calls), "list"], stdout=subprocess.PIPE, check=True, text=True).stdout.splitlines()
    played = Played(SETUP)
    for place, line in enumerate(listed, 1):
        asked, told = (part.split() for part in line.split("="))
        reply = getattr(played, "call_" + asked[1])(int(asked[0]), *arguments(asked))
        if reply.startswith("fault"):
            reply = " ".join(reply.split()[:2])
        if reply != reply_of(told):
            sys.exit("call %d, %s: the model replies %s, and the cache %s" % (place, line, reply, reply_of(told)))
    print("same_history: %d calls with the replies of the model" % len(listed))


if __name__ == "__main__":
    end(main)
