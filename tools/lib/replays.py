"""What `sh tools/try` and `sh tools/replay` do: they replay the trace on standard input on a cache, and write its report.

    sh tools/try [options] < traces/first.trace       by a program that is built without any proof, in a minute or two. It is optimised as the
                                                      proved one is. It stays in out/try, so the next run begins at once, until a source changes
    sh tools/replay [options] < traces/first.trace    by the program, which is proved and built first if a source is newer than it
    sh tools/try --build, sh tools/replay --build     build, and replay nothing

Options, input, output and the exit status are the program's.
"""
import os
import subprocess
import sys
import time

import facts
import kept_program
from places import CRATES, PROGRAM, TOP, files
from progress import Line, Progress, follow
from words import Parser, end, wants

CRATE = CRATES / "wt_replay"
SECONDS = CRATE / "out" / "build_seconds"


def options_told():
    rows = ["  --%-9s %s %s [%s]" % (name, sentence[:-1] + ":", reach.split(", milliseconds")[0], default)
            for name, reach, default, sentence, _ in facts.rows_of_options()]
    return "\n\nOptions, with their ranges and [defaults]:\n\n%s\n\nFaults: %s." % ("\n".join(rows), facts.faults())


class Words(Parser):
    """Takes the program's options, each with a whole number, and hands them on as they are."""

    def __init__(self, tool):
        super().__init__(__doc__ + options_told(), "tools/" + tool)
        self.add_argument("--build", action="store_true", help="build, and replay nothing")
        self.add_argument("-V", "--version", action="version", version="wt_replay " + facts.VERSION)

    def read(self, words):
        """Whether only to build, and the words for the program."""
        known, left = self.parse_known_args(words)
        if known.build and left:
            self.error("--build stands alone, without %s" % left[0])
        names = [row[0] for row in facts.rows_of_options()]
        for word in left:
            if word.startswith("--") and word[2:].partition("=")[0] not in names:
                self.error("there is no option %s" % word.partition("=")[0])
            if not word.startswith("--") and not (word.isascii() and word.isdigit()):
                self.error("'%s' is neither an option nor a whole number" % word)
        return known.build, left


def in_words(seconds):
    return "%d s" % seconds if seconds < 60 else "%d min %d s" % divmod(seconds, 60)


def last_build():
    """What it took last here to prove and build the program, in seconds; None if that isn't known."""
    text = SECONDS.read_text().strip() if SECONDS.exists() else ""
    return int(text) if text.isdigit() else None


def build_time():
    seconds = last_build()
    if seconds is None:
        return "the first time this takes about %s minutes on four cores" % facts.MINUTES
    return "the last time this took %s here" % in_words(seconds)


def needs_build():
    """Whether a source of any crate is newer than the program."""
    sources = files(CRATES, "wt_*/src/**/*", "wt_*/specs/**/*", "wt_*/proofs/**/*")
    return not os.access(PROGRAM, os.X_OK) or any(path.stat().st_mtime > PROGRAM.stat().st_mtime for path in (TOP / "crates.txt", *sources))


def build(parser):
    """Proves and builds the program."""
    wants(parser, "rt")
    SECONDS.parent.mkdir(parents=True, exist_ok=True)
    print("tools/replay: proving and building wt_replay first; %s (sh tools/try runs it unproved, in a minute or two)" % build_time(), file=sys.stderr)
    began, reckoned = time.monotonic(), last_build()
    progress = Progress("wt_replay", int(facts.MINUTES) * 60 if reckoned is None else reckoned)
    status, said = follow(Line("tools/replay"), progress, ["rt", "run", "--", "--help"], cwd=CRATE)
    if status or not os.access(PROGRAM, os.X_OK):
        parser.exit(2, "%stools/replay: the program could not be built\n" % said)
    SECONDS.write_text("%d\n" % (time.monotonic() - began))
    os.utime(PROGRAM)


def explained(line):
    """What the number of a fault line means, as a line, or nothing."""
    number = line.removeprefix("fault ").partition(" ")[0]
    return "tools/try: fault %s means: %s (docs/FORMATS.md)\n" % (number, facts.FAULTS[number]) if line.startswith("fault ") and number in facts.FAULTS else ""


def say_waits(tool):
    if sys.stdin is not None and sys.stdin.isatty():
        print("tools/%s: waiting for a trace on standard input: lines as '0 P 1' and '0 L 1', and Ctrl-D at the end;\n"
              "tools/%s: a trace in a file: sh tools/%s < traces/first.trace" % (tool, tool, tool), file=sys.stderr)


def try_it(parser, only_build, words):
    wants(parser, "rt")
    try:
        program = kept_program.kept()
    except (OSError, subprocess.CalledProcessError) as fault:
        parser.exit(2, "tools/try: the program could not be built: %s\n" % fault)
    if only_build:
        return 0
    say_waits("try")
    done = subprocess.run([program, *words], stderr=subprocess.PIPE, text=True)
    sys.stderr.write(done.stderr + explained((done.stderr.splitlines() or [""])[-1]))
    print("tools/try: nothing is proved of this run. Prove and build the program, and replay the same; %s:\n"
          "    sh tools/replay %s < your.trace" % (build_time(), " ".join(words)), file=sys.stderr)
    return done.returncode


def replay(parser, only_build, words):
    if needs_build():
        build(parser)
    if only_build:
        return 0
    say_waits("replay")
    sys.stderr.flush()
    os.execv(PROGRAM, [str(PROGRAM), *words])


def main():
    tool = sys.argv[1] if sys.argv[1:2] in (["try"], ["replay"]) else "try"
    parser = Words(tool)
    only_build, words = parser.read(sys.argv[2:])
    return {"try": try_it, "replay": replay}[tool](parser, only_build, words)


if __name__ == "__main__":
    end(main)
