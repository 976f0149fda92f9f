#!/usr/bin/env python3
"exec" "python3" "$0" "$@"  # sh hands this file to Python
__doc__ = """Prints the path of wt_replay built without any proof, and builds it first if its sources changed since it was built.

It is optimised as the proved program is. Nothing of it is proved or checked. It stays in out/try, in a folder named for the sum of
its sources, by tools/lib/source_sum.py.
"""
import os
import shutil
import sys

from kit import unproved
from places import TOP
from progress import Line
from source_sum import sum_of
from words import Parser, end

KEPT = TOP / "out" / "try"


def build(folder):
    """Builds the program into a folder of its own, which then takes its place whole. What was built of other sources goes."""
    KEPT.mkdir(parents=True, exist_ok=True)
    made = KEPT / ("%s.%d" % (folder.name, os.getpid()))
    made.mkdir()
    try:
        with Line("tools/try").each_second(lambda: "building, which takes some 60 s"):
            unproved.build_program(made / "wt_replay")
        for other in KEPT.iterdir():
            if other not in (made, folder) and "." not in other.name:
                shutil.rmtree(other, ignore_errors=True)
        if not folder.exists():
            made.rename(folder)
    finally:
        shutil.rmtree(made, ignore_errors=True)


def found():
    """The program that is there, if it is of these sources, or None."""
    if not any(KEPT.glob("*/wt_replay")) or not shutil.which("rt"):
        return None
    program = KEPT / sum_of("wt_replay") / "wt_replay"
    return program if program.exists() else None


def kept():
    """The program, which is built first if it isn't there."""
    folder = KEPT / sum_of("wt_replay")
    if not (folder / "wt_replay").exists():
        print("tools/try: building the program without any proof, which takes a minute or two", file=sys.stderr, flush=True)
        build(folder)
    return folder / "wt_replay"


def main():
    Parser(__doc__).parse_args()
    print(kept())
    return 0


if __name__ == "__main__":
    end(main)
