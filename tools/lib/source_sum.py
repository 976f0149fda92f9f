#!/usr/bin/env python3
"exec" "python3" "$0" "$@"  # sh hands this file to Python
__doc__ = """Prints the sum of all that a crate is made of without a proof: tools/lib/source_sum.py CRATE [FILE..]

That is the sources and definitions of the crate and of those below it, their lines of crates.txt, HANDLES, the toolchain's version,
and the files that are named. While the sum stays, tools/try and tools/embed keep what they built.
"""
import hashlib
import subprocess

import places
from crates_txt import lines, with_below
from places import CRATES, TOP
from words import Parser, end


def sum_of(crate, files=()):
    """The sum, of a crate and of files that are named from the top."""
    told = hashlib.sha256(subprocess.run(["rt", "version"], check=True, stdout=subprocess.PIPE).stdout)
    found = sorted(with_below([crate]).items())
    paths = [TOP / "HANDLES", *(TOP / name for name in files)]
    for name, _ in found:
        paths += places.files(CRATES / name, "src/**/*") + sorted(path for path in (CRATES / name / "specs").rglob("*") if path.is_file())
    for _, line in found:
        told.update(b"%s\n" % line.encode())
    for path in paths:
        told.update(b"%s\0%s\0" % (str(path.relative_to(TOP)).encode(), hashlib.sha256(path.read_bytes()).digest()))
    return told.hexdigest()[:16]


def main():
    parser = Parser(__doc__)
    parser.add_argument("crate", help="the crate's name")
    parser.add_argument("files", nargs="*", metavar="FILE", help="a file, from the top")
    given = parser.parse_args()
    if given.crate not in lines():
        parser.error("crates.txt has no crate %s" % given.crate)
    print(sum_of(given.crate, given.files))
    return 0


if __name__ == "__main__":
    end(main)
