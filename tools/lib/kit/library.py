#!/usr/bin/env python3
"exec" "python3" "$0" "$@"  # sh hands this file to Python
__doc__ = """Proves and builds crates/wt_ffi as a static library: tools/lib/kit/library.py FILE

`rt ci` only checks a static library, and keeps nothing of it. So right after the gate wt_ffi alone is proved again, over the libraries
that the gate left, as it is built: two minutes of processor, where `rt lib` would prove the libraries below anew. Prints the verdict.
"""
import re
import shutil
import sys
import tempfile
from pathlib import Path

sys.path.insert(0, str(Path(__file__).resolve().parent.parent))

import kit
from crates_txt import lines, with_below
from places import CRATES, TOP
from progress import Line, Progress, follow
from words import Parser, end, new_file

FFI = CRATES / "wt_ffi"


def say(text):
    print("tools/embed: %s" % text, file=sys.stderr, flush=True)


def sources_of(name):
    return [TOP / "crates.txt", *(path for part in ("src", "specs", "proofs") for path in (CRATES / name / part).rglob("*"))]


def gate_left(name):
    """Whether the gate left a crate's library, which bears no stamp then, and no source is newer than its folder. Its files may be older: `rt ci`
    links what it kept into a new folder."""
    built = CRATES / name / "out" / "rlib"
    library = built / (name + ".rlib")
    if not (library / "format").exists() or (built / "stamp").exists():
        return False
    return all(path.stat().st_mtime <= library.stat().st_mtime for path in sources_of(name))


def over_the_gate(below, room):
    """The command that proves wt_ffi over these libraries, and what it writes."""
    at, made = kit.folder(), room / "libwt_ffi.a"
    words = ["-L", "dependency=%s" % (at / "rlibs")]
    for name in below:
        words += ["-L", "dependency=%s" % (CRATES / name / "out" / "rlib")]
    for name in ["std", *lines()["wt_ffi"][1]]:
        place = CRATES / name / "out" / "rlib" if name in below else at / "rlibs"
        words += ["--extern", "%s=%s" % (name, place / (name + ".rlib"))]
    return [at / "bin" / "rattle", "build", "--crate-name", "wt_ffi", "src/lib.rt", "--crate-type", "staticlib", *words,
            "--antt-project", at / "rattle" / "logic" / "antt-project.json", "--logic-built", at / "logic_built", "--links", "wt_ffi=", "--jobs", "2",
            "--incremental", room / "incremental", "--toolchain", at / "toolchain", "--backend", "llvm", "-o", made], made


def build(file):
    below = [name for name in with_below(["wt_ffi"]) if name != "wt_ffi"]
    with tempfile.TemporaryDirectory(prefix="library-") as name:
        room = Path(name)
        if all(map(gate_left, below)):
            say("proves and builds wt_ffi over the libraries that the gate left, which takes some two minutes")
            command, made = over_the_gate(below, room)
        else:
            say("proves and builds wt_ffi and what it stands on. That takes most of an hour if nothing is proved yet, and some ten minutes"
                " if the libraries below are. `sh tools/embed --unproved` takes one")
            command, made = ["rt", "lib", "--jobs", "2"], FFI / "out" / "libwt_ffi.a"
        status, said = follow(Line("tools/embed"), Progress("wt_ffi"), command, cwd=FFI)
        if status:
            print("\n".join(said.splitlines()[-20:]))
            return status
        print("\n".join(re.findall(r"^logic=.*", said, re.M)[-1:]))
        shutil.copy(made, file)
    return 0


def main():
    parser = Parser(__doc__)
    parser.add_argument("file", metavar="FILE", type=new_file, help="the static library to write")
    given = parser.parse_args()
    return build(given.file.resolve())


if __name__ == "__main__":
    end(main)
