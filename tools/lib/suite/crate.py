#!/usr/bin/env python3
"exec" "python3" "$0" "$@"  # sh hands this file to Python
__doc__ = """Runs a crate of the current folder's repository without any proof: its tests, or a program, whose output has to be its file stdout."""
import re
import subprocess
import sys
import tempfile
from pathlib import Path

sys.path.insert(0, str(Path(__file__).resolve().parent.parent))

from trees import copy_crates
from words import Parser, end

SECONDS = "240"
# A library that has no test is compiled as part of a program that does nothing.
NOTHING = "#![tactic(auto)]\n\nfn main(rt: HostRuntime) {\n}\n"


def tried(folder, *words):
    return subprocess.run(["rt", "try", "--seconds", SECONDS, *words], cwd=folder, stdin=subprocess.DEVNULL, stdout=subprocess.PIPE,
                          stderr=subprocess.PIPE, text=True)


def fail(done, sentence):
    print(done.stdout + done.stderr)
    sys.exit(sentence)


def run_tests(crate):
    """Every test of the sources has to be among those that passed."""
    wanted = sum(len(re.findall(r"^\s*#\[test\]", path.read_text(), re.M)) for path in (crate / "src").rglob("*.rt"))
    done = tried(crate, "--test")
    passed = re.findall(r"^test (\S+) \.\.\. ok$", done.stdout + done.stderr, re.M)
    if done.returncode or len(passed) != wanted:
        fail(done, "%s: %d of %d tests passed" % (crate.name, len(passed), wanted))
    print("%d tests passed" % wanted)


def run_program(crate):
    """A program writes what its file stdout has."""
    done = tried(crate)
    if not re.search(r"^run=ended status=0 ", done.stderr, re.M):
        fail(done, "%s: the program could not be run" % crate.name)
    if done.stdout != (crate / "stdout").read_text():
        fail(done, "%s: its output isn't that of its file stdout" % crate.name)
    print("%d lines of output are as stored" % done.stdout.count("\n"))


def compile_library(crate):
    """In a copy, as part of a program that does nothing."""
    with tempfile.TemporaryDirectory(prefix="compiled-") as name:
        top, user = Path(name), Path(name, "crates", "nothing")
        copy_crates(top, [crate.name], "nothing: %s" % crate.name)
        (user / "src").mkdir(parents=True)
        (user / "src" / "main.rt").write_text(NOTHING)
        done = tried(user)
    if not re.search(r"^run=ended status=0 ", done.stderr, re.M):
        fail(done, "%s: it could not be compiled" % crate.name)
    print("compiled")


def main():
    parser = Parser(__doc__)
    parser.add_argument("how", choices=("tests", "program", "library"), help="what to run of it")
    parser.add_argument("crate", type=Path, help="the crate's folder")
    given = parser.parse_args()
    {"tests": run_tests, "program": run_program, "library": compile_library}[given.how](given.crate.resolve())


if __name__ == "__main__":
    end(main)
