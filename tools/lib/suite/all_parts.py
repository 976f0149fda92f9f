"""The parts of tools/test, in a copy of the tree."""
import re
import sys

from places import files

from .part import Part

# The checks of pages and sources, each with the seconds that it takes.
CHECKS = {"check_facts": 1, "check_bindings": 1, "check_layout": 2, "check_prose": 1, "check_guards": 1, "check_rules": 1, "check_readers": 1, "check_kit": 1,
          "check_checkers": 30, "check_native_steps": 1, "check_native_steps --wrong": 5}
# Those of the program, which stands where a proved one would.
OF_PROGRAM = {"check_program": ((), 40), "check_facts --built": ((), 1), "refuse_memory --program": (("cc",), 5), "check_tools": ((), 60),
              "check_page": (("chromium",), 60)}
LANGUAGES = {"c": (("gcc", "g++", "nm", "objdump", "pkg-config"), 120), "rust": (("cargo", "cargo-clippy"), 300),
             "python": (("mypy", "python3-dbg"), 300), "go": (("go",), 200)}
# The slowest crates' tests, in seconds of a core.
SLOW = {"wt_turns_tests": 60, "wt_shards_tests": 120, "wt_cache_tests": 120, "wt_callers_tests": 120, "wt_core_tests": 90, "wt_trace_tests": 120,
        "wt_keys_tests": 90}
# The slowest pages.
PAGES = {"CONTRIBUTING.md": 230, "docs/GUIDE.md": 80, "embed/README.md": 60, "embed/python/README.md": 50}


def python(*words):
    return [sys.executable, *words]


def of_sources(copy):
    for words, seconds in CHECKS.items():
        name, *flags = words.split()
        yield Part("sources: " + words, python(copy / "tools" / "gate" / name, *flags), copy, seconds,
                   needs=("rt",) if name in ("check_layout", "check_kit", "check_checkers") else ())


def of_crates(copy):
    run = copy / "tools" / "lib" / "suite" / "crate.py"
    for crate in sorted(path for path in (copy / "crates").iterdir() if path.is_dir()):
        sources = [path.read_text() for path in files(crate, "src/**/*.rt")]
        if any(re.search(r"^\s*#\[test\]", text, re.M) for text in sources):
            yield Part("tests of %s" % crate.name, python(run, "tests", crate), crate, SLOW.get(crate.name, 60), needs=("rt",))
        elif crate.name.startswith("example"):
            yield Part(crate.name, python(run, "program", crate), crate, 40, needs=("rt",))
        elif crate.name == "uses":
            yield Part(crate.name, python(run, "library", crate), crate, 30, needs=("rt",))


def of_program(copy):
    built = copy / "crates" / "wt_replay" / "out"
    yield Part("the program", ["sh", "-euc", 'program=$(python3 tools/lib/kept_program.py) && mkdir -p "$1" && cp "$program" "$1"', "sh", built], copy, 300, needs=("rt",))
    for words, (needs, seconds) in OF_PROGRAM.items():
        name, *flags = words.split()
        yield Part(words, python(copy / "tools" / "gate" / name, *flags), copy, seconds, needs=needs, after=("the program",))


def of_scenarios(copy):
    crate = copy / "crates" / "wt_scenarios"
    yield Part("the player of scenarios", python(copy / "tools" / "lib" / "kit" / "unproved.py", crate, crate / "out" / "wt_scenarios"), copy, 290,
               needs=("rt",))
    yield Part("check_scenarios", python(copy / "tools" / "gate" / "check_scenarios"), copy, 10, after=("the player of scenarios",))


def of_library(copy):
    yield Part("the library", ["sh", "tools/embed", "--unproved"], copy, 300, needs=("rt", "cc", "ar", "objcopy"))
    for language, (needs, seconds) in LANGUAGES.items():
        yield Part("embed/%s" % language, ["sh", "tools/embed", "test", "--library", "out/embed-unproved", language], copy, seconds, needs=needs,
                   after=("the library", "the program") if language == "c" else ("the library",))
    release = "tools/release --unproved --library out/embed-unproved --program crates/wt_replay/out/wt_replay && " \
              "tools/gate/check_release --release out/release-unproved"
    yield Part("a release", ["sh", "-euc", release], copy, 60, needs=("rt", "cc"), after=("the library", "the program"))


def of_pages(copy):
    """Each page with a block of commands, in a folder of its own; and what sentences tell to type."""
    run = copy / "tools" / "gate" / "run_pages"
    names = [str(path.relative_to(copy)) for path in files(copy, "**/*.md")]
    for name in names:
        if re.search(r"^```sh$", (copy / name).read_text(), re.M):
            yield Part(name, python(run, name), copy, PAGES.get(name, 20),
                       needs=("rt", "cc", "cargo", "go", "pkg-config"), after=("the program", "the library", "a release"))
    yield Part("the book", python(copy / "tools" / "gate" / "check_book"), copy, 30, needs=("pandoc",))
    yield Part("commands in sentences", python(run, "--sentences"), copy, 10)


def of_benchmarks(copy):
    for run in files(copy, "bench/*/*"):
        if run.read_bytes().startswith(b"#!"):
            name = str(run.relative_to(copy))
            yield Part(name, [run, "--smoke"], copy, 60, needs=("rt", "valgrind", "cargo"), after=("the program", "the library"))


def all_parts(copy):
    return [part for make in (of_sources, of_crates, of_program, of_scenarios, of_library, of_pages, of_benchmarks) for part in make(copy)]
