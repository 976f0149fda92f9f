"""Where things stand in the repository, and what is said while something isn't built yet."""
from pathlib import Path

TOOLS = Path(__file__).resolve().parent.parent
TOP = TOOLS.parent
CRATES = TOP / "crates"
# A release has the tools in share/rookdresser, and the program in bin.
PROGRAM = CRATES / "wt_replay" / "out" / "wt_replay" if CRATES.exists() else TOP.parent.parent / "bin" / "wt_replay"
PAGES = ("*.md", "docs/*.md", "bench/*.md", "tools/**/*.md", "embed/**/*.md", "crates/*/*.md")
MADE = {"out", "target", "build"}


def shown(path):
    """A path as it is told: from the repository's top, if it stands below that."""
    return str(path.relative_to(TOP)) if path.is_relative_to(TOP) else str(path)


def not_built(path=PROGRAM, soon="sh tools/try --build", proved="sh tools/replay --build"):
    """The sentence on a program that isn't built yet: what builds one without any proof, and what proves it first."""
    return "%s isn't built yet; `%s` builds one without any proof, in a minute or two, and `%s` a proved one, in most of an hour" % (shown(path), soon, proved)


def tried_program():
    """The program that tools/try built of these sources, or None. A release has no sources."""
    if not CRATES.exists():
        return None
    import kept_program
    return kept_program.found()


def files(folder, *patterns):
    """The files of a folder, in order, that patterns name. Raises OSError for a pattern that names none: then files have moved, and whoever
    reads them would pass over them."""
    found = set()
    for pattern in patterns:
        new = {path for path in folder.glob(pattern) if path.is_file() and not MADE & set(path.relative_to(folder).parts)}
        if not new:
            raise OSError("there is no file %s: what reads such files would read nothing" % shown(folder / pattern))
        found |= new
    return sorted(found)


def tests_outside():
    """The tests that aren't functions of Rattle, by their names: the scenarios, and the checks of tools/gate."""
    return {**{path.stem: path for path in files(TOP, "scenarios/*.txt")}, **{path.name: path for path in files(TOOLS, "gate/check_*")}}


def markdown_pages():
    return files(TOP, *PAGES)
