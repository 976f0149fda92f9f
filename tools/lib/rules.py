"""The promises of docs/PROMISES.md with their links, and the tables of pages, as the checks and the book read them.

The links of a promise are in docs/promises.txt, below the first words of its sentence, with which no other one begins:

    A name has at most 24
      definition: wt_keys: IsName                                     words of the crate's specs/, with their module if several have the name
      code: wt_keys: Name::from_bytes {ensures}, Name {invariant}     functions or types, with the clauses or ghost members that say the promise
      edit: wt_keys: refuses_24_bytes                                 wrong bodies that the prover refuses; or, if there is none,
      test: wt_keys_tests: a_name_is_kept                             tests of a crate,
      scenario: a_due_hit                                             a scenario,
      check: check_program                                            or a check of tools/gate
"""
import re
from dataclasses import dataclass, field

from places import TOP

PAGE = TOP / "docs" / "PROMISES.md"
LINKS = TOP / "docs" / "promises.txt"
OF_CRATES, OTHERS = ("definition", "code", "edit", "test"), ("scenario", "check")
ITEM = re.compile(r"([^\s,{}]+)(?: \{([^}]*)\})?")


@dataclass
class Link:
    """A name that a promise leads to, with the labels of those of its clauses that say it."""

    kind: str
    crate: str
    name: str
    labels: list = field(default_factory=list)


@dataclass
class Promise:
    """A promise: its section, its line in the page, its sentences, and the first words of those that have links, which should be one."""

    section: str
    line: int
    text: str
    keys: list
    links: list


def rows_of(page, columns):
    """The rows of a page's tables that have so many columns: section, line number, cells."""
    section = None
    for number, line in enumerate(page.read_text().split("\n"), 1):
        if line.startswith("## "):
            section = line[3:].strip()
        if not line.startswith("|"):
            continue
        cells = [c.strip() for c in re.split(r"(?<!\\)\|", line)[1:-1]]
        if len(cells) == columns and not set(cells[0]) <= set("-: ") and cells[0] != "Promise":
            yield section, number, cells


def quoted(cell):
    """What stands in backquotes."""
    return re.findall(r"`([^`]+)`", cell)


def links_in(page=LINKS):
    """The links by the first words of the promises. Raises ValueError for a line that is none."""
    found, current = {}, None
    for line in page.read_text().split("\n"):
        kind, _, rest = line.strip().partition(": ")
        if line.startswith("  ") and current and kind in OF_CRATES + OTHERS:
            crate, _, items = rest.partition(": ") if kind in OF_CRATES else ("", "", rest)
            found[current] += [Link(kind, crate, name, labels.split(", ") if labels else []) for name, labels in ITEM.findall(items)]
        elif line.startswith("  ") or line in found:
            raise ValueError("docs/promises.txt: what isn't a link, or is there twice: %s" % line.strip())
        elif line and not line.startswith("#"):
            current, found[line] = line, []
    return found


def promises_in(page=PAGE, links=LINKS):
    """The promises of the page, in its order."""
    section, known, found = None, links_in(links), []
    for number, line in enumerate(page.read_text().split("\n"), 1):
        if line.startswith("## "):
            section = line[3:].strip()
        if line.startswith("- "):
            found.append(Promise(section, number, line[2:], [], []))
        elif line.startswith("  ") and found:
            found[-1].text += " " + line.strip()
    for promise in found:
        promise.keys = [words for words in known if promise.text.startswith(words)]
        promise.links = known[promise.keys[0]] if promise.keys else []
    return found


def tests_by_call(promises):
    """The tests of the promises, by the crates and calls that these lead to."""
    shown = {}
    for promise in promises:
        tests = [link.name for link in promise.links if link.kind in ("test", *OTHERS)]
        for link in promise.links:
            if link.kind == "code":
                shown.setdefault((link.crate, link.name), []).extend(tests)
    return shown
