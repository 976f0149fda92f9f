"""The calls of the wrappers, read from their sources: each with its declaration, its comment as Markdown, and an example."""
import re
from dataclasses import dataclass, field
from pathlib import Path

from places import TOP

EMBED = TOP / "embed"


@dataclass
class Call:
    """A call, or a type without calls of its own: where it is declared, and what is said of it."""

    name: str
    declared: str
    doc: str
    path: Path
    line: int
    # Programs that tests run, each with its title.
    examples: list = field(default_factory=list)


@dataclass
class Group:
    """A type with its calls, or calls that belong to none."""

    name: str
    head: Call
    calls: list


def line_at(text, at):
    """The number of the line, from 0, of a place in a text."""
    return text.count("\n", 0, at)


def dedented(lines, sign):
    """The lines of a comment without the sign that begins each."""
    return [re.sub(r"^\s*%s ?" % re.escape(sign), "", line) for line in lines]


def fenced(code, language=""):
    return "```%s\n%s\n```" % (language, code.rstrip())


def by_name(calls):
    """Calls named `Type::call` in groups by their types, those with the most calls first. A module's name begins with a small letter."""
    groups = {call.name: Group(call.name, call, []) for call in calls if re.fullmatch(r"(?:[a-z_]+::)*\w+", call.name)}
    for call in calls:
        owner, _, name = call.name.rpartition("::")
        if name and owner in groups:
            groups[owner].calls.append(call)
    return sorted(groups.values(), key=lambda group: -len(group.calls))
