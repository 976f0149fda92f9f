"""Blocks of a Markdown page, with the comments above them that a reader doesn't see.

    <!-- not run: REASON -->     the block of commands below isn't run
    <!-- first: COMMAND -->      is run before the commands of the block below, in the same shell
    <!-- typed into: COMMAND -->  the block below, which is no block of commands, is what the command reads
    <!-- figures aside -->       in the output that the block below shows, each number may be another
    <!-- file: PATH -->          the block below is written into the file
    <!-- file: PATH, behind: TEXT -->   the block below goes into the file, behind the item that begins with this text
    <!-- file: PATH, before: TEXT -->  the block below and an empty line go into the file, before the line that begins with this text
    <!-- file: PATH, in place of: LINE -->   the block below takes the place of this line of the file
"""
import re
from dataclasses import dataclass, field

FENCE = re.compile(r"^```(\w*)$")
COMMENT = re.compile(r"^<!-- (.*) -->$")


@dataclass
class Block:
    """A fenced block: its line in the page, its language, its text, and the comments above it."""

    line: int
    language: str
    text: str
    comments: list = field(default_factory=list)
    # Whether nothing but comments and empty lines is between it and the block before.
    follows: bool = False

    def notes(self, name):
        """What the comments say behind this name."""
        return [comment[len(name):].lstrip(": ") for comment in self.comments if comment == name or comment.startswith(name + ": ")]


def blocks_of(text):
    blocks, comments, follows, lines = [], [], False, text.split("\n")
    at = 0
    while at < len(lines):
        fence, comment = FENCE.match(lines[at]), COMMENT.match(lines[at])
        if fence:
            end = lines.index("```", at + 1)
            blocks.append(Block(at + 1, fence.group(1), "".join(line + "\n" for line in lines[at + 1:end]), comments, follows))
            at, comments, follows = end, [], True
        elif comment:
            comments.append(comment.group(1))
        elif lines[at].strip():
            comments, follows = [], False
        at += 1
    return blocks


def commands_of(block):
    """The commands of a session, in which they stand behind `$ `, each with the lines that it is shown to print."""
    found = []
    for line in block.text.splitlines():
        if line.startswith("$ "):
            found.append((line[2:], []))
        else:
            found[-1][1].append(line)
    return found


def without_figures(line):
    return re.sub(r"\d[\d,.]*", "#", line)


def is_shown(wanted, printed, figures_aside):
    """Whether a line that a page shows is the printed one. ` ..` at its end stands for the rest of the line."""
    if figures_aside:
        wanted, printed = without_figures(wanted), without_figures(printed)
    return printed.startswith(wanted[:-3]) if wanted.endswith(" ..") else printed.rstrip() == wanted.rstrip()


def missing_line(wanted, printed, figures_aside):
    """The first line that a page shows and that wasn't printed behind those before it; none if all were."""
    left = iter(printed)
    for line in wanted:
        if not any(is_shown(line, told, figures_aside) for told in left):
            return line
    return None
