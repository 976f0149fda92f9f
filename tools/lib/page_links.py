"""The links of Markdown pages: where they lead, and how a page is changed whose files are elsewhere than in the repository."""
import posixpath
import re

# Code, a comment, or a link with its text and target.
PART = re.compile(r"^ *```.*?^ *```$|<!--.*?-->|(`+).*?\1|!?\[((?:`[^`]*`|[^][`])*)\]\(([^()\s]+)\)", re.M | re.S)
HEAD = re.compile(r"^ *```.*?^ *```$|^#+ +([^\n]*)$", re.M | re.S)


def slug(head):
    """The id that pandoc gives a head, as GitHub does."""
    return re.sub(r"[^\w -]", "", head.lower()).replace(" ", "-")


def is_outside(target):
    return re.match(r"[a-z]+:", target) is not None


def targets_of(text):
    """Where the links of a page lead, but for those to other sites."""
    found = (part.group(3) for part in PART.finditer(text))
    return [target for target in found if target and not is_outside(target)]


def ids_of(text):
    """The places of a page that a link may name."""
    return {slug(head.group(1)) for head in HEAD.finditer(text) if head.group(1)}


def with_links(text, led):
    """A page whose links lead where `led` says of their targets. Where it says None, only the text stays."""
    def changed(part):
        target = part.group(3)
        if not target or is_outside(target):
            return part.group()
        new = led(target)
        return part.group(2) if new is None else part.group()[:-len(target) - 1] + new + ")"

    return PART.sub(changed, text)


def moved(text, old, new, places):
    """A page that was `old` in the repository and is `new` in an archive. `places` has the archive's name of each file of the repository that
    it has: a link to such a file leads there, and any other becomes text."""
    def led(target):
        name, mark, place = target.partition("#")
        if not name:
            return target
        there = places.get(posixpath.normpath(posixpath.join(posixpath.dirname(old), name)))
        return there and posixpath.relpath(there, posixpath.dirname(new) or ".") + mark + place

    return with_links(text, led)


def broken_below(folder):
    """Of all pages of a folder how many links they have, and a sentence on each that leads to no file or to no head of a page."""
    faults, count = [], 0
    for page in sorted(folder.rglob("*.md")):
        for target in targets_of(page.read_text()):
            name, _, place = target.partition("#")
            path, count = page.parent / name if name else page, count + 1
            if not path.exists() or place and place not in ids_of(path.read_text()):
                faults.append("%s: the link to %s leads nowhere" % (page.relative_to(folder), target))
    return count, faults
