"""The calls of the headers for C, by their comments, with the first line of a tested program that makes each."""
import re

from places import TOP

from . import EMBED, Call, Group, line_at

FOLDER = EMBED / "c"
HEADERS = (TOP / "include" / "rookdresser.h", TOP / "include" / "rookdresser_shared.h",
           *(FOLDER / ("rookdresser_%s.h" % name) for name in ("loading", "waiting", "adaptive", "seeded", "stats", "text")))
# Programs that the tests run, those for readers first.
PROGRAMS = ("first_calls.c", "pages.c", "left_pages.c", "seeded_keys.c", "counted_calls.c", "followed.c", "name_calls.c", "adaptive_calls.c", "many_looks.c", "loading_calls.c", "random_calls.c", "refused_memory.c", "shared_squares.c", "shared_calls.c", "shared_loads.c", "waiting_calls.c", "texts.c")
FUNCTION = re.compile(r"(?:^/\*((?:[^*]|\*(?!/))*)\*/\n)?^((?:static inline )?[a-z]\w*(?: \w+)* \*?)(rd_\w+)(\([^;{]*\))\s*[;{]", re.M)
TYPE = re.compile(r"(?:^/\*((?:[^*]|\*(?!/))*)\*/\n)?^((?:typedef )?(?:struct|enum) (rd_\w+) \{.*?^\}[^;]*;)", re.M | re.S)
# What only the header's own functions call.
INNER = re.compile(r"lock is held|lock back|inside rd_", re.I)


def calls():
    for path in HEADERS:
        text = path.read_text()
        types = [Call(found.group(3), found.group(2), prose(found.group(1)), path, line_at(text, found.start(2))) for found in TYPE.finditer(text)]
        functions = list(functions_of(path, text))
        head = Call(path.name, '#include "%s"' % path.name, about(text), path, 0)
        yield Group(path.name, head, functions + types)


def functions_of(path, text):
    """The functions with a comment. One stands for the declarations right below it, too."""
    comment, end = None, 0
    for found in FUNCTION.finditer(text):
        follows = comment is not None and text[end:found.start()] == "\n" and text[end - 1] == ";"
        comment, end = found.group(1) or (comment if follows else None), found.end()
        if comment and not INNER.search(comment):
            yield Call(found.group(3), declaration(*found.groups()[1:]), prose(comment), path, line_at(text, found.start(2)), uses_of(found.group(3)))


def declaration(result, name, arguments):
    """A declaration, with an argument a line if it is long."""
    text = result.replace("static inline ", "") + name + re.sub(r"\s+", " ", arguments)
    return text if len(text) < 90 else text.replace("(", "(\n    ", 1).replace(", ", ",\n    ")[:-1] + "\n)"


def prose(comment):
    return "\n".join(re.sub(r"^ \* ?", "", line).strip() for line in (comment or "").strip().split("\n"))


def about(text):
    """The comment at a header's head as Markdown: what is set off by four spaces is code, what follows ` - ` a list."""
    found = re.match(r"/\*(.*?)\*/", text, re.S)
    lines = [re.sub(r"^ \* ?", "", line) for line in found.group(1).strip().split("\n")]
    return "\n".join(re.sub(r"^ - ", "- ", line) for line in lines)


def uses_of(name):
    """The first program's line that makes the call."""
    for program in PROGRAMS:
        path = FOLDER / program
        lines = path.read_text().split("\n") if path.exists() else []
        for number, line in enumerate(lines):
            if re.search(r"\b%s\(" % name, line) and not re.match(r"\s*(?:/?\*|//)|static|#", line):
                return [((path, number), "```c\n%s\n```" % line.strip())]
    return []
