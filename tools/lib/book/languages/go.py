"""The calls of embed/go: what is exported, by its doc comments, with the examples of the package's tests."""
import re

from places import files

from . import EMBED, Call, Group, dedented, fenced, line_at

FOLDER = EMBED / "go"
COMMENT = r"((?:^//[^\n]*\n)*)"
TYPE = re.compile(COMMENT + r"^type ([A-Z]\w*)[^\n]*", re.M)
FUNCTION = re.compile(COMMENT + r"^func (?:\(\w+ \*?(\w+)(?:\[[^\]]*\])?\) )?([A-Z]\w*)", re.M)
VALUES = re.compile(COMMENT + r"^(?:var|const) (?:\(\n.*?^\)|[A-Z][^\n]*)", re.M | re.S)
EXAMPLE = re.compile(COMMENT + r"^func Example(?:([A-Z][A-Za-z0-9]*)(?:_([A-Z][A-Za-z0-9]*))?(?:_([a-z]\w*))?)?\(\) \{\n(.*?)^\}", re.M | re.S)


def calls():
    types, functions, values = [], [], []
    examples = examples_by_name()
    for path in files(FOLDER, "*.go"):
        if path.name.endswith("_test.go"):
            continue
        text = path.read_text()
        # The package's part in C ends with `import "C"`.
        types += [call(path, text, found, found.group(2), whole(text, found.start() + len(found.group(1))), examples) for found in TYPE.finditer(text)]
        functions += [call(path, text, found, ".".join(filter(None, found.groups()[1:])), signature(text, found.end(1)), examples)
                      for found in FUNCTION.finditer(text) if not found.group(2) or found.group(2)[0].isupper()]
        values += [call(path, text, found, name_of(found.group()), found.group()[len(found.group(1)):], examples)
                   for found in VALUES.finditer(text) if name_of(found.group())[:1].isupper()]
    groups = [Group(of.name, of, [one for one in functions if one.name.startswith(of.name + ".")]) for of in types]
    own = [one for one in functions if "." not in one.name]
    for group in groups:
        # A function that makes a type is told first.
        makes = [one for one in own if re.search(r"\*%s\b" % group.name, one.declared)]
        group.calls[:0] = makes
        own = [one for one in own if one not in makes]
    return [*sorted(groups, key=lambda group: -len(group.calls)), Group("Errors and other values", None, own + values)]


def name_of(text):
    """The first name that is declared."""
    found = re.search(r"^(?:(?:var|const) \(\n(?:\s*//[^\n]*\n)*\s+|(?:var|const) )(\w+)", text, re.M)
    return found.group(1) if found else ""


def call(path, text, found, name, declared, examples):
    docs = "\n".join(dedented(found.group(1).rstrip("\n").split("\n"), "//"))
    return Call(name, declared, docs, path, line_at(text, found.end(1)), examples.get(name, []))


def signature(text, start):
    """A function's declaration without its body."""
    head = text[start:text.index("\n", start)]
    if head.endswith("("):
        head = text[start:text.index("\n)", start) + 2] + text[text.index("\n)", start) + 2:].split("\n")[0]
    return re.sub(r"\s*\{[^{}]*\}?$", "", head)


def whole(text, start):
    """A type's declaration without its private fields."""
    head = text[start:text.index("\n", start)]
    if not head.endswith("{"):
        return head
    lines = text[start:text.index("\n}", start) + 2].split("\n")
    inner = [line for line in lines[1:-1] if re.match(r"\t(?:[A-Z]|//|~|$)", line)]
    return "\n".join([lines[0], *inner, *["\t// private fields"] * (not any(re.match(r"\t[A-Z~]", line) for line in inner)), lines[-1]])


def examples_by_name():
    """The examples of each call, which `go test` runs, each with its title."""
    found = {}
    for path in files(FOLDER, "*_test.go"):
        for example in EXAMPLE.finditer(path.read_text()):
            _, owner, name, title, body = example.groups()
            found.setdefault(".".join(filter(None, (owner, name))), []).append((title, fenced(re.sub("^\t", "", body, flags=re.M), "go")))
    return found
