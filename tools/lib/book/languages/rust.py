"""The calls of embed/rust: its exported types and what is public of them, by their doc comments."""
import re

from places import files

from ..texts import declaration as without_private_fields
from . import EMBED, Call, by_name, dedented, fenced, line_at

SOURCES = EMBED / "rust" / "src"
ITEM = re.compile(r"((?:^ *(?:///[^\n]*|#\[[^\n]*)\n)*)^( *)pub (?:const )?(?:async )?(?:unsafe )?(struct|enum|trait|type|fn) (\w+)", re.M)
IMPL = re.compile(r"^impl\b[^{]*?(?<= )(?:(\w+::)*)(\w+)(?:<[^{]*>)?(?:\s*where[^{]*)?\s*\{$", re.M)


def exported():
    """The names that the crate exports, its modules' too."""
    names = re.findall(r"^pub use \w+::(?:(\w+)|\{([^}]*)\});", (SOURCES / "lib.rs").read_text(), re.M)
    return {name.strip() for one, several in names for name in (one or several).split(",")} | modules()


def modules():
    return set(re.findall(r"^pub mod (\w+);", (SOURCES / "lib.rs").read_text(), re.M))


def calls():
    known = exported()
    found = [call for path in files(SOURCES, "*.rs") for call in calls_in(path) if call.name.split("::")[0] in known]
    return by_name(found)


def calls_in(path):
    """The public items of a file, those of an `impl` by the type's name, and those of a public module by that too."""
    text = path.read_text()
    module = "%s::" % path.stem if path.stem in modules() else ""
    owners = [(found.start(), text.index("\n}", found.start()), found.group(2)) for found in IMPL.finditer(text) if " for " not in found.group()]
    for found in ITEM.finditer(text):
        comment, indent, kind, name = found.groups()
        owner = next((of for begin, end, of in owners if begin < found.start() < end), None) if indent else None
        if len(indent) > 4 or indent and not owner or "#[doc(hidden)]" in comment:
            continue
        start = found.end(1)
        docs = [line for line in comment.split("\n") if line.strip().startswith("///")]
        yield Call(module + ("%s::%s" % (owner, name) if owner else name), declaration(text, start, kind), markdown("\n".join(dedented(docs, "///"))),
                   path, line_at(text, start))


def declaration(text, start, kind):
    """The text of an item: a type whole, without its private fields; a function up to its body."""
    if kind == "fn" or kind == "type":
        cut = re.compile(r"\s*[{;]").search(text, start)
        lines = text[start:cut.start()].split("\n")
        shift = len(lines[0]) - len(lines[0].lstrip())
        return "\n".join(line[shift:] for line in lines).rstrip(",")
    end = re.compile(r"^\}|\)?;$", re.M).search(text, start)
    return without_private_fields(text[start:end.end()])


def markdown(doc):
    """A doc comment as Markdown: without the lines of an example that rustdoc hides, and with names in place of links to them."""
    parts = doc.split("```")
    for at in range(1, len(parts), 2):
        language, _, code = parts[at].partition("\n")
        shown = [line for line in code.split("\n") if line.strip() != "#" and not line.startswith("# ")]
        parts[at] = fenced("\n".join(shown), "text" if language.startswith("text") else "rust")[3:-3]
    for at in range(0, len(parts), 2):
        text = re.sub(r"\[([^\]]+)\]\((?:crate|self|super)?(?:::)?[\w:]*\)|\[(`[^`\]]+`)\](?!\()", lambda found: found.group(1) or found.group(2), parts[at])
        # The crate's front page is its README.
        parts[at] = text.replace("](crate#", "](README.md#")
    return "```".join(parts)
