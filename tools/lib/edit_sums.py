"""What the verdict on an edit stands on, as a sum: the edit is tried again when that has changed.

The prover takes one function at a time: its signature, contract, body and own proof files, and of the functions that it calls what they promise.
So the sum of an edit is of the kit's logic; of the edit, without the tests that it names; of the functions that it guards or changes; of the
signature and contract of each function that these or the edit name; and of all texts of its crate and of those below that aren't a function's
own. An edit that changes a definition may be refused at any function of its crate, so its sum is of all of them.
"""
import hashlib
import re
from dataclasses import dataclass, field
from functools import cache
from pathlib import Path

from functions import Sources, above, body_at

COMMENTS = re.compile(r"^\s*//.*\n?|^\s*\n", re.M)
IMPORT = re.compile(r"^[ \t]*(?:ghost )?use ([^;]+);\n", re.M)


def imports_of(source):
    """What a source file imports: each name, and what it means."""
    for path in IMPORT.findall(source):
        before, _, listed = " ".join(path.split()).partition("{")
        for item in listed.rstrip("} ").split(",") if listed else [""]:
            if before + item.strip():
                yield re.split(r"::|\.| as ", item.strip() or before)[-1].strip(), before + item.strip()


def with_imports(text, imports):
    """A text without its comments, and what the names in it mean that its file imports. An operator's name has a ◌ for each operand."""
    plain = COMMENTS.sub("", text + "\n")
    words = set(re.findall(r"\w+", plain))
    used = [means for name, means in imports if name in words or "◌" in name and all(part in plain for part in name.split("◌"))]
    return "\n".join([plain, *sorted(used)])


@dataclass
class Parts:
    """Of a function the signature and contract, with its attributes, and the texts that prove it: the body and its own proof files."""

    head: str
    proof: list = field(default_factory=list)


class Texts:
    """A crate's texts: of each function its parts, and what is no function's own. A function of a trait promises even where nobody names it, so
    its head is no function's own."""

    def __init__(self, folder):
        self.folder, self.outside, self.parts = folder, [], {}
        functions = [one for one in Sources.of(folder).functions if one.has_body]
        for path in sorted((folder / "src").rglob("*.rt")):
            self.read_source(path, [one for one in functions if str(path.relative_to(folder)) == one.file])
        for path in (path for part in ("specs", "proofs") for path in sorted((folder / part).rglob("*")) if path.is_file()):
            place, text = "/" + str(path.parent.relative_to(folder)), "%s\n%s" % (path.relative_to(folder), path.read_text())
            owners = [one for one in functions if place.endswith("/" + one.printed().replace("::", "/"))]
            for texts in [self.parts[one].proof for one in owners] or [self.outside]:
                texts.append(text)

    def read_source(self, path, functions):
        source, own = path.read_text(), set()
        imports = list(imports_of(source))
        lines = IMPORT.sub(lambda found: "\n" * found.group().count("\n"), source).split("\n")
        for one in functions:
            body, attributes = body_at(lines, one), above(lines, one.first)[1]
            text = ["\n".join(part) for part in (attributes + lines[one.first:body], lines[body:one.last + 1])]
            head, proof = (with_imports(part, imports) for part in text)
            self.parts[one] = Parts(head, [proof])
            is_named = not one.of_trait and not one.in_trait
            own.update(range(one.first - len(attributes) if is_named else body, one.last + 1))
        kept = "\n".join(line for number, line in enumerate(lines) if number not in own)
        self.outside.append("%s\n%s" % (path.relative_to(self.folder), with_imports(kept, imports)))


@cache
def texts_of(folder):
    return Texts(folder)


def sum_of(logic, crate, edit):
    """The sum of an edit of a crate, as the kit reads crates."""
    own = texts_of(Path(crate.folder))
    every = [*(texts_of(Path(dep.folder)) for dep in crate.below()), own]
    functions = edit.functions()
    asked = [own.parts[one] for one in (own.parts if edit.is_outside or not functions else functions)]
    texts = ["".join(line + "\n" for line in edit.lines if not line.startswith("test: ")), *(text for parts in asked for text in (parts.head, *parts.proof))]
    words = set(re.findall(r"\w+", " ".join(texts)))
    texts += [parts.head for one in every for function, parts in one.parts.items() if function.name in words]
    texts += [text for one in every for text in one.outside]
    told = hashlib.sha256(logic.encode())
    for text in texts:
        told.update(hashlib.sha256(text.encode()).digest())
    return told.hexdigest()[:16]
