"""The words of a crate's specs/: each with the comment above it and its text, and the words that a file can name."""
import re

WORD = re.compile(r"^(\s*)(?:abbrev\s+|unfoldable\s+|opaque\s+)?pub\s+(record\s+|data\s+)?([^\s:({]+)")
FIELD = re.compile(r"^\s+pub\s+(\w+)\s+:\s")
PLAIN = re.compile(r"^(\s*)(?:abbrev\s+|unfoldable\s+|opaque\s+)?([^\s:({.]+)(?:\s*,\s*[^\s:({.]+)*\s+:\s")
USE = re.compile(r"^\s*(?:ghost\s+)?use\s+Rattle\.(\w+)\.specs\.([\w.]+?)(?:\.\{([^}]*)\}|\s+as\s+([\w']+));?\s*$")
ANY_USE = re.compile(r"^\s*(pub\s+)?use\s")
PATH = re.compile(r"[\w'?-]+(?:\.[\w'?-]+)*")


def first_sentence(lines):
    """The first sentence of a comment, without its period."""
    text = " ".join(line.strip() for line in lines)
    m = re.match(r"(.*?)\.(?:\s|$)", text)
    return m.group(1) if m else text


class Uses:
    """The words that a file can name: those that it takes from the specs/ of a crate, by the names that it gives them, and its own."""

    def __init__(self):
        self.words, self.modules = {}, {}

    def read(self, line):
        """Adds what a line takes, if it is one that does."""
        m = USE.match(line)
        if m and m.group(4):
            self.modules.setdefault(m.group(4), set()).add((m.group(1), m.group(2)))
        for item in m.group(3).split(",") if m and m.group(3) else []:
            old, _, new = item.strip().partition(" as ")
            self.words.setdefault(new or old, set()).add((m.group(1), m.group(2), old))

    def meant(self, path):
        """The words that a path as `step` or `spec.step` can mean, each by its crate, module and name."""
        first, *rest = path.split(".")
        found = set(self.words.get(first, ()))
        if rest:
            found |= {(*module, rest[0]) for module in self.modules.get(first, set())}
        return found

    def named(self, text):
        """The words that a text of the file names."""
        return set().union(*(self.meant(path) for path in PATH.findall(text)))


class Words:
    """The words of one file of specs/, by name: the comments, the texts with the head of the `module` around them, the fields of
    records, and which are public."""

    def __init__(self, crate, module, text):
        self.crate, self.module, self.uses = crate, module, Uses()
        self.comments, self.texts, self.fields, self.public = {}, {}, {}, set()
        self.current = self.field = self.record = self.begun = None
        self.around, self.above = "", []
        lines = text.split("\n")
        self.head = lines[0][3:] if lines[0].startswith("-- ") else ""
        for line in lines:
            self.read(line)

    def read(self, line):
        if ANY_USE.match(line):
            self.uses.read(line)
        elif line.lstrip().startswith("--"):
            self.above = [] if line.lstrip().startswith("-- --") else [*self.above, line.strip()[2:].strip()]
        elif line.startswith("module "):
            self.around = "".join("-- %s\n" % said for said in self.above) + line + "\n"
            self.current, self.record, self.above = None, None, []
        elif not line.startswith("pub mod"):
            self.read_text(line)
            self.above = []

    def read_text(self, line):
        indent = len(line) - len(line.lstrip())
        if line.strip() and not indent:
            self.around = ""
        if self.record is not None and line.strip() and indent <= self.record:
            self.record = None
        if self.record is None:
            self.begin(line, indent)
        elif FIELD.match(line):
            self.field = FIELD.match(line).group(1)
        if self.record is not None and self.field is not None:
            fields = self.fields.setdefault(self.current, {})
            fields[self.field] = fields.get(self.field, "") + line + "\n"
        # A record's head may go on in the next lines.
        if self.begun is not None and line.rstrip().endswith("where"):
            self.record, self.begun, self.field = self.begun, None, None
        if self.current is not None:
            self.texts[self.current] = self.texts.get(self.current, self.around) + line + "\n"

    def begin(self, line, indent):
        """Begins a word, if the line declares one."""
        m, plain = WORD.match(line), PLAIN.match(line)
        if m:
            self.public.add(m.group(3))
            self.begun = indent if m.group(2) else None
        elif not plain or "=" in line.split(" : ")[0]:
            return
        self.current = m.group(3) if m else plain.group(2)
        self.uses.words.setdefault(self.current, set()).add((self.crate, self.module, self.current))
        self.comments.setdefault(self.current, first_sentence(self.above))


class Links:
    """Which words each word of these crates names; a word is known by its crate, its module and its name."""

    def __init__(self, crates):
        self.of = {}
        for crate in crates.values():
            for (module, name), text in crate.texts.items():
                self.of[crate.name, module, name] = crate.uses[module].named(text) - {(crate.name, module, name)}

    def named(self, crate, call, label):
        """The words that a clause of a call names, or a ghost member of a type."""
        text = crate.clauses.get(call, {}).get(label) or crate.ghosts.get(call, {}).get(label, "")
        uses = crate.field_uses.get((call, label)) or [crate.uses[path] for path in crate.files.get(call, ())]
        return set().union(*(use.named(text) for use in uses)) & set(self.of)

    def reached(self, words):
        """The words that these come to, themselves and by way of others."""
        reached, new = set(), set(words)
        while new:
            reached |= new
            new = set().union(*(self.of.get(word, set()) for word in new)) - reached
        return reached
