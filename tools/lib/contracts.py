"""What the checks and the book read of a crate: its functions with their doc comments, signatures and clauses, its types and their ghost
members, the words of its specs/, and its edits, wrong bodies that the prover refuses."""
import re
import textwrap
from dataclasses import dataclass, field
from pathlib import Path

from edits import edits_in
from functions import CLAUSE, FUNCTION, above, braced, functions_of, head_of, owners_of
from places import CRATES
from spec_words import PATH, Uses, Words, first_sentence

GHOST = re.compile(r"^\s*ghost\s+(\w+)\s*[:=]\s*\{")
TYPE = re.compile(r"^(\s*)pub\s+(?:struct|enum|trait|type|const|static)\s+(\w+)\b(?!\s*\()")
EXPORT = re.compile(r"pub use ([\w:]+)(?:::\{([^}]*)\})?;")
# What crates of tests share, and what plays scenarios: they have no clauses, on purpose.
PROMISE_NOTHING = {"wt_tests", "wt_scenarios"}
# How the names of the library's crates begin.
LIBRARY = ("rookdresser", "wt_")


@dataclass
class Call:
    """A function: where it is, its doc comment, its signature and its contract."""

    name: str
    path: Path
    line: int
    doc: list
    signature: str
    contract: str


@dataclass
class Type:
    """A public type, trait or constant: where it is, its doc comment and its text."""

    name: str
    path: Path
    line: int
    doc: list
    text: str


@dataclass
class Crate:
    """A crate: of each call its clauses, doc comment and files, its public calls and tests, its types, ghost members, words and edits."""

    folder: Path
    calls: dict = field(default_factory=dict)
    types: dict = field(default_factory=dict)
    clauses: dict = field(default_factory=dict)
    ensures: dict = field(default_factory=dict)
    said: dict = field(default_factory=dict)
    traits: dict = field(default_factory=dict)
    files: dict = field(default_factory=dict)
    public: set = field(default_factory=set)
    for_c: set = field(default_factory=set)
    tests: dict = field(default_factory=dict)
    ghosts: dict = field(default_factory=dict)
    uses: dict = field(default_factory=dict)
    field_uses: dict = field(default_factory=dict)
    words: dict = field(default_factory=dict)
    comments: dict = field(default_factory=dict)
    texts: dict = field(default_factory=dict)
    fields: dict = field(default_factory=dict)
    heads: dict = field(default_factory=dict)

    def __post_init__(self):
        self.name = self.folder.name
        for path in sorted((self.folder / "src").rglob("*.rt")):
            self.read_source(path)
        for path in sorted((self.folder / "specs").rglob("*.antt")):
            self.read_words(path)
        self.edits = edits_in(self.folder)

    def read_source(self, path):
        """Adds what one source file has."""
        uses, lines = Uses(), path.read_text().split("\n")
        self.uses[path] = uses
        for line in lines:
            uses.read(line)
        for function in functions_of(path, self.folder):
            self.add_function(function, path, lines)
        for at, owner in enumerate(owners_of(lines)):
            self.add_ghost(path, lines, at, owner)
            self.add_type(path, lines, at, owner)

    def add_function(self, function, path, lines):
        name = "::".join(filter(None, (function.of_type, function.name)))
        (doc, attributes), line = above(lines, function.first), lines[function.first].strip()
        if "#[test]" in attributes:
            self.tests.setdefault(function.name, set()).add(path)
        elif function.in_trait or line.startswith("pub "):
            self.public.add(name)
        if 'extern "C"' in line.split("fn ")[0]:
            self.for_c.add(name)
        if function.of_trait:
            self.traits[name] = function.of_trait
        if doc:
            self.said.setdefault(name, first_sentence(doc[: doc.index("")] if "" in doc else doc))
        self.files.setdefault(name, set()).add(path)
        call = Call(name, path, function.first, doc, *head_of(lines, function.first))
        self.calls.setdefault(name, call)
        self.add_clauses(name, call.contract.split("\n"))

    def add_clauses(self, name, lines):
        clauses = self.clauses.setdefault(name, {})
        for number, line in enumerate(lines):
            m = CLAUSE.match(line)
            if m:
                label = m.group(2) or m.group(1)
                clauses[label] = clauses.get(label, "") + braced(lines, number)
                if m.group(1) == "ensures" and label not in self.ensures.setdefault(name, []):
                    self.ensures[name].append(label)

    def add_ghost(self, path, lines, at, owner):
        m = GHOST.match(lines[at])
        if m and owner:
            self.ghosts.setdefault(owner[1], {})[m.group(1)] = braced(lines, at)
            self.files.setdefault(owner[1], set()).add(path)

    def add_type(self, path, lines, at, owner):
        m = TYPE.match(lines[at])
        if not m or FUNCTION.match(lines[at]):
            return
        name = "::".join(filter(None, (owner[1] if m.group(1) and owner else "", m.group(2))))
        end = at if lines[at].rstrip().endswith(";") else next(
            (n for n in range(at, len(lines)) if re.match(m.group(1) + r"[})]+;?$", lines[n])), at)
        self.types.setdefault(name, Type(name, path, at, above(lines, at)[0], textwrap.dedent("\n".join(lines[at:end + 1]))))

    def read_words(self, path):
        """Adds the words of one file of specs/."""
        module = ".".join(path.relative_to(self.folder / "specs").with_suffix("").parts)
        found = Words(self.name, module, path.read_text())
        self.uses[path] = self.uses[module] = found.uses
        self.heads[module] = found.head
        for name in found.public:
            self.words.setdefault(name, set()).add(path)
        for mine, theirs in ((self.comments, found.comments), (self.texts, found.texts), (self.fields, found.fields)):
            mine.update({(module, name): value for name, value in theirs.items()})

    def defined(self, name):
        """The public words of specs/ of this name, which may have their module before it: the module and the name of each."""
        module, _, word = name.rpartition(".")
        found = [(".".join(path.relative_to(self.folder / "specs").with_suffix("").parts), word) for path in sorted(self.words.get(word, ()))]
        return [one for one in found if module in ("", one[0])]

    def root(self):
        return self.folder / "src" / "lib.rt"

    def names(self):
        """What the crate's root shows, in its order, each with the path that it comes from."""
        found = {}
        for m in EXPORT.finditer(self.root().read_text() if self.root().exists() else ""):
            path, listed = m.group(1), m.group(2)
            if not listed:
                path, _, listed = path.rpartition("::")
            found.update({name.strip(): path for name in listed.split(",") if name.strip()})
        return found

    def exported(self):
        """Of the public calls those whose type or name the crate's root shows, and those that C calls; of a program all."""
        if not self.root().exists():
            return self.public
        names = self.names()
        return {call for call in self.public if call.split("::")[0] in names} | self.for_c

    def guarded(self):
        """The calls that edits guard."""
        return {call for edit in self.edits for call, _ in edit.guards}


def crates_in(folders):
    """The crates in these folders, by name.

    A clause that is a record, as `made`, is there by its fields too: `made.state` is the field `state` of the record.
    """
    crates = {folder.name: Crate(folder) for folder in folders}
    for crate in crates.values():
        for call, clauses in crate.clauses.items():
            for label, text in list(clauses.items()):
                add_fields(crate, call, label, PATH.search(text), crates)
    return crates


def add_fields(crate, call, label, record, crates):
    for path in crate.files[call]:
        for at, module, name in crate.uses[path].words.get(record.group() if record else "", set()):
            for of, text in crates[at].fields.get((module, name), {}).items() if at in crates else []:
                crate.clauses[call]["%s.%s" % (label, of)] = text
                crate.field_uses[call, "%s.%s" % (label, of)] = [crates[at].uses[module]]


def all_crates(begin=LIBRARY):
    """The repository's crates whose names begin so, by default the library's."""
    return crates_in(c for c in sorted(CRATES.iterdir()) if (c / "src").is_dir() and c.name.startswith(begin))


def said_of(call, crate, crates):
    """The first sentence of a call's doc comment, or of that of its trait."""
    trait = crate.traits.get(call)
    if call in crate.said:
        return crate.said[call]
    for other in crates.values():
        method = "%s::%s" % (trait, call.split("::")[-1])
        if method in other.said:
            return other.said[method]
    return "As `%s` says" % trait if trait else ""
