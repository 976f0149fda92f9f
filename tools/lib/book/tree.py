"""What the book is made from, and where in the book each thing is: its address, from the book's top."""
import re
from urllib.parse import quote

from contracts import LIBRARY, PROMISE_NOTHING, all_crates
from crates_txt import stands_on
from edits import file_of
from labels import labels_in
from places import CRATES, TOP, tests_outside
from rules import OTHERS, promises_in, tests_by_call
from spec_words import Links

RATTLE = TOP / "docs" / "rattle_words.txt"
# The crate that programs import.
DOOR = "rookdresser"


def anchor(page, name):
    return "%s#%s" % (page, quote(name, safe=":.'"))


def only_tests(crate):
    return crate.endswith("_tests") or crate in PROMISE_NOTHING


def downwards(below):
    """The crates, from the door down to what it stands on, and then the others; those that only test last."""
    def place(name):
        return only_tests(name), name != DOOR and name not in below[DOOR], -len(below[name]), name
    return sorted((name for name in below if (CRATES / name).is_dir()), key=place)


class Tree:
    """The crates, and the addresses of their calls, types, words, edits and tests."""

    def __init__(self):
        self.every, below = all_crates(""), stands_on()
        of_cache = [name for name in self.every if name.startswith(LIBRARY)]
        self.crates = {name: self.every[name] for name in sorted(of_cache, key=lambda name: (len(below.get(name, ())), name))}
        self.downwards = downwards(below)
        shown = {name: self.calls_shown(self.crates[name]) for name in self.downwards if name in self.crates and name not in PROMISE_NOTHING}
        self.shown = {name: calls for name, calls in shown.items() if calls}
        self.links = Links(self.crates)
        self.labels = {label: meaning for _, label, meaning in labels_in()}
        self.rattle = dict(line.split(": ", 1) for line in RATTLE.read_text().split("\n")
                           if line and not line.startswith("#"))
        self.promises, self.tests_outside = promises_in(), tests_outside()
        self.tests, self.rules = tests_by_call(self.promises), self.rules_by_call()
        self.symbols = self.unique_symbols()

    @staticmethod
    def calls_shown(crate):
        """The calls of a crate that the book shows, in the order of its sources: those that it exports, and those that edits guard."""
        shown = crate.exported() | crate.guarded()
        return [call for call in crate.calls if call in shown]

    def rules_by_call(self):
        """Of each call, by its crate, the promises that lead to it."""
        found = {}
        for promise in self.promises:
            for link in promise.links:
                if link.kind == "code" and promise not in found.setdefault((link.crate, link.name), []):
                    found[link.crate, link.name].append(promise)
        return found

    def unique_symbols(self):
        """The addresses of calls and types by the names that only one crate has."""
        found = {}
        for name, crate in self.crates.items():
            for symbol in {*self.shown.get(name, ()), *crate.names()} - {""}:
                address = self.call(name, symbol) or self.type(name, symbol)
                if address:
                    found.setdefault(symbol, set()).add(address)
        return {symbol: addresses.pop() for symbol, addresses in found.items() if len(addresses) == 1}

    def symbol(self, name, crate=None):
        """The address of a call or type as a text of the crate names it: its own, or the only one of that name."""
        return self.call(crate, name) or self.type(crate, name) or self.symbols.get(name)

    # Addresses.

    def call(self, crate, name):
        return anchor("reference/%s.html" % crate, name) if name in self.shown.get(crate, ()) else None

    def type(self, crate, name):
        """The address of a type: on the crate's page if it is exported, else of its line."""
        found = self.crates[crate].types.get(name) if crate in self.crates else None
        if not found:
            return None
        if crate in self.shown and name in self.crates[crate].names():
            return anchor("reference/%s.html" % crate, name)
        return self.source(found.path, found.line)

    def word(self, crate, module, name):
        if crate in self.crates and (module, name) in self.crates[crate].texts:
            return anchor("reference/%s.definitions.html" % crate, "%s.%s" % (module, name))
        return None

    def edit(self, crate, name):
        return anchor("reference/%s.edits.html" % crate, name)

    def label(self, name):
        return anchor("reference/labels.html", name.rpartition(".")[2])

    @staticmethod
    def source(path, line=None):
        address = "tree/%s.html" % path.relative_to(TOP)
        return address if line is None else "%s#L%d" % (address, line + 1)

    def test(self, name):
        """The address of a test, or None."""
        if name in self.tests_outside:
            return self.source(self.tests_outside[name])
        for crate in self.crates.values():
            if name in crate.tests:
                return self.source(crate.calls[name].path, crate.calls[name].line)
        return None

    def linked(self, link):
        """The address to which a link of a promise leads, or None."""
        crate = self.every.get(link.crate)
        if link.kind == "definition":
            return next((self.word(link.crate, *word) for word in crate.defined(link.name)), None) if crate else None
        if link.kind == "edit":
            return self.edit(link.crate, link.name) if link.crate in self.crates else self.source(file_of(CRATES / link.crate))
        if link.kind in ("test", *OTHERS):
            return self.test(link.name)
        inner = crate.calls.get(link.name) if crate else None
        line = self.source(inner.path, inner.line) if inner else next(map(self.source, sorted(crate.files.get(link.name, ())))) if crate else None
        return self.call(link.crate, link.name) or self.type(link.crate, link.name) or line

    def use(self, name):
        """The text of a function of crates/uses, named as in a doc comment: `uses::plain::land`."""
        _, module, function = name.split("::")
        path = CRATES / "uses" / "src" / (module + ".rt")
        found = re.search(r"^(?:///.*\n)*pub fn %s\b.*?^}" % function, path.read_text(), re.M | re.S) if path.exists() else None
        return found.group() if found else ""

    def meant(self, uses, path):
        """The address of what a path in a contract or a definition means, and a sentence on it; or two times None."""
        for crate, module, name in sorted(uses.meant(path)):
            if self.word(crate, module, name):
                return self.word(crate, module, name), self.crates[crate].comments.get((module, name), "")
            parts = module.split(".")
            if parts[0] == "declared":
                of = parts[-2] if parts[-1].startswith("The") else name
                if self.type(crate, of):
                    return self.type(crate, of), "%s of %s" % (name, of) if of != name else ""
            if name in self.rattle:
                return anchor("reference/rattle.html", name), self.rattle[name]
        return self.member(path)

    def member(self, path):
        """The same for a ghost member of a type parameter's trait, as `V.weight`."""
        first, *rest = path.split(".")
        if not rest or not re.fullmatch(r"[A-Z]\w?", first):
            return None, None
        for name, crate in self.crates.items():
            for owner, ghosts in crate.ghosts.items():
                if (owner in rest or rest[0] in ghosts) and owner in crate.types and crate.types[owner].text.startswith("pub trait"):
                    return self.type(name, owner), "a ghost member of the trait %s" % owner
        return (anchor("reference/rattle.html", rest[-1]), self.rattle[rest[-1]]) if rest[-1] in self.rattle else (None, None)
