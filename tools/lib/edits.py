"""Edits, each a wrong body that the prover has to refuse. A crate's are in its edits.txt, sorted by call:

    a_put_forgets_every_load          the name
      call: Core::put                 what it guards: a call of the crate,
      clause: state, notices          and the labels of its clauses; `ensures` for a lone one without a label
      test: a_put_stores              tests of the same rule
      file: src/steps/put.rt          what it changes
      old: a text that stands exactly once in the file
      new: what stands in its place

There may be several pairs of `call` and `clause`, and several changes. `clause: of its trait` is of a call whose promise is that of a
trait. Lines that begin with # are comments.
"""
from pathlib import Path

from functions import Sources


def file_of(crate):
    """Where a crate's edits are."""
    return crate / "edits.txt"


def blocks_of(crate):
    """Of each edit of a crate its name, and its lines without the two spaces before them."""
    path, found = file_of(crate), []
    for line in path.read_text().split("\n") if path.exists() else ():
        if line.startswith("  ") and found:
            found[-1][1].append(line[2:])
        elif line.strip() and not line.startswith("#"):
            found.append((line, []))
    return found


def edits_in(crate):
    """A crate's edits, in the order of its file."""
    return [Edit(crate, name, lines) for name, lines in blocks_of(crate)]


def sorted_text(crate):
    """The text of a crate's file with its edits sorted by call and name."""
    comments = [line for line in file_of(crate).read_text().split("\n") if line.startswith("#")]
    edits = sorted(edits_in(crate), key=lambda edit: (edit.guards[0][0] if edit.guards else "", edit.name))
    return "\n\n".join(["\n".join(comments), *("\n  ".join([edit.name, *edit.lines]) for edit in edits)]) + "\n"


class Edit:
    """What an edit guards, and what it changes: of each change the file, the old and the new text."""

    def __init__(self, crate, name, lines):
        self.crate, self.name, self.lines = crate, name, lines
        self.guards, self.tests, self.changes, self.unread = [], [], [], []
        file = old = ""
        for line in lines:
            kind, _, rest = line.partition(":")
            items, text = [item.strip() for item in rest.split(",")], rest.removeprefix(" ")
            if kind == "call":
                self.guards.append((rest.strip(), []))
            elif kind == "clause" and self.guards:
                self.guards[-1][1].extend([] if items == ["of its trait"] else items)
            elif kind == "test":
                self.tests += items
            elif kind == "file":
                file = rest.strip()
            elif kind == "old":
                old = text
            elif kind == "new":
                self.changes.append((file, old, text))
            else:
                self.unread.append(line)
        self.files = sorted({file for file, _, _ in self.changes})

    def applied(self, folder, changed=None):
        """The texts of the files that it changes, by path, and the old texts that don't stand exactly once in their file. Texts that other
        edits have changed stand in place of the folder's."""
        texts, wrong = {}, []
        for file, old, new in self.changes:
            path = folder / file
            texts.setdefault(file, (changed or {}).get(file) or (path.read_text() if path.is_file() else ""))
            if texts[file].count(old) == 1:
                texts[file] = texts[file].replace(old, new)
            else:
                wrong.append(old.strip())
        return texts, wrong


class PlacedEdit(Edit):
    """An edit with the functions of its crate that it guards, and those whose lines it changes."""

    def __init__(self, crate, name, lines, sources):
        super().__init__(crate, name, lines)
        self.labels = {label.split(".")[0] for _, labels in self.guards for label in labels or ["of its trait"]}
        self.changed, self.is_outside = [], False
        for file, old, _ in self.changes:
            holder = self.holder(file, old, sources)
            self.is_outside |= holder is None
            if holder and holder not in self.changed:
                self.changed.append(holder)
        self.asked = self.calls(sources)

    def holder(self, file, old, sources):
        """The function that has the changed line; none if that is a definition, a constant, a derive or a clause of a trait."""
        if not file.startswith("src/"):
            return None
        at = [number for number, line in enumerate((self.crate / file).read_text().split("\n")) if old in line]
        found = sources.holding(file, at[0]) if len(at) == 1 else None
        return found if found and found.has_body else None

    def calls(self, sources):
        """The functions that it guards. A trait's call is that of the impl whose body changes."""
        found = []
        for call, _ in self.guards:
            kind, _, name = call.rpartition("::")
            changed = [one for one in self.changed if one.name == name and (not kind or kind in (one.of_type, one.of_trait))]
            found += [one for one in changed or sources.named(call, self.files) if one not in found]
        return found

    def functions(self):
        return list(dict.fromkeys([*self.asked, *self.changed]))

    def goes_alone(self):
        """Whether it changes more than one function can show: something outside functions, or several files."""
        return self.is_outside or not self.asked or len(self.files) > 1


def batches_of(edits, most=None):
    """Puts edits into as few batches as a greedy pass finds, of at most so many each. No two edits of a batch ask for or change one function."""
    batches = []
    for edit in edits:
        spots = set(edit.functions())
        fitting = [] if edit.goes_alone() else [batch for batch in batches if batch["open"] and len(batch["edits"]) != most and not spots & batch["spots"]]
        if fitting:
            fitting[0]["edits"].append(edit)
            fitting[0]["spots"] |= spots
        else:
            batches.append({"open": not edit.goes_alone(), "edits": [edit], "spots": spots})
    return [batch["edits"] for batch in batches]


def placed_edits(crate):
    """A crate's edits with their functions, in the order of its file."""
    folder = Path(crate)
    sources = Sources.of(folder)
    return [PlacedEdit(folder, name, lines, sources) for name, lines in blocks_of(folder)]


class Together:
    """Edits that can stand in one copy: no two change one function, or a text that another one brings or changes."""

    def __init__(self):
        self.edits, self.texts, self.changed = [], {}, set()

    def take(self, edit):
        """Whether there is a place for the edit, which it then has. The first one always has."""
        texts, wrong = edit.applied(edit.crate, self.texts)
        is_taken = not self.edits or not wrong and not self.changed & set(edit.changed)
        if is_taken:
            self.edits.append(edit)
            self.texts.update(texts)
            self.changed.update(edit.changed)
        return is_taken


def together(edits):
    """The edits in as few lists as a greedy pass finds, each of edits that can stand in one copy."""
    found = []
    for edit in edits:
        if not any(one.take(edit) for one in found):
            found.append(Together())
            found[-1].take(edit)
    return [one.edits for one in found]
