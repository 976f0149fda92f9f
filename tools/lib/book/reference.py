"""The pages of a crate's definitions and edits, of labels, of Rattle's words, and the page that explains them."""
import html

from labels import labels_in

from . import markdown
from .calls import Calls
from .site import plain, quoted_names
from .texts import Texts, numbered

READING = """# How to read the reference

Each public call has here its doc comment, its contract, and what guards the contract.

A contract has clauses. A `requires` clause holds before the call: the prover refuses a program that
makes the call without it. An `ensures` clause holds after the call, for every state and argument, and
the prover accepted the body only with a proof of it. The label of a clause, as `state`, links to
its [meaning](labels.html). Each word of a clause links to its definition, a short function over
plain lists and numbers.

- `self.old`, `self.new`: the value before and after the call. `self.now`, if the call only reads it.
- `result`: what the call returns.
- `a ≡ b`: equal. `P → Q`: if P, then Q. `P ↔ Q`: exactly if. `P × Q`: both. `λ x. ..`: a function of x.
- `K.eq`, `K.word`, `V.weight`, `V.answers`: how keys are compared and counted, what a value weighs,
  and to which key it belongs. They are members of the traits of `K` and `V`.
- [Words of Rattle's library](rattle.html), as `IfOk` and `OnErr`.

A wrong body, an edit, is a change of the code that the prover was seen to refuse, because the named
clause fails. So a clause that says too little doesn't pass unseen. A clause that no edit breaks is
named below the edits. Tests are those that the edits and the [promises](%s) name.

A clause of a call on threads names some lawful state of its shard, one step below the returned
number. It doesn't say that this state was there, or at which moment the call was made. Some edits of
such calls are refused only because the prover finds no such state for them. Tests show what these
clauses leave open.

A law, as `one_current_load`, is a call that does nothing. Its clause holds for every run of the
definitions, and the clauses `state`, `answer` and `notices` of the other calls tie the code to these.
Most edits of a law change another call, whose own clause then fails.

## Crates
"""


def reading(tree, site, promises):
    here = "reference/index.html"
    body = markdown.html_of(READING % promises)
    rows = []
    for name in tree.shown:
        rows.append("<li>%s, %s, %s</li>" % (
            site.link("reference/%s.html" % name, here, "%s: calls" % name), site.link("reference/%s.definitions.html" % name, here, "definitions"),
            site.link("reference/%s.edits.html" % name, here, "edits")))
    site.add(here, "How to read the reference", "%s<ul>%s</ul>" % (body, "\n".join(rows)))


def labels(site):
    """The labels of clauses."""
    here, rows, last = "reference/labels.html", [], ""
    found = list(labels_in())
    for (section, label, _), meaning in zip(found, markdown.many([meaning for _, _, meaning in found])):
        if section != last:
            rows += ["</dl>"] * bool(last) + ["<h2>%s</h2>" % section, "<dl>"]
        last = section
        rows.append('<dt id="%s">%s</dt><dd>%s</dd>' % (label, label, meaning))
        site.note("label", label, "%s#%s" % (here, label), plain(meaning))
    site.add(here, "Labels of clauses", "<h1>Labels of clauses</h1>%s</dl>" % "\n".join(rows), "reference")


def rattle(tree, site):
    """The words of Rattle's library."""
    here = "reference/rattle.html"
    meanings = markdown.many(list(tree.rattle.values()))
    rows = ['<dt id="%s">%s</dt><dd>%s</dd>' % (html.escape(word), html.escape(word), meaning) for word, meaning in zip(tree.rattle, meanings)]
    for word, meaning in tree.rattle.items():
        site.note("word", word, "%s#%s" % (here, word), meaning)
    site.add(here, "Words of Rattle’s library", "<h1>Words of Rattle’s library</h1><dl>%s</dl>" % "\n".join(rows), "reference")


class Definitions:
    """The page of a crate's definitions: each with its comment, its text, and the calls and definitions that name it."""

    def __init__(self, tree, site, crate, named):
        self.tree, self.site, self.crate, self.named = tree, site, crate, named
        self.here = "reference/%s.definitions.html" % crate.name
        self.texts = Texts(tree, site, self.here)

    def page(self):
        body, last = ["<h1>%s: definitions</h1>" % self.crate.name], None
        for (module, name), text in self.crate.texts.items():
            if module != last:
                body.append('<h2 id="%s.">%s</h2><p>%s</p>' % (module, module, html.escape(self.crate.heads.get(module, ""))))
            last = module
            body.append(self.word(module, name, text))
        self.site.add(self.here, "%s: definitions" % self.crate.name, "\n".join(body), "reference")

    def word(self, module, name, text):
        said, address = self.crate.comments.get((module, name), ""), self.tree.word(self.crate.name, module, name)
        self.site.note("word", "%s (%s)" % (name, self.crate.name), address, "%s. %s" % (said, text) if said else text)
        shown = self.texts.linked(text.strip("\n"), self.crate.uses[module], address)
        return '<section class="word"><h3 id="%s.%s">%s</h3><p>%s</p><pre><code>%s</code></pre>%s</section>' % (
            module, html.escape(name), html.escape(name), html.escape(said[:1].upper() + said[1:] + "." if said else ""), shown,
            self.named_by((self.crate.name, module, name)))

    def named_by(self, word):
        links = [self.site.link(address, self.here, html.escape(name)) for name, address in self.named.get(word, {}).items()]
        return '<p class="from">Named by %s</p>' % ", ".join(links) if links else ""


def namers(tree):
    """Of each definition the calls and definitions that name it, with their addresses."""
    found = {}
    for name, calls in tree.shown.items():
        crate = tree.crates[name]
        for call in calls:
            for label in crate.clauses[call]:
                for word in tree.links.named(crate, call, label) if "." not in label else ():
                    found.setdefault(word, {})[call] = tree.call(name, call)
    for (crate, module, name), words in tree.links.of.items():
        for word in words:
            found.setdefault(word, {}).setdefault(name, tree.word(crate, module, name))
    return found


def edits(tree, site, crate):
    """The page of a crate's edits: what each guards, and what it changes."""
    here = "reference/%s.edits.html" % crate.name
    body = ["<h1>%s: wrong bodies</h1>" % crate.name, "<p>The prover refuses each of these changes, because the named clause fails.</p>"]
    for edit in crate.edits:
        site.note("edit", "%s (%s)" % (edit.name, crate.name), tree.edit(crate.name, edit.name),
                  ", ".join("%s: %s" % (call, " ".join(names)) for call, names in edit.guards))
        body.append('<section class="edit"><h3 id="%s">%s</h3>' % (edit.name, edit.name.replace("_", " ")))
        for call, names in edit.guards:
            body.append("<p>%s: %s</p>" % (site.link(tree.call(crate.name, call), here, "<code>%s</code>" % html.escape(call)), quoted_names(names) or "its trait’s clause"))
        body += [changed(tree, site, here, crate, *change) for change in edit.changes]
        tests = [site.link(tree.test(test), here, test.replace("_", " ")) for test in edit.tests]
        body.append("<p>Tests: %s</p></section>" % ", ".join(tests) if tests else "</section>")
    site.add(here, "%s: wrong bodies" % crate.name, "\n".join(body), "reference")


def changed(tree, site, here, crate, file, old, new):
    shown = "".join('<del>- %s</del>\n' % html.escape(old) if text == "old" else '<ins>+ %s</ins>' % html.escape(new) for text in ("old", "new"))
    return '<p class="from">%s</p><pre class="change"><code>%s</code></pre>' % (site.link(tree.source(crate.folder / file), here, file), shown)


def sources(tree, site):
    """The files of the tree that pages link to, and those that they link to in turn; of each source the edits that change it."""
    changing = {}
    for crate in tree.crates.values():
        for edit in crate.edits:
            for file in edit.files:
                changing.setdefault(crate.folder / file, []).append((crate.name, edit.name))
    done = set()
    while site.wanted - done:
        for path in sorted(site.wanted - done):
            done.add(path)
            source(tree, site, path, changing.get(path, ()))


def source(tree, site, path, edits_of):
    here = site.address_of(path)
    if path.is_dir():
        links = "".join("<li>%s</li>" % site.link(site.address_of(one), here, html.escape(one.name)) for one in sorted(path.iterdir()) if one.is_file())
        site.pages[here] = path.name, "<h1>%s</h1><ul>%s</ul>" % (path.name, links)
    elif here.endswith((".svg", ".png")):
        site.copies.add(path)
    elif path.exists():
        head = "<h1>%s</h1>" % html.escape(site.name_of(path))
        links = ", ".join(site.link(tree.edit(*edit), here, edit[1].replace("_", " ")) for edit in edits_of)
        head += "<p>Wrong bodies that the prover refuses: %s</p>" % links if links else ""
        site.pages[here] = path.name, head + numbered(path.read_text(errors="replace"))


def crate_pages(tree, site):
    named = namers(tree)
    for name in tree.shown:
        crate = tree.crates[name]
        Calls(tree, site, crate).page()
        Definitions(tree, site, crate, named).page()
        edits(tree, site, crate)
