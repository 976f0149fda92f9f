"""A crate's page: each call with its doc comment, its contract, the promises that link to it, the edits that guard it and the tests."""
import html
import re
from urllib.parse import quote

from contracts import said_of
from spec_words import PATH

from . import markdown, promises
from .site import plain, quoted_names
from .texts import Texts, code, declaration

IN_USE = re.compile(r"In use: (`uses::\w+::\w+`(?:(?:, | and )`uses::\w+::\w+`)*)\.")


class Calls:
    """Makes the page of one crate."""

    def __init__(self, tree, site, crate):
        self.tree, self.site, self.crate = tree, site, crate
        self.here = "reference/%s.html" % crate.name
        self.texts = Texts(tree, site, self.here)
        self.docs = {}

    def page(self):
        calls, names = self.tree.shown[self.crate.name], self.crate.names()
        types = [name for name in self.crate.types if name.split("::")[0] in names]
        self.read_docs([self.crate.calls[name] for name in calls] + [self.crate.types[name] for name in types])
        exported = self.crate.exported()
        body = ["<h1>%s: calls</h1>" % self.crate.name, self.head(), self.jumps(types, calls)]
        for group in self.groups(types, [call for call in calls if call in exported]):
            body += group
        inner = [call for call in calls if call not in exported]
        if inner:
            body.append('<h2 id="inner">Inner functions that edits guard</h2>')
            body += [self.call(name) for name in inner]
        self.site.add(self.here, "%s: calls" % self.crate.name, "\n".join(body), "reference")

    def read_docs(self, items):
        texts = ["\n".join(item.doc) or "&nbsp;" for item in items]
        for item, text in zip(items, markdown.many([IN_USE.sub("", text) for text in texts])):
            uses = [name for found in IN_USE.findall("\n".join(item.doc)) for name in re.findall(r"`([^`]+)`", found)]
            self.docs[item.name, item.line] = self.site.with_links(text, item.path, self.here), uses

    def head(self):
        about = "crates/%s/README.html" % self.crate.name
        lines = [self.site.link(about, self.here, "What a caller sees")] if (self.crate.folder / "README.md").exists() else []
        lines.append(self.site.link("reference/%s.definitions.html" % self.crate.name, self.here, "Definitions") if self.crate.texts else "")
        lines.append(self.site.link("reference/%s.edits.html" % self.crate.name, self.here, "Edits") if self.crate.edits else "")
        lines.append(self.site.link("reference/index.html", self.here, "How to read this page"))
        return "<p>%s</p>%s" % (" · ".join(filter(None, lines)), self.passed_on())

    def passed_on(self):
        """What the crate exports of other crates."""
        links = []
        for name, path in self.crate.names().items():
            of = path.split("::")[0]
            if of in self.tree.crates and of != self.crate.name:
                links.append(self.site.link(self.tree.type(of, name) or self.tree.call(of, name), self.here, "<code>%s</code>" % name))
        return "<p>It also exports, of the crates below: %s.</p>" % ", ".join(links) if links else ""

    def jumps(self, types, calls):
        names = list(dict.fromkeys([*types, *calls]))
        return '<details class="jumps"><summary>%d names</summary><p>%s</p></details>' % (
            len(names), " ".join('<a href="#%s">%s</a>' % (quote(name, safe=":"), html.escape(name)) for name in names))

    def groups(self, types, calls):
        """The types, each with its calls, and then the other calls."""
        left = list(calls)
        for name in types:
            mine = [call for call in left if "::" in call and call.split("::")[0] == name]
            left = [call for call in left if call not in mine]
            yield [self.type(name), *(self.call(call) for call in mine)]
        if left:
            yield ['<h2 id="functions">Functions</h2>', *(self.call(call) for call in left)]

    def type(self, name):
        found = self.crate.types[name]
        doc, _ = self.docs[name, found.line]
        self.site.note("type", "%s (%s)" % (name, self.crate.name), "%s#%s" % (self.here, name), plain(doc) + " " + declaration(found.text))
        return '<section><h2 id="%s">%s</h2>%s%s%s</section>' % (
            name, name, self.texts.signature(declaration(found.text), self.crate.name), doc, self.source(found))

    def source(self, item):
        name = str(item.path.relative_to(self.crate.folder))
        return '<p class="from">%s</p>' % self.site.link(self.tree.source(item.path, item.line), self.here, name)

    def call(self, name):
        found = self.crate.calls[name]
        doc, uses = self.docs[name, found.line]
        said = said_of(name, self.crate, self.tree.crates)
        self.site.note("call", "%s (%s)" % (name, self.crate.name), "%s#%s" % (self.here, name),
                       "%s %s %s" % (plain(doc) if found.doc else said, found.signature, found.contract))
        parts = ['<section class="call"><h3 id="%s">%s</h3>' % (name, name), self.texts.signature(found.signature, self.crate.name),
                 doc if found.doc else "<p>%s.</p>" % html.escape(said.replace("`", "")) if said else ""]
        if found.contract:
            parts.append(self.texts.contract(found.contract, self.crate.uses[found.path]))
            parts += self.records(name, self.crate.uses[found.path])
        parts += [self.used(use) for use in uses]
        return "\n".join([*parts, self.rules(name), self.edits(name), self.tests(name), self.source(found), "</section>"])

    def records(self, name, uses):
        """The texts of the records that clauses of a call are, since their fields are its promises."""
        firsts = [PATH.search(text) for label, text in self.crate.clauses[name].items() if "." not in label]
        words = [word for first in firsts if first for word in sorted(uses.meant(first.group()))]
        for crate, module, word in dict.fromkeys(words):
            of = self.tree.crates.get(crate)
            if of and (module, word) in of.fields:
                text = self.texts.linked(of.texts[module, word].strip("\n"), of.uses[module])
                yield '<details><summary>The fields of <code>%s</code></summary><pre><code>%s</code></pre></details>' % (word, text)

    def used(self, name):
        return '<details><summary>In use: <code>%s</code></summary>%s</details>' % (name, code(self.tree.use(name)))

    def rules(self, name):
        items = []
        for promise in self.tree.rules.get((self.crate.name, name), ()):
            items.append("<li>%s</li>" % self.site.link(promises.address(self.site, promise), self.here, html.escape(promise.text.replace("`", ""))))
        return '<h4>Promises</h4><ul class="rules">%s</ul>' % "".join(items) if items else ""

    def edits(self, name):
        """The edits that guard a call, by the clauses that they break, and the clauses that none breaks."""
        rows, tried = [], set()
        for edit in self.crate.edits:
            for of, labels in edit.guards:
                if of == name:
                    tried |= {label.split(".")[0] for label in labels}
                    rows.append("<li>%s: %s</li>" % (quoted_names(labels) or "its trait’s clause", self.site.link(
                        self.tree.edit(self.crate.name, edit.name), self.here, edit.name.replace("_", " "))))
        left = [label for label in self.crate.ensures.get(name, ()) if label not in tried]
        shown = '<h4>Wrong bodies that the prover refuses</h4><ul class="edits">%s</ul>' % "".join(rows) if rows else ""
        return shown + ("<p>Clauses that no edit breaks: %s.</p>" % quoted_names(left) if left else "")

    def tests(self, name):
        """The tests that the call's edits name, and those of its promises."""
        names = [test for edit in self.crate.edits for of, _ in edit.guards if of == name for test in edit.tests]
        names = dict.fromkeys(names + self.tree.tests.get((self.crate.name, name), []))
        links = [self.site.link(self.tree.test(test), self.here, test.replace("_", " ")) for test in names]
        return '<h4>Tests</h4><ul class="tests">%s</ul>' % "".join("<li>%s</li>" % link for link in links) if links else ""
