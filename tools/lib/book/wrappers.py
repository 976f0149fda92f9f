"""The pages of the wrappers' calls: one for each language."""
import html
from urllib.parse import quote

from page_links import slug
from places import TOP

from . import markdown
from .languages import c, go, python, rust
from .site import plain

# Of each language its name, what reads its calls, and its page.
LANGUAGES = (("Python", python, "embed/python/README.md"), ("Rust", rust, "embed/rust/README.md"), ("Go", go, "embed/go/README.md"),
             ("C", c, "embed/c/README.md"))


def address_of(language):
    return "reference/%s.html" % language.lower()


def pages(site):
    for language, module, about in LANGUAGES:
        Page(site, language, about, list(module.calls())).write()


class Page:
    """The page of one language."""

    def __init__(self, site, language, about, groups):
        self.site, self.language, self.about, self.groups = site, language, about, groups
        self.here = address_of(language)
        texts = [text for call in self.all_calls() for text in (call.doc, *(code for _, code in call.examples))]
        shown = markdown.many([text or "&nbsp;" for text in texts])
        self.shown = {text: site.with_links_led(body, TOP / about, self.here) for text, body in zip(texts, shown)}

    def all_calls(self):
        return [call for group in self.groups for call in (group.head, *group.calls) if call]

    def write(self):
        title = "%s: calls" % self.language
        names = [call.name for group in self.groups for call in group.calls or [group.head]]
        links = " ".join('<a href="#%s">%s</a>' % (quote(name, safe=":."), html.escape(name)) for name in names)
        about = self.site.link(self.site.address_of(TOP / self.about), self.here, "how to build and use it")
        body = ["<h1>%s</h1>" % title, "<p>The calls of the wrapper for %s, with their comments. Its page tells %s.</p>" % (self.language, about),
                '<details class="jumps"><summary>%d names</summary><p>%s</p></details>' % (len(names), links)]
        for group in self.groups:
            body.append(self.entry(group.head, "h2") if group.head else '<h2 id="%s">%s</h2>' % (slug(group.name), html.escape(group.name)))
            body += [self.entry(call, "h3") for call in group.calls]
        self.site.add(self.here, title, "\n".join(body), "reference")

    def entry(self, call, head):
        doc = self.shown[call.doc] if call.doc else ""
        examples = [self.example(call, title, code) for title, code in call.examples]
        name = html.escape(call.name)
        kind, css = ("call", ' class="call"') if head == "h3" else ("type", "")
        self.site.note(kind, "%s (%s)" % (call.name, self.language), "%s#%s" % (self.here, call.name), " ".join([plain(doc), call.declared, plain(" ".join(examples))]))
        source = self.site.link(self.site.tree.source(call.path, call.line), self.here, str(call.path.relative_to(TOP)))
        return '<section%s><%s id="%s">%s</%s><pre class="signature"><code>%s</code></pre>%s%s<p class="from">%s</p></section>' % (
            css, head, name, name, head, html.escape(call.declared), doc, "".join(examples), source)

    def example(self, call, title, code):
        """An example with its title: a word of the test, or where a program's line is."""
        if isinstance(title, tuple):
            head = "In use: " + self.site.link(self.site.tree.source(*title), self.here, str(title[0].relative_to(TOP)))
        else:
            head = "Example" + (": %s" % html.escape(title) if title else "")
        return "<h4>%s</h4>%s" % (head, self.shown[code])
