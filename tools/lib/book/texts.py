"""Texts of Rattle as HTML: contracts and definitions whose words are links, declarations and sources."""
import html
import re

from functions import CLAUSE
from spec_words import PATH

PIECE = re.compile(r"(?P<comment>(?://|--)[^\n]*)|(?P<path>%s)|(?P<other>[^\w]+?)" % PATH.pattern)


class Texts:
    """Makes the texts of one page."""

    def __init__(self, tree, site, here):
        self.tree, self.site, self.here = tree, site, here

    def linked(self, text, uses, but=None):
        """A text whose words are links, but for one word, which it declares."""
        return "".join(self.piece(found, uses, but) for found in PIECE.finditer(text))

    def piece(self, found, uses, but):
        text = html.escape(found.group())
        if found.lastgroup == "comment":
            return "<i>%s</i>" % text
        if found.lastgroup != "path":
            return text
        address, title = self.tree.meant(uses, found.group())
        return self.site.link(address, self.here, text, title) if address and address != but else text

    def signature(self, text, crate):
        """A declaration whose types are links, but for the one that it declares."""
        def led(found):
            name = found.group("name")
            return self.site.link(self.tree.symbol(name, crate) if name else None, self.here, html.escape(found.group()))

        # A variant begins a line of an `enum`, and isn't the type of that name.
        begun = r"^ {4}\w+|" if text.startswith("pub enum") else ""
        piece = r"//.*|pub (?:struct|enum|trait|type) \w+|%s(?P<name>\b[A-Z]\w*)|\w+|\W" % begun
        return '<pre class="signature"><code>%s</code></pre>' % re.sub(piece, led, text, flags=re.M)

    def contract(self, text, uses):
        """A contract: each clause with its label, whose meaning is behind it."""
        lines = []
        for line in text.split("\n"):
            m = CLAUSE.match(line)
            if m:
                kind, label = m.group(1), m.group(2)
                head = '<b class="%s">%s</b> ' % (kind, kind)
                if label:
                    head += self.site.link(self.tree.label(label), self.here, label, self.tree.labels.get(label, ""), "label") + " "
                lines.append(head + self.linked(line[m.end() - 1:], uses))
            else:
                lines.append(self.linked(line, uses))
        return '<pre class="contract"><code>%s</code></pre>' % "\n".join(lines)


def code(text):
    return "<pre><code>%s</code></pre>" % html.escape(text)


def declaration(text):
    """The text of a type without its private fields."""
    lines, kept, above, hidden = text.split("\n"), [], [], False
    begin = next((at + 1 for at, line in enumerate(lines) if line.endswith("{")), len(lines))
    if not lines[0].startswith("pub struct") or begin == len(lines):
        return text
    for line in lines[begin:-1]:
        above.append(line)
        if not re.match(r"\s*(///?|#\[|$)", line):
            is_shown = line.startswith("    pub ")
            kept += above if is_shown else []
            hidden, above = hidden or not is_shown, []
    return "\n".join([*lines[:begin], *kept, *(["    // private fields"] if hidden else []), lines[-1]])


def numbered(text):
    """A source whose lines have ids."""
    lines = text.rstrip("\n").split("\n")
    return '<pre class="source"><code>%s</code></pre>' % "\n".join(
        '<span id="L%d">%s</span>' % (number, html.escape(line)) for number, line in enumerate(lines, 1))
