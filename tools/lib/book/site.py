"""The book's folder: its pages with their frame, its links, and the index that the search reads."""
import html
import json
import os
import re
import shutil
from pathlib import Path
from urllib.parse import unquote

from places import CRATES, TOP

PARTS = Path(__file__).resolve().parent
HREF = re.compile(r'(<(?:a|img)\b[^>]*?\b(?:href|src)=")([^"]*)')
CODE = re.compile(r"(<a [^>]*>|<pre[^>]*>)?<code>([\w:]+)(?:\(\))?</code>")
SECTION = re.compile(r'<h([23]) id="([^"]+)">(.*?)</h\1>(.*?)(?=<h[23] |\Z)', re.S)
HEAD = re.compile("<h[23] ")
FRAME = """<!doctype html>
<html lang="en" data-top="{top}">
<head>
<meta charset="utf-8">
<meta name="viewport" content="width=device-width, initial-scale=1">
<meta name="color-scheme" content="light dark">
<title>{title}</title>
<link rel="stylesheet" href="{top}book.css">
<script src="{top}book.js" defer></script>
</head>
<body>
<header>
<a class="home" href="{top}index.html">Rookdresser</a>
<form id="find" role="search"><input id="words" type="search" placeholder="Search calls, words, pages" aria-label="Search" autocomplete="off"></form>
<a class="to-contents" href="#contents">Contents</a>
<ol id="results" hidden></ol>
</header>
<main>
{body}
</main>
<nav id="contents" aria-label="Contents">
{contents}
</nav>
</body>
</html>
"""


def plain(text):
    """The text of HTML."""
    return " ".join(html.unescape(re.sub(r"<[^>]+>", "", text)).split())


def quoted_names(names):
    return ", ".join("<code>%s</code>" % html.escape(name) for name in names)


def is_outside(href):
    return re.match(r"[a-z]+:(?!:)|//", href) is not None


class Site:
    """The folder. An address is that of a file from the folder's top, and may have a fragment."""

    def __init__(self, folder, tree):
        self.folder, self.tree = folder, tree
        # The pages that are to be written once the contents are known, the files of the tree that they link to, and the index.
        self.pages, self.wanted, self.copies, self.index, self.contents = {}, set(), set(), [], []

    def add(self, address, title, body, kind="page"):
        """Adds a page. What is before its first head and each section are entries of the index."""
        self.pages[address] = title, body
        if kind == "page":
            self.note("page", title, address, plain(HEAD.split(body, 1)[0]))
            for _, name, head, text in SECTION.findall(body):
                self.note("section", "%s: %s" % (title, plain(head)), "%s#%s" % (address, name), plain(text))

    def note(self, kind, title, address, text=""):
        self.index.append([kind, title, address, " ".join(text.replace("`", "").split())])

    def write(self):
        shutil.rmtree(self.folder, ignore_errors=True)
        self.folder.mkdir(parents=True)
        for address, (title, body) in self.pages.items():
            self.put(address, FRAME.format(top="../" * address.count("/"), title=html.escape(title), body=body, contents=self.shown_contents(address)))
        self.put("search.js", "const INDEX = %s;\n" % json.dumps(self.index, ensure_ascii=False, separators=(",", ":")))
        for path in self.copies:
            self.put(self.address_of(path), path.read_bytes())
        for name in ("book.css", "book.js"):
            shutil.copy(PARTS / name, self.folder / name)

    def put(self, address, text):
        path = self.folder / address
        path.parent.mkdir(parents=True, exist_ok=True)
        path.write_bytes(text if isinstance(text, bytes) else text.encode())

    def shown_contents(self, here):
        """The contents: of each group its pages."""
        lines = []
        for group, pages in self.contents:
            lines.append("<h2>%s</h2>\n<ul>" % group)
            for title, address in pages:
                current = ' aria-current="page"' if address == here else ""
                lines.append('<li><a href="%s"%s>%s</a></li>' % (relative(address, here), current, html.escape(title)))
            lines.append("</ul>")
        return "\n".join(lines)

    # Links.

    def link(self, address, here, text, title="", css=""):
        """A link to an address, or the text alone if there is none."""
        if not address:
            return text
        self.want_if_source(address)
        more = ' class="%s"' % css if css else ""
        more += ' title="%s"' % html.escape(plain_code(title)) if title else ""
        return '<a href="%s"%s>%s</a>' % (html.escape(relative(address, here)), more, text)

    def want_if_source(self, address):
        """Notes that a page has a link to a file of the tree."""
        name = unquote(address.partition("#")[0])
        if name.startswith("tree/"):
            self.wanted.add(TOP / name.removeprefix("tree/").removesuffix("/index.html").removesuffix(".html"))

    def with_links(self, body, source, here):
        """The HTML of a Markdown text of the tree with its links led to the book's pages, and names of calls and types made links."""
        def named(found):
            return found.group() if found.group(1) else self.link(self.tree.symbol(found.group(2), crate), here, found.group())

        crate = crate_of(source)
        return CODE.sub(named, self.with_links_led(body, source, here))

    def with_links_led(self, body, source, here):
        """The same with its links alone led."""
        def led(found):
            return found.group(1) + html.escape(self.led(html.unescape(found.group(2)), source, here))

        return HREF.sub(led, body)

    def led(self, href, source, here):
        """Where a link of a file of the tree leads in the book."""
        target, _, fragment = href.partition("#")
        if is_outside(href) or not target:
            return href
        address = self.rust_path(target, crate_of(source)) if "::" in target or not re.search(r"[./]", target) else None
        if address:
            return relative(address, here)
        path = Path(os.path.normpath(source.parent / unquote(target)))
        return relative(self.address_of(path) + ("#" + fragment if fragment else ""), here)

    def rust_path(self, path, crate):
        """The address of what a doc comment links to, as `crate::Seeded` or `Config::check`."""
        parts = [part for part in path.split("::") if part not in ("crate", "super", "self")]
        names = ("::".join(parts), "::".join(parts[-2:]), parts[-1])
        return next(filter(None, (self.tree.symbol(name, crate) for name in names)), None)

    @staticmethod
    def name_of(path):
        return str(path.relative_to(TOP)) if path.is_relative_to(TOP) else str(path)

    def address_of(self, path):
        """The address of a file or folder of the tree."""
        name = self.name_of(path)
        if name in (".", "README.md"):
            return "index.html"
        if path.is_dir() and (path / "README.md").exists():
            return name + "/README.html"
        if path.suffix == ".md":
            return name[:-3] + ".html"
        if path.suffix in (".svg", ".png"):
            self.wanted.add(path)
            return name
        if path.exists():
            self.wanted.add(path)
        return "tree/%s/index.html" % name if path.is_dir() else "tree/%s.html" % name


def crate_of(path):
    """The name of the crate that a file of the tree is of, or None."""
    return path.relative_to(CRATES).parts[0] if path.is_relative_to(CRATES) else None


def plain_code(text):
    return text.replace("`", "")


def relative(address, here):
    """The address as a link of the page `here`."""
    target, _, fragment = address.partition("#")
    if target == here and fragment:
        return "#" + fragment
    return os.path.relpath(target, os.path.dirname(here) or ".") + ("#" + fragment if fragment else "")
