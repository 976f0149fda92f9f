"""Puts the book together."""
import re
from multiprocessing.pool import ThreadPool

from places import TOP, markdown_pages
from rules import PAGE

from . import markdown, promises, reference, wrappers
from .site import Site, plain
from .tree import Tree, only_tests

# The groups of hand-written pages, in the order of the contents: the pages, or what their paths begin with. The pages of crates that only
# test are in a group of their own, the last.
GROUPS = {
    "Guides": ("README.md", "docs/GUIDE.md", "docs/COMING_FROM.md", "docs/POLICY.md", "docs/PROVING.md"),
    "Languages": ("embed/README.md", "embed/python/README.md", "embed/rust/README.md", "embed/go/README.md", "embed/c/README.md", "embed/"),
    "Behind it": ("docs/",),
    "Measured": ("bench/",),
    "Crates": ("crates/",),
    "Work on it": ("",),
    "Tests": (),
}


def build(folder):
    """Writes the book, and returns how many pages it has."""
    tree = Tree()
    site = Site(folder, tree)
    groups = grouped([str(path.relative_to(TOP)) for path in markdown_pages()], tree)
    titles = hand_written(site, [name for names in groups.values() for name in names])
    wrappers.pages(site)
    reference.reading(tree, site, "../" + site.address_of(PAGE))
    reference.crate_pages(tree, site)
    reference.labels(site)
    reference.rattle(tree, site)
    reference.sources(tree, site)
    site.contents = contents(groups, titles, tree)
    site.write()
    return len(site.pages)


def grouped(names, tree):
    """The paths of the hand-written pages by group: crates downwards from the cache, other pages as README names them."""
    readme = (TOP / "README.md").read_text()

    def group_of(name):
        if name.startswith("crates/") and only_tests(name.split("/")[1]):
            return "Tests"
        return next(group for group, starts in GROUPS.items() if name.startswith(starts))

    def place(name):
        starts = GROUPS[group_of(name)]
        crate = tree.downwards.index(name.split("/")[1]) if name.startswith("crates/") else 0
        return starts.index(name) if name in starts else len(starts), crate, readme.find(name) if name in readme else len(readme), name

    return {group: sorted((name for name in names if group_of(name) == group), key=place) for group in GROUPS}


def hand_written(site, names):
    """Adds the hand-written pages, and returns the title of each by its path."""
    paths, titles = [TOP / name for name in names], {}
    with ThreadPool(4) as pool:
        bodies = pool.map(lambda path: markdown.html_of(path.read_text()), paths)
    for name, path, body in zip(names, paths, bodies):
        here, head = site.address_of(path), re.search(r"<h1[^>]*>(.*?)</h1>", body, re.S)
        titles[name] = plain(head.group(1)) if head else path.stem
        body = site.with_links(body, path, here)
        site.add(here, titles[name], promises.with_links(site, body) if path == PAGE else body)
    return titles


def contents(groups, titles, tree):
    """The groups of the contents, each with titles and addresses: what a user reads first."""
    rows = [("How to read it", "reference/index.html"), *(("%s: calls" % name, "reference/%s.html" % name) for name in tree.shown),
            ("Labels of clauses", "reference/labels.html"), ("Words of Rattle’s library", "reference/rattle.html")]
    found = {group: [(titles[name], "index.html" if name == "README.md" else name[:-3] + ".html") for name in names] for group, names in groups.items()}
    calls = {about: ("%s: calls" % language, wrappers.address_of(language)) for language, _, about in wrappers.LANGUAGES}
    found["Languages"] = [row for name, page in zip(groups["Languages"], found["Languages"]) for row in (page, calls.get(name)) if row]
    first = [(group, found.pop(group)) for group in ("Guides", "Languages")]
    return [*first, ("Calls in Rattle", rows), *found.items()]
