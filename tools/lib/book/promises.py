"""The page of promises: each with its links, which docs/promises.txt has."""
import html
import re

from page_links import slug
from rules import PAGE

from .site import quoted_names

# What stands before the links of a kind.
TITLES = {"definition": "Defined", "code": "Kept", "edit": "Refused", "test": "Tested", "scenario": "Played", "check": "Checked"}


def address(site, promise):
    return "%s#%s" % (site.address_of(PAGE), slug(promise.keys[0]))


def with_links(site, body):
    """The page's HTML, in which each item of a list is a promise."""
    left = iter(site.tree.promises)

    def item(found):
        promise = next(left)
        return '<li id="%s">%s<p class="from">%s</p></li>' % (slug(promise.keys[0]), found.group(1), links_of(site, promise, site.address_of(PAGE)))

    shown = re.sub(r"<li>(.*?)</li>", item, body, flags=re.S)
    if next(left, None):
        raise ValueError("docs/PROMISES.md: its page has fewer items than promises")
    return shown


def links_of(site, promise, here):
    """The links of a promise, by their kinds."""
    kinds = {}
    for link in promise.links:
        labels = " " + quoted_names(link.labels) if link.labels else ""
        kinds.setdefault(link.kind, []).append(site.link(site.tree.linked(link), here, "<code>%s</code>" % html.escape(link.name)) + labels)
    return " · ".join("%s: %s" % (TITLES[kind], ", ".join(links)) for kind, links in kinds.items())
