"""The lines of embed/python/README.md."""


def load(url):
    return "the text of " + url


def lines(url):
    # README
    return page


print(lines("a page"))
