"""The lines of crates.txt, each of which names a crate and the libraries that it stands on. Whatever needs them reads them here."""
from places import TOP


def lines(page=TOP / "crates.txt"):
    """For each crate its line, and the libraries that the line names."""
    found = {}
    for line in page.read_text().splitlines():
        if ":" in line and not line.startswith("#"):
            head, _, libraries = line.partition(":")
            found[head.split()[0]] = line, libraries.split()
    return found


def stands_on(page=TOP / "crates.txt"):
    """For each crate all libraries below it, the kit's among them."""
    direct = {name: libraries for name, (_, libraries) in lines(page).items()}

    def below(name):
        return set().union(direct.get(name, ()), *(below(one) for one in direct.get(name, ())))

    return {name: below(name) for name in direct}


def with_below(names):
    """The crates of the repository among these names and below them, in the order of the file, each with its line."""
    below = stands_on()
    wanted = set(names).union(*(below.get(name, ()) for name in names))
    return {name: line for name, (line, _) in lines().items() if name in wanted}
