"""The facts of docs/facts.txt, and how they are spelled where they stand besides."""
import re

from places import TOP

PAGE = TOP / "docs" / "facts.txt"


def facts_in(page=PAGE):
    """The facts by section, in their order; those before the first section are in that of no name."""
    found = {"": {}}
    section = found[""]
    for line in page.read_text().splitlines():
        if line.startswith("## "):
            section = found.setdefault(line[3:].partition(":")[0], {})
        elif line and not line.startswith("#"):
            name, colon, fact = line.partition(": ")
            if not colon or name in section:
                raise ValueError("docs/facts.txt: no fact, or one that is there already: %s" % line)
            section[name] = fact
    return found


FACTS = facts_in()
VERSION, TOOLCHAIN, MINUTES = (FACTS[""][name] for name in ("version", "toolchain", "minutes to replay"))
FAULTS = FACTS["faults of the program"]
TEXTS = FACTS["faults of the library"]
TESTED = FACTS["tested, not proved"]
# From so many entries on a window may follow the stream.
FOLLOWS, = re.findall(r"\bOnly from (\d+) entries on\b", FACTS["options of the program"]["adaptive"])


def rows_of_options():
    """Of each option its name, range, default, sentence, and what is added to the range or nothing."""
    return [(name, *(cell.strip() for cell in (fact + " | ").split(" | ")[:4])) for name, fact in FACTS["options of the program"].items()]


def version_of_package():
    """The version as Python's packages spell it: 0.2.0.dev0 for 0.2.0-dev."""
    return VERSION.replace("-dev", ".dev0")


def version_number():
    """The version as the library for C has it: 2000 for 0.2.0 and for 0.2.0-dev."""
    first, second, third = map(int, VERSION.partition("-")[0].split("."))
    return str(first * 1_000_000 + second * 1_000 + third)


def faults():
    """The numbers of the faults with their meanings, as a sentence without its period."""
    return ", ".join("%s %s" % row for row in FAULTS.items())


def cases_of_faults():
    """The cases of rd_fault_text."""
    return "".join('    case %s: return "%s";\n' % row for row in TEXTS.items())


def table_of_options():
    """The rows of the table in docs/FORMATS.md."""
    def cell(reach, more):
        # Another option is quoted.
        return "; ".join(filter(None, (re.sub(r"\b(entries)$", r"`--\1`", reach), more)))

    return "".join("| `--%s` | %s | %s |\n" % (name, cell(reach, more), default) for name, reach, default, _, more in rows_of_options())


def items_of_man():
    """The items of the man page."""
    return "".join(".It Fl Fl %s Ar %s\n%s\nRange: %s.\nDefault: %s.\n" % (
        name, "milliseconds" if "milliseconds" in reach else "number", sentence, reach.split(", milliseconds")[0], default)
        for name, reach, default, sentence, _ in rows_of_options())
