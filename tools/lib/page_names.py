"""The texts of keys that are numbers, for tools/show_trace --names: from the table that tools/trace_convert --keys writes."""
import csv

from curve_svg import printable
from sources import LONGEST_FIELD, BadInput, is_number, lines_of

# The letters of a text that a page shows where it stands among others; the whole text is in the tooltip.
LONGEST = 24


def read(path):
    """The text of each number."""
    csv.field_size_limit(LONGEST_FIELD)
    texts = {}
    with open(path, "rb") as source:
        rows = csv.reader(line.decode("utf-8", "replace") for line in lines_of(source))
        if next(rows, None) != ["number", "text"]:
            raise BadInput("%s: line 1 isn't number,text, as in a table of trace_convert --keys" % path)
        for row in rows:
            if len(row) != 2 or not is_number(row[0].encode()):
                raise BadInput("%s: line %d is no number with its text: %s" % (path, rows.line_num, ",".join(row)[:60]))
            texts[str(int(row[0]))] = printable(row[1])
    return texts


def shortened(text, longest):
    """The text, or a third of what is shown from its beginning and the rest from its end, where paths differ."""
    if len(text) <= longest:
        return text
    begin = (longest - 1) // 3
    return "%s\u2026%s" % (text[:begin], text[begin + 1 - longest:])


def add(numbers, texts):
    """Adds to a page's numbers the text of each key, and as what it is shown."""
    numbers["texts"] = [texts.get(key, key) for key in numbers["keys"]]
    numbers["shown"] = [shortened(text, LONGEST) for text in numbers["texts"]]
