"""Lines of traces, for tools/hit_curve and tools/show_trace, and keys of other data, for tools/trace_convert and tools/hit_curve: one a
line, tables, ARC and LIRS traces, web server logs."""
import argparse
import csv
import datetime
import re

from model.trace import MOST_LINES, read_trace, word_of_name
from words import whole

BELOW_64 = 2 ** 64 - 1
# The longest field of a table that is read: an open quote doesn't take the whole file.
LONGEST_FIELD = 2 ** 24
UNITS = {"s": 1000.0, "ms": 1.0, "us": 0.001, "ns": 0.000001}
LOG = re.compile(rb'^\S+ \S+ \S+ \[([^\]]+)\] "(?:[A-Z]+ )?([^" ]*)[^"]*" ')
NAME = re.compile(rb"[!-9;-~]{1,24}")
MARK = b"\xef\xbb\xbf"
EPOCH = datetime.datetime(1970, 1, 1, tzinfo=datetime.timezone.utc)


class BadInput(Exception):
    """What is wrong, with the line's number."""


def lines_of_trace(trace, more=""):
    """The lines of a trace. The first fault is a BadInput, with more words behind it."""
    lines, fault = read_trace(trace)
    if not fault:
        return lines
    number, line = fault.split()[1], fault.split()[-1]
    if number == "13":
        raise BadInput("a trace takes %d lines%s" % (MOST_LINES, more))
    text = trace.split(b"\n")[int(line) - 1]
    raise BadInput("line %s %s: %r%s" % (line, "has more than 64 bytes" if number == "12" else "is no line of a trace", text[:60], more))


def is_number(key):
    return key.isdigit() and len(key) <= 20 and int(key) <= BELOW_64


def is_name(key):
    return NAME.fullmatch(key) is not None


def lines_of(source):
    """The lines, without a byte order mark before the first."""
    for number, line in enumerate(source):
        if number == 0:
            if line.startswith((b"\xff\xfe", b"\xfe\xff")):
                raise BadInput("line 1 begins with the mark of UTF-16, and only UTF-8 is read")
            line = line.removeprefix(MARK)
        yield line


def read_keys(source, given):
    for number, line in enumerate(source, 1):
        key = line.rstrip(b"\r\n")
        if key:
            yield key, 0.0
        elif not given.skip_bad:
            raise BadInput("line %d is empty" % number)


def column_at(name, header, what):
    """The place of a column, from its name or its number, which counts from 1."""
    if header is not None and name in header:
        return header.index(name)
    if re.fullmatch("[1-9][0-9]{0,5}", name):
        return int(name) - 1
    raise BadInput("there is no %s %s%s" % (what, name, "" if header is None else "; the columns are %s" % ", ".join(header)[:300]))


def rows_of(source, given):
    """The rows of a table, each with the number of lines before it."""
    csv.field_size_limit(LONGEST_FIELD)
    rows = csv.reader((line.decode("utf-8", "surrogateescape") for line in source), delimiter=given.delimiter)
    while True:
        try:
            yield rows.line_num, next(rows)
        except StopIteration:
            return
        except csv.Error as fault:
            if not given.skip_bad:
                raise BadInput("line %d is no row of a table: %s" % (rows.line_num, fault))


def moment_of(text, unit):
    """A time in milliseconds: a number of units, or a date and time as ISO 8601 writes it, in UTC if it names no zone. None if it is
    neither, or no moment can be made of it."""
    try:
        moment = float(text) * UNITS[unit]
    except ValueError:
        moment = iso_moment(text.strip())
    return moment if moment is not None and abs(moment) <= BELOW_64 else None


def iso_moment(text):
    """The milliseconds since 1970 of a time like 2026-11-24T13:55:36.250Z; None if it is none."""
    try:
        # Before Python 3.11 a Z and fractions of other lengths than 3 and 6 are refused.
        text = re.sub(r"\.(\d+)", lambda found: "." + found.group(1)[:6].ljust(6, "0"), re.sub("[Zz]$", "+00:00", text))
        when = datetime.datetime.fromisoformat(text)
    except ValueError:
        return None
    when = when if when.tzinfo else when.replace(tzinfo=datetime.timezone.utc)
    return (when - EPOCH) / datetime.timedelta(milliseconds=1)


def read_csv(source, given):
    rows = rows_of(source, given)
    _, header = next(rows, (0, None)) if given.header else (0, None)
    at = column_at(given.column, header, "column")
    when = None if given.time_column is None else column_at(given.time_column, header, "time column")
    # Only tools/hit_curve takes weights.
    named = getattr(given, "weight_column", None)
    weighs = None if named is None else column_at(named, header, "weight column")
    for before, row in rows:
        fault, moment, weight = None, 0.0, 1
        if max(at, when or 0, weighs or 0) >= len(row):
            fault = "has only %d columns" % len(row)
        elif when is not None:
            moment = moment_of(row[when], given.unit)
            fault = None if moment is not None else "has neither a number nor an ISO 8601 time as its time"
        if fault is None and weighs is not None:
            fault = None if is_number(row[weighs].strip().encode("utf-8", "surrogateescape")) else "has no whole number as its weight"
            weight = int(row[weighs]) if fault is None else 1
        if fault is None:
            yield row[at].encode("utf-8", "surrogateescape"), moment, weight
        elif not given.skip_bad:
            raise BadInput("line %d %s: %s" % (before + 1, fault, ",".join(row)[:60]))


def read_arc(source, given):
    for number, line in enumerate(source, 1):
        words = line.split()
        if len(words) >= 2 and is_number(words[0]) and is_number(words[1]) and int(words[1]) <= MOST_LINES:
            for block in range(int(words[0]), int(words[0]) + int(words[1])):
                yield b"%d" % block, 0.0
        elif not given.skip_bad:
            raise BadInput("line %d isn't 'first count ..' with a count of at most %d: %r" % (number, MOST_LINES, line[:60]))


def read_lirs(source, given):
    for number, line in enumerate(source, 1):
        word = line.strip()
        if word.isdigit():
            yield word, 0.0
        elif word not in (b"", b"*") and not given.skip_bad:
            raise BadInput("line %d is no block number: %r" % (number, line[:60]))


def read_log(source, given):
    for number, line in enumerate(source, 1):
        found = LOG.match(line)
        try:
            date = datetime.datetime.strptime(found.group(1).decode("ascii"), "%d/%b/%Y:%H:%M:%S %z")
            yield found.group(2), date.timestamp() * 1000
        except (AttributeError, ValueError, OverflowError):
            if not given.skip_bad:
                raise BadInput("line %d isn't in the common log format: %r" % (number, line[:60]))


FORMS = {"keys": read_keys, "csv": read_csv, "arc": read_arc, "lirs": read_lirs, "log": read_log}


class Sample:
    """The lines of one key in so many, by hash, so that each kept key has all its lines: of one in twice as many as soon as
    there are too many."""

    def __init__(self, most, one_in):
        self.most, self.one_in, self.rows, self.words = most, one_in, [], {}

    def word(self, key):
        """The hash that a sample goes by. A number has the same one with zeros before it."""
        if key not in self.words:
            if len(self.words) >= MOST_LINES:
                self.words.clear()
            self.words[key] = word_of_name(key.lstrip(b"0"))
        return self.words[key]

    def keeps(self, key):
        return self.one_in == 1 or self.word(key) % self.one_in == 0

    def add(self, key, moment, weight=1):
        if self.keeps(key):
            self.rows.append((key, moment, weight))
            self.fit(self.most)

    def fit(self, most):
        while len(self.rows) > most:
            if self.one_in > BELOW_64:
                raise BadInput("one key has more than %d lines, and a trace takes no more" % most)
            self.one_in *= 2
            self.rows = [row for row in self.rows if self.keeps(row[0])]


class Kinds:
    """As what all keys so far can be written, and a key that can't be a number, or a name."""

    def __init__(self):
        self.odd = {}

    def add(self, key):
        if "numbers" not in self.odd and not is_number(key):
            self.odd["numbers"] = key
        if "names" not in self.odd and not is_name(key):
            self.odd["names"] = key

    def chosen(self, wanted):
        """How keys are written: as numbers if all can be, else as names if all can be, else hashed; or as is wanted, where `counted` is
        by numbers from 1 in the order in which keys come."""
        if wanted == "auto":
            return next(kind for kind in ("numbers", "names", "hashed") if kind not in self.odd)
        if wanted in self.odd:
            raise BadInput("not all keys can be %s: %r" % (wanted, self.odd[wanted][:60]))
        return wanted


class Lines:
    """Keys as a trace writes them, each with its moment and weight; how they are written, and how each is; of how many keys one was kept."""

    def __init__(self, kind, sample):
        self.kind, self.one_in = kind, sample.one_in
        self.written = {key: text_of(key, kind, number) for number, key in enumerate(dict.fromkeys(key for key, _, _ in sample.rows), 1)}
        self.keys = [self.written[key] for key, _, _ in sample.rows]
        self.moments = [moment for _, moment, _ in sample.rows]
        self.weights = [weight for _, _, weight in sample.rows]
        self.different = len(set(self.written.values()))


def text_of(key, kind, number):
    """How a key is written that is the so-many-th."""
    if kind == "counted":
        return b"%d" % number
    if kind == "hashed":
        return b"%d" % word_of_name(key)
    return b"%d" % int(key) if kind == "numbers" else key


def read(source, given, wanted="auto", progress=None):
    """The lines of a trace that other data make: of a form, with options, as `add_arguments` has them."""
    sample, kinds, number = Sample(MOST_LINES, given.sample or 1), Kinds(), 0
    for number, (key, *more) in enumerate(FORMS[given.form](lines_of(source), given), 1):
        kinds.add(key)
        sample.add(key, *more)
        if progress and number % 1000 == 0:
            progress.tell("{:,} keys read".format(number))
    kind = kinds.chosen(wanted)
    if kind == "names":
        # The header is a line too.
        sample.fit(MOST_LINES - 1)
    if number and not sample.rows:
        raise BadInput("no key is left of one in %d" % sample.one_in)
    return Lines(kind, sample)


def delimiter(text):
    """The type of an option that takes a table's delimiter; a tab may be written as \\t."""
    text = {"\\t": "\t", "tab": "\t"}.get(text, text)
    if len(text) != 1 or text in '"\r\n\0' or not text.isprintable() and text != "\t":
        raise argparse.ArgumentTypeError("%r isn't one character that parts columns, as , or ; or \\t" % text)
    return text


# The options that say how to read.
READING = ("column", "time_column", "unit", "delimiter", "header", "sample", "skip_bad")


def add_arguments(parser):
    """Adds the options that say how to read."""
    parser.add_argument("--column", default="1", help="of csv: the column of keys, by number from 1 or by name [default: 1]")
    parser.add_argument("--time-column", help="of csv: the column of times, numbers or as ISO 8601 writes them")
    parser.add_argument("--unit", choices=sorted(UNITS), default="s", help="of csv: what times that are numbers count [default: s]")
    parser.add_argument("--delimiter", type=delimiter, default=",", help="of csv: one character, \\t for a tab [default: a comma]")
    parser.add_argument("--header", action="store_true", help="of csv: the first line names the columns")
    parser.add_argument("--sample", type=whole(1), metavar="N", help="keep the keys of one in N, by hash")
    parser.add_argument("--skip-bad", action="store_true", help="pass over lines that can't be read")
