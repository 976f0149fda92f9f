"""What programs take from the command line, and how they end."""
import argparse
import math
import os
import shutil
import sys
from pathlib import Path


class Parser(argparse.ArgumentParser):
    """Takes options by their full names alone, and refuses what it doesn't know in one sentence, with status 2."""

    def __init__(self, doc, name=None):
        super().__init__(name, description=doc, formatter_class=argparse.RawDescriptionHelpFormatter, allow_abbrev=False)

    def error(self, message):
        self.exit(2, "%s: %s; `%s --help` tells what it takes\n" % (self.prog, message, self.prog))


def wants(parser, *tools):
    """Ends a program, with a sentence, if a command that it needs isn't there."""
    for tool in tools:
        if not shutil.which(tool):
            where = ": it comes with Rattle's kit (README.md, 'The toolchain')" if tool == "rt" else ""
            parser.exit(2, "%s: there is no command %s%s\n" % (parser.prog, tool, where))


def whole(least, greatest=2 ** 64 - 1):
    """The type of an option that takes a whole number of a range."""
    def read(text):
        number = int(text) if text.isascii() and text.isdigit() and len(text) <= 20 else -1
        if not least <= number <= greatest:
            raise argparse.ArgumentTypeError("%s is no whole number from %d to %d" % (text, least, greatest))
        return number
    return read


def real(least, greatest):
    """The type of an option that takes a number of a range, with or without a fraction."""
    def read(text):
        try:
            number = float(text)
        except ValueError:
            number = math.nan
        if not least <= number <= greatest:
            raise argparse.ArgumentTypeError("%s is no number from %g to %g" % (text, least, greatest))
        return number
    return read


def new_file(text):
    """The type of an option that names a file to write: its folder is there, and it can be written."""
    path = Path(text)
    if not path.parent.is_dir():
        raise argparse.ArgumentTypeError("there is no folder %s to write %s into" % (path.parent, path.name))
    if path.is_dir() or not os.access(path if path.exists() else path.parent, os.W_OK):
        raise argparse.ArgumentTypeError("%s can't be written" % text)
    return path


def program(text):
    """The type of an option that names a program to run, by a path from here."""
    path = Path(text).resolve()
    if not path.is_file() or not os.access(path, os.X_OK):
        raise argparse.ArgumentTypeError("%s is no program that can be run" % text)
    return path


def open_input(name):
    """A file's bytes, or those of standard input, which is named `-`."""
    if name != "-":
        return open(name, "rb")
    if sys.stdin is None:
        raise OSError("standard input is closed")
    return sys.stdin.buffer


def silence():
    """Lets what is written from here on go nowhere, so that no second fault comes of it."""
    os.dup2(os.open(os.devnull, os.O_WRONLY), sys.stdout.fileno())


def end(main):
    """Runs a program and ends with its status. What stops it from outside is one sentence: an interrupt, a device, memory."""
    name = Path(sys.argv[0]).name
    sys.stderr = sys.stderr or open(os.devnull, "w")
    if sys.stdout is None:
        sys.exit("%s: standard output is closed" % name)
    try:
        status = main()
        sys.stdout.flush()
    except KeyboardInterrupt:
        print("\n%s: interrupted" % name, file=sys.stderr)
        status = 130
    except BrokenPipeError:
        silence()
        status = 141
    except (OSError, MemoryError) as fault:
        silence()
        print("%s: %s" % (name, fault or "out of memory"), file=sys.stderr)
        status = 1
    sys.exit(status)
