"""The lines of a trace: which are read, and the first fault."""
from options import BELOW_64

MOST_LINES, LONGEST_LINE = 1_000_000, 64
WITH_KEY, WITHOUT_KEY = "LSGEPDF", "CX"


def word_of_name(name):
    word = 0xCBF29CE484222325
    for byte in name:
        word = ((word ^ byte) * 0x100000001B3) % 2 ** 64
    return word


def read_number(text):
    if not 1 <= len(text) <= 20 or not all(48 <= b <= 57 for b in text):
        return None
    return int(text) if int(text) <= BELOW_64 else None


def read_key(text, names):
    """The key as it is printed, and its word."""
    if names:
        fits = 1 <= len(text) <= 24 and all(33 <= b <= 126 and b != 58 for b in text)
        return (text.decode("ascii"), word_of_name(text)) if fits else None
    number = read_number(text)
    return None if number is None else (str(number), number)


def read_line(text, names):
    """The moment, the letter and the key of a line, or None of a bad one."""
    parts = text.split(b" ")
    moment = read_number(parts[0])
    if moment is None or len(parts) < 2 or len(parts[1]) != 1:
        return None
    letter = chr(parts[1][0])
    if len(parts) == 2:
        return (moment, letter, None) if letter in WITHOUT_KEY else None
    key = read_key(parts[2], names) if len(parts) == 3 and letter in WITH_KEY else None
    return None if key is None else (moment, letter, key)


def read_trace(trace):
    """The lines up to the first fault with their numbers, and that fault."""
    pieces = trace.split(b"\n")
    if pieces[-1] == b"":
        pieces.pop()
    names = bool(pieces) and pieces[0] == b"wt 2"
    lines = []
    for number, piece in enumerate(pieces, 1):
        if number > MOST_LINES:
            return lines, "fault 13\n"
        if len(piece) > LONGEST_LINE:
            return lines, "fault 12 line %d\n" % number
        if names and number == 1:
            continue
        line = read_line(piece, names)
        if line is None:
            return lines, "fault 11 line %d\n" % number
        lines.append((number,) + line)
    return lines, ""
