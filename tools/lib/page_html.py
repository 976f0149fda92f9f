"""The page of tools/show_trace: one file that needs nothing from anywhere."""
import json
import re
from html import escape
from pathlib import Path

from page_words import MARKS, SENTENCES, WORDS

PARTS = Path(__file__).resolve().parent / "page"
SCRIPTS = ("state.js", "draw.js", "moves.js")


def ms(number):
    return "{:,} ms".format(number)


def settings_told(s):
    """The options of a run in words, those that change nothing left out."""
    main = s["entries"] - s["window"]
    told = ["{:,} entries: a window of {:,}, and a main part of {:,}, probation and protected, of which protected has {:,} at most".format(
        s["entries"], s["window"], main, main * 4 // 5)]
    if s["shards"] > 1:
        told[0] = "{:,} shards, each of ".format(s["shards"]) + told[0]
    if s["mod"] > 1:
        told.append("a value weighs 1 + its key modulo {:,}, and all together weigh {:,} at most".format(s["mod"], s["weight"]))
    elif s["weight"] < s["entries"]:
        told.append("all weights together {:,} at most".format(s["weight"]))
    rows = (("write", "expired {} after a store"), ("access", "expired {} after the latest use"), ("refresh", "due for a refresh {} after a store"))
    told += [words.format(ms(s[name])) for name, words in rows if s[name] is not None]
    if s["fail-mod"] is not None:
        told.append("loads of keys that {:,} divides fail".format(s["fail-mod"]))
    return "; ".join(told) + "."


def in_script(numbers):
    """As JSON that no text in it can end."""
    text = json.dumps(numbers, separators=(",", ":"))
    return text.replace("<", "\\u003c").replace(">", "\\u003e").replace("&", "\\u0026")


def limits(s):
    main = s["entries"] - s["window"]
    return {"window": s["window"], "main": main, "protected": main * 4 // 5}


def page(title, s, numbers, summary, compared):
    """The page as a text. `compared` says whether the report is the built program's, and which sentence tells it."""
    same, told = compared
    whole = dict(numbers, limits=limits(s), words=WORDS, sentences=list(SENTENCES.values()), marks=MARKS)
    parts = {
        "title": escape(title), "settings": escape(settings_told(s)), "compared": escape(told), "compared_kind": "same" if same else "alone",
        "end": "At line {:,}: {}".format(numbers["steps"][-1][0], escape(summary)), "numbers": in_script(whole),
        "style": (PARTS / "page.css").read_text(), "script": "".join((PARTS / name).read_text() for name in SCRIPTS),
    }
    return re.sub(r"\{\{(\w+)\}\}", lambda found: parts[found.group(1)], (PARTS / "page.html").read_text())
