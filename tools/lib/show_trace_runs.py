"""Runs of tools/show_trace, well and at fault, for tools/gate/check_tools."""
import re
import xml.etree.ElementTree as xml
from pathlib import Path

from page_cases import numbers_of
from page_states import MOST_STEPS
from places import TOOLS, TOP
from tool_runs import check, refused, run

SHOW, DUEL = [TOOLS / "show_trace", "--entries", 4, "--window", 1], (TOP / "traces" / "duel.trace").read_bytes()


def check_pages(folder):
    done = run(SHOW, DUEL)
    page = done.stdout.decode()
    steps = numbers_of(page)["steps"] if done.returncode == 0 else []
    check("show_trace", done.stderr == b"" and [step[2] for step in steps[5:]] == ["load 4:4:size", "load 5:6:size", "load 2:2:size"])
    check("show_trace says that the program prints the same", "The built program prints the same report." in page)
    check("show_trace: nothing from elsewhere", not re.search(r"\b(?:src|href)\s*=|url\(|@import|https?://(?!www\.w3\.org/2000/svg)", page))
    some = numbers_of(run([*SHOW, "--from", 6, "--to", 7], DUEL).stdout.decode())
    check("show_trace of some lines", [step[0] for step in some["steps"]] == [6, 7] and some["start"]["sums"][:2] == [5, 1])
    many = run([TOOLS / "trace_gen", "scan", "--lines", 2000, "--keys", 500]).stdout
    done = run([TOOLS / "show_trace"], many)
    count = len(numbers_of(done.stdout.decode())["steps"]) if done.returncode == 0 else 0
    check("show_trace: 2,000 lines in two megabytes", count == 2000 and len(done.stdout) < 2_000_000)
    names = run([TOOLS / "show_trace", "--title", "</title>&"], b"wt 2\n0 P </script>\n0 L <!--").stdout.decode()
    check("show_trace: names that look like a page", names.count("</script>") == 2 and "<!--" not in names and numbers_of(names)["keys"] == ["</script>", "<!--"])
    stand_in = Path(folder, "other")
    for written, told in (("1 put\\n2 absent\\n", "prints '2 absent' where"), ("1 put\\n", "prints '' where")):
        stand_in.write_text("#!/bin/sh\nprintf '%s'\n" % written)
        stand_in.chmod(0o755)
        refused("show_trace: a program that differs: %s" % told, [*SHOW, "--program", stand_in], b"0 P 1\n0 L 1\n", 1, told)


def check_at_fault():
    for words in ("--entries 0", "--entries x", "--window 5", "--shards 3", "--turn 1", "--from 0", "--from 5 --to 4", "--picture 0", "--picture 6,x",
                  "--picture 1,2,3,4,5,6,7,8,9", "--picture 6 --to 7", "--picture 6 --entries 25", "--program no", "stray", "--tit x"):
        refused("show_trace %s" % words, [*SHOW, *words.split()], DUEL, 2, words.split()[0])
    rows = ((b"", "no line to show"), (b"wt 2\n", "no line to show"), (b"0 P 1\n0 Q 1\n", "line 2"), (b"0 P 1\r\n", "line 1"), (b"0 P 1\n\n", "line 2"),
            (b"0 P 1\n" + b"1" * 65, "line 2 has more than 64 bytes"), (b"\xff\n", "line 1"), (b"0 L 1\n" * 1_000_001, "1000000 lines"),
            (b"0 L 1\n" * (MOST_STEPS + 1), "--from 1 --to %d" % MOST_STEPS))
    for given, told in rows:
        refused("show_trace: a bad trace: %s" % told, SHOW, given, 1, told)
    refused("show_trace: a picture of no line", [*SHOW, "--picture", "8,9"], DUEL, 1, "no line 9")
    refused("show_trace: from behind the end", [*SHOW, "--from", 9], DUEL, 1, "no line to show")
    well = run([*SHOW, "--to", 2], b"0 P 1\n0 L 1\nno line\n")
    check("show_trace: what stands behind the last line isn't read", well.returncode == 0)
    refused("show_trace without an input", ["sh", "-c", '"$0" <&-', TOOLS / "show_trace"], b"", 1, "standard input")


def check_pictures():
    parts = list(xml.fromstring(run([*SHOW, "--picture", "8"], DUEL).stdout).iter())
    marks = [part for part in parts if "mark" in part.get("class", "").split()]
    gaps = [float(part.get("x")) for part in parts if part.tag.endswith("rect") and part.get("class") == "card" and part.get("height") == "4.0"]
    check("show_trace --picture: a mark stands in a gap of the edge", len(marks) == 2 and gaps == [float(mark.get("x")) - 3 for mark in marks])
    done = run([*SHOW, "--picture", "6,8", "--title", "<&\x01" + "long " * 60], DUEL)
    words = ["".join(part.itertext()) for part in xml.fromstring(done.stdout).iter() if part.tag.endswith("text")] if done.returncode == 0 else []
    check("show_trace --picture", {"0 G 5", "6 load 4:4:size", "4 left: size", "0 G 6", "8 load 2:2:size", "2 left: size", "1, stays", "2, stays"} <= set(words))
    check("show_trace --picture: a long title is cut", words and words[0].startswith("<& long") and words[0].endswith("\u2026"))
    many = b"".join(b"0 S %d\n" % (n * 10 ** 18) for n in range(18)) + b"0 X\n" * 20
    done = run([TOOLS / "show_trace", "--entries", 24, "--shards", 4, "--picture", "1,9,17,33"], many)
    check("show_trace --picture of many loads, shards and a clear", xml.fromstring(done.stdout).tag.endswith("svg"))


def check_names(folder):
    table = Path(folder, "names.csv")
    table.write_bytes(b"number,text\r\n4,\"a, \xff\x01\"\r\n2,/usr/share/doc/python\r\n")
    numbers = numbers_of(run([*SHOW, "--names", table], DUEL).stdout.decode())
    known = dict(zip(numbers["keys"], zip(numbers["texts"], numbers["shown"])))
    check("show_trace --names", known["4"] == ("a, \ufffd ", "a, \ufffd ") and known["2"] == ("/usr/share/doc/python",) * 2 and known["1"] == ("1", "1"))
    done = run([*SHOW, "--names", table, "--picture", "8"], DUEL)
    words = ["".join(part.itertext()) for part in xml.fromstring(done.stdout).iter() if part.tag.endswith("text")]
    check("show_trace --names --picture: a long text is cut", "/us\u2026c/python" in words and "0 G 6" in words)
    for text, told in ((b"", "line 1"), (b"a,b\n", "line 1"), (b"number,text\n1,a\nx,b\n", "line 3"), (b"number,text\n1\n", "line 2")):
        table.write_bytes(text)
        refused("show_trace --names of a bad table: %r" % text, [*SHOW, "--names", table], DUEL, 1, told)
    refused("show_trace --names of no file", [*SHOW, "--names", Path(folder, "none.csv")], DUEL, 1, "No such file")


def check_all(folder):
    check_names(folder)
    check_pages(folder)
    check_pictures()
    check_at_fault()
