"""Markdown as HTML, by pandoc."""
import re
import subprocess

COMMAND = ("pandoc", "--from=gfm", "--to=html5", "--wrap=none", "--no-highlight")
# What stands between two texts that pandoc reads in one run.
MARK = "<!-- the next text -->"


def html_of(text):
    done = subprocess.run(COMMAND, input=text, capture_output=True, text=True, check=True)
    return re.sub(r"<table>(.*?)</table>", r'<div class="wide"><table>\1</table></div>', done.stdout, flags=re.S)


def many(texts):
    """The HTML of each text, by one run."""
    parts = html_of(("\n\n%s\n\n" % MARK).join(texts)).split(MARK)
    if len(parts) != len(texts):
        raise ValueError("pandoc made %d texts of %d" % (len(parts), len(texts)))
    return [part.strip() for part in parts]
