"""Has the crates that most others wait for proved ahead of the gate's `rt ci`, on four cores or more.

`rt ci` gives a crate a second job only if a core is free as the crate begins, and these begin while others run. So two runs of
`rt ci NAME` go ahead and have them proved with two jobs each. One proves wt_regions and what is below it. As soon as that one has
proved wt_keys, the other begins, and goes on to wt_cache. The gate begins as the first run ends. It takes over what the two have
proved, and tries again what they haven't. In CI `rt ci` takes no names, and in an older kit it never does, so nothing goes ahead there.
"""
import contextlib
import os
import subprocess
import tempfile

import kit
from groups import group

FIRST, SECOND = ["rt", "ci", "wt_regions"], ["rt", "ci", "wt_cache"]
IS_BEGUN = "rt: wt_keys "


def is_wanted():
    """Whether two runs ahead would help here, and the kit can do them. If only the kit can't, it says so."""
    if len(os.sched_getaffinity(0)) < 4 or os.environ.get("CI") == "true":
        return False
    if not kit.has(kit.NAMES):
        print("tools/prove: %s" % kit.NAMES.lack, flush=True)
        return False
    return True


def follow(child, said, is_met):
    """Keeps a run's lines, up to the first that is met."""
    for line in child.stdout:
        said.append(line)
        if is_met(line):
            return


@contextlib.contextmanager
def two_runs():
    """Runs the two. The block begins as the first one ends, and ends the second. It gets what returns all that they printed, once it has ended."""
    said = []
    with tempfile.TemporaryFile("w+", errors="replace") as log, contextlib.ExitStack() as both:
        if is_wanted():
            first = both.enter_context(group(FIRST, stdout=subprocess.PIPE, text=True, errors="replace"))
            follow(first, said, lambda line: line.startswith(IS_BEGUN))
            both.enter_context(group(SECOND, stdout=log))
            follow(first, said, lambda line: False)
        yield said
        both.close()
        log.seek(0)
        said.append(log.read())
