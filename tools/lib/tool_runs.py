"""Runs of tools for tools/gate/check_tools: what came of them is counted."""
import subprocess

import checks

OUTCOMES = checks.Outcomes()
check = OUTCOMES.check


def run(words, given=b"", **more):
    return subprocess.run([str(word) for word in words], input=given, capture_output=True, timeout=600, **more)


def refused(title, words, given, status, told, **more):
    """The run ends with this status and one sentence, which has these words."""
    done = run(words, given, **more)
    said = done.stderr.decode()
    check(title, done.returncode == status and done.stdout == b"" and told in said and said.count("\n") == 1)
