"""That by turn as many threads take turns and run loads as the options say, for tools/gate/check_program.

No report shows which thread ran a load. So this looks at what the system tells of the program's threads while it runs. One that posts
loads, or runs them, waits at nearly each: it sleeps and is woken, or, on a machine with a free core, it spins and uses that core. One
that does neither is neither woken nor running.

A row is tried again while a run shows too few busy threads. A right program may show too few: on a loaded machine it ends before this
check reads its numbers, or no worker comes in time and its threads load for themselves. A wrong program never shows enough in any
run, since no run has more busy threads than the program gives work to. So one run that shows enough decides, and no clock does. A run
that doesn't end is ended, and shows what it had shown by then.
"""
import os
import subprocess
import threading
from pathlib import Path

LOADS = 500_000
# A thread without work is switched to a few times, as it starts and ends.
SWITCHES = 100
# The system's ticks of a tenth of a second. A thread without work uses none.
TICKS = os.sysconf("SC_CLK_TCK") // 10
# Threads that take turns, and threads that run loads.
ROWS = ((1, 1), (1, 2), (2, 2), (2, 5), (4, 3))
TRIES = 10
# Seconds after which a run is ended. A right program takes one or two.
LONGEST = 120


def trace():
    return b"".join(b"0 G %d\n" % key for key in range(LOADS))


def switches(task):
    """How often a thread was switched to."""
    return sum(int(line.split()[1]) for line in (task / "status").read_text().splitlines() if "ctxt_switches" in line)


def ticks(task):
    """The processor's time that a thread has used, in the system's ticks."""
    user, system = (task / "stat").read_text().rpartition(")")[2].split()[11:13]
    return int(user) + int(system)


def numbers(child):
    """Of each thread of the program that hasn't ended, its switches and its ticks."""
    found = {}
    try:
        for task in Path("/proc/%d/task" % child.pid).iterdir():
            found[task.name] = (switches(task), ticks(task))
    except OSError:
        pass
    return found


def busy_threads(first, now):
    """How many threads have been busy since there were several: what the one that reads the trace did for that doesn't count."""
    return sum(woken - first[name][0] >= SWITCHES or used - first[name][1] >= TICKS for name, (woken, used) in now.items())


def most_busy(program, turn, workers, given):
    """The most threads that are busy at once, up to as many as there are to be."""
    words = [str(program), "--turn", str(turn), "--workers", str(workers), "--entries", "16"]
    child = subprocess.Popen(words, stdin=subprocess.PIPE, stdout=subprocess.DEVNULL, stderr=subprocess.DEVNULL)
    end, first, most = threading.Timer(LONGEST, child.kill), {}, 0
    end.start()
    try:
        child.stdin.write(given)
        child.stdin.close()
        while child.poll() is None and most < turn + workers:
            now = numbers(child)
            first = {**now, **first} if len(now) > 1 else now
            most = max(most, busy_threads(first, now))
    except BrokenPipeError:
        pass
    finally:
        end.cancel()
        child.kill()
        child.wait()
    return most


def check_all(program, check):
    """Runs each row until a run shows all its threads busy."""
    given = trace()
    for turn, workers in ROWS:
        seen = []
        while len(seen) < TRIES and turn + workers not in seen:
            seen.append(min(turn + workers, most_busy(program, turn, workers, given)))
        check("--turn %d --workers %d: at most %d threads were busy at once in %d runs" % (turn, workers, max(seen), len(seen)), turn + workers in seen)
