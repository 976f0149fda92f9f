"""Commands in groups of processes of their own, so that whoever ends one ends all that it began."""
import contextlib
import os
import signal
import subprocess


def started(command, **how):
    """Starts a command in a group of its own, with nothing to read, and its standard error on its standard output."""
    return subprocess.Popen([str(word) for word in command], stdin=subprocess.DEVNULL, stderr=subprocess.STDOUT, start_new_session=True, **how)


def end(child, by=signal.SIGTERM):
    """Ends the group of a command."""
    with contextlib.suppress(ProcessLookupError):
        os.killpg(child.pid, by)


@contextlib.contextmanager
def group(command, **how):
    """A command whose group ends with the block."""
    child = started(command, **how)
    try:
        yield child
    finally:
        end(child)
        child.wait()


def end_at_signals():
    """Lets a signal that ends this program end its blocks first: it is raised as SystemExit, with the status that a shell tells."""
    def stop(number, _):
        signal.signal(number, signal.SIG_IGN)
        raise SystemExit(128 + number)

    for number in (signal.SIGTERM, signal.SIGHUP, signal.SIGINT):
        signal.signal(number, stop)
