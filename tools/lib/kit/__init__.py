"""What stands on the insides of the toolchain: README.md here has the list, and tools/gate/check_kit says when a kit has changed them."""
import functools
import importlib.machinery
import importlib.util
import subprocess
import sys
from dataclasses import dataclass
from pathlib import Path


@dataclass(frozen=True)
class Convenience:
    """What the `rt` of some kits of one logic offers and that of others doesn't: nothing is proved by it, so without it a tool does less."""

    reader: str
    # By these words in its bin/rt a kit shows that it has it, and these it has then besides.
    mark: str
    inside: tuple
    lack: str


NAMES = Convenience("tools/lib/kit/ahead.py", "rt ci NAME..", (), "this kit's `rt ci` takes no names, so no crate is proved ahead of the others")
STORE = Convenience("tools/lib/kit/kept_store.py", "/rattle-kept", ('("proof-", "tests-")',),
                    "this kit's `rt ci` keeps no proofs, so `sh tools/prove` takes no --kept")
CONVENIENCES = (NAMES, STORE)


def folder():
    """Where the kit is."""
    done = subprocess.run(["rt", "doc"], stdout=subprocess.PIPE, text=True)
    if done.returncode:
        raise OSError("`rt doc`, which prints where the kit is, ended with status %d" % done.returncode)
    return Path(done.stdout.strip()).parent.resolve()


def has(convenience):
    """Whether this kit offers it."""
    return convenience.mark.encode() in (folder() / "bin" / "rt").read_bytes()


def store():
    """Where rt keeps what it has proved."""
    return folder().parent / "rattle-kept"


@functools.cache
def rtlib():
    """The kit's own module, which reads crates.txt as rt does and knows the words of a check."""
    loader = importlib.machinery.SourceFileLoader("rtlib", str(folder() / "bin" / "rtlib.py"))
    made = importlib.util.module_from_spec(importlib.util.spec_from_loader("rtlib", loader))
    sys.modules["rtlib"] = made
    loader.exec_module(made)
    return made
