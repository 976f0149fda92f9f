"""What `rt ci` keeps of the proofs that it made, taken over from a file that somebody else's run wrote, or written into such a file.

rt takes a kept proof for its own if the kit and all that the proof read are the same, byte for byte. Whoever takes a file over trusts its
maker: these proofs aren't made again.
"""
import hashlib
import os
import re
import tarfile
from pathlib import Path

import kit

# Proofs, tests and verdicts on edits, and nothing of one machine's run.
KEPT = re.compile(r"(?:proof|tests|edits)(?:-[^/]*)?(?:/|$)")


def write(file):
    """Packs the store into a file, which takes its place whole."""
    with tarfile.open("%s.new" % file, "w:gz", compresslevel=1) as archive:
        for path in sorted(kit.store().iterdir()):
            if KEPT.match(path.name):
                archive.add(path, path.name)
    os.replace("%s.new" % file, file)


def take(file):
    """Lays a file's proofs into the store, next to those that are there. Returns how many there are, and the file's sum."""
    store = kit.store()
    store.mkdir(mode=0o700, exist_ok=True)
    with tarfile.open(file) as archive:
        members = archive.getmembers()
        other = [one.name for one in members if not KEPT.match(one.name) or ".." in one.name.split("/") or not (one.isfile() or one.isdir())]
        if other:
            raise OSError("%s isn't a file of kept proofs: it has %s" % (file, other[0]))
        for one in members:
            one.uid, one.gid, one.uname, one.gname = os.getuid(), os.getgid(), "", ""
            if one.isdir() or not (store / one.name).exists():
                archive.extract(one, store, set_attrs=one.isfile())
    told = hashlib.sha256(Path(file).read_bytes())
    count = len({one.name.split("/")[0] for one in members if "/" not in one.name})
    return "%d proofs and tests of %s (sha256 %s)" % (count, file, told.hexdigest())
