"""Archives that are the same for the same content: entries in order, one date, no owner, and modes of two kinds."""
import gzip
import hashlib
import io
import tarfile

PROGRAM_MODE, FILE_MODE = 0o755, 0o644


class Entry:
    """A file of an archive: its bytes, whether it is to be run, or the name that a link leads to."""

    def __init__(self, data=b"", runs=False, link=None):
        self.data, self.runs, self.link = data, runs, link

    @property
    def mode(self):
        return PROGRAM_MODE if self.runs else FILE_MODE


def tar_gz(entries, top, moment):
    """A tar.gz of the entries by name, all below one folder."""
    out = io.BytesIO()
    with tarfile.open(fileobj=out, mode="w", format=tarfile.USTAR_FORMAT) as archive:
        for name, entry in sorted(entries.items()):
            item = tarfile.TarInfo("%s/%s" % (top, name))
            item.mtime, item.mode, item.size = moment, entry.mode, len(entry.data)
            if entry.link is not None:
                item.type, item.linkname, item.mode = tarfile.SYMTYPE, entry.link, 0o777
            archive.addfile(item, io.BytesIO(entry.data))
    return gzip.compress(out.getvalue(), mtime=0)


def compare(path, again):
    """Compares a file, or each that SHA256SUMS names, with that of its name in a folder. Prints a line for each, and returns the status."""
    listed = path.read_text().splitlines() if path.name.startswith("SHA256SUMS") else ["  " + path.name]
    names = [line.split("  ", 1)[1] for line in listed]
    differ = 0
    for name in names:
        old, new = path.parent / name, again / name
        same = old.exists() and new.exists() and old.read_bytes() == new.read_bytes()
        print("%s: %s" % (name, "the same, sha256 %s" % hashlib.sha256(old.read_bytes()).hexdigest() if same else "differs"))
        differ += not same
    print("%d the same, %d differ" % (len(names) - differ, differ))
    return 1 if differ else 0
