"""Runs of tools/release and its parts on small inputs, for tools/gate/check_tools."""
import contextlib
import io
import sys
import tarfile
import tempfile
import zipfile
from pathlib import Path

import elf
from archives import Entry, compare, tar_gz
from places import TOOLS
from provenance import Gate, moment_told
from release_parts import backend
from tool_runs import check, refused

RELEASE = [sys.executable, TOOLS / "release"]
COMMIT, OTHER = "a" * 40, "b" * 40
LOG = """tools/prove: at commit %s
== wt_keys
logic=proved functions=9 native=nat,char,string
== wt_keys: its tests
logic=proved tests functions=2 native=nat,char,string
8 passed, 0 failed
tools/prove: all checks have ended, and the gate says
17 passed, 0 failed
""" % COMMIT


def check_gate():
    rows = (
        ("all passed", LOG, COMMIT, None),
        ("of another commit", LOG, OTHER, "it is of commit %s" % COMMIT),
        ("with changes", LOG.replace(COMMIT, COMMIT + "-dirty"), COMMIT, "it is of commit None"),
        ("one failed", LOG.replace("17 passed, 0", "17 passed, 1"), COMMIT, "17 passed, 1 failed"),
        ("of proofs taken over", LOG.replace("== wt_keys\n", "tools/prove: this run is no whole proof: it takes over 3\n== wt_keys\n", 1), COMMIT, "took over"),
        ("cut off", LOG.split("tools/prove: all")[0], COMMIT, "to its end"),
        ("a crate that isn't proved", LOG.replace("logic=proved functions", "logic=unproved functions"), COMMIT, "no verdict of wt_keys"),
        ("a crate that isn't there", LOG.replace("== wt_keys", "== wt_core"), COMMIT, "no verdict of wt_keys"),
    )
    for title, text, commit, told in rows:
        fault = Gate(text).fault(commit, ["wt_keys"])
        check("release --gate: %s" % title, fault is None if told is None else fault is not None and told in fault)
    page = "commit: %s\nverdict of wt_keys: logic=proved functions=9\ngate: 17 passed, 0 failed\n" % COMMIT
    gate = Gate(page)
    check("release reads the date of PROVENANCE.txt", moment_told("date: 2023-11-14 22:13:20 UTC\n") == 1_700_000_000)
    check("release reads PROVENANCE.txt as a log", (gate.fault(COMMIT, ["wt_keys"]), gate.verdicts) == (None, {"wt_keys": "logic=proved functions=9"}))


def check_archives():
    one = {"b": Entry(b"2"), "a/x": Entry(b"1", runs=True), "c": Entry(link="b")}
    other = dict(reversed(one.items()))
    packed = tar_gz(one, "top", 1_700_000_000)
    check("release: an archive goes by its names", packed == tar_gz(other, "top", 1_700_000_000))
    with tarfile.open(fileobj=io.BytesIO(packed)) as archive:
        found = {item.name: (item.mode, item.linkname) for item in archive}
    check("release: an archive's modes and links", found == {"top/a/x": (0o755, ""), "top/b": (0o644, ""), "top/c": (0o777, "b")})
    name, made = backend.wheel({"p/empty": b""}, "1.0", "some-tag")
    with zipfile.ZipFile(io.BytesIO(made)) as archive:
        record = archive.read("rookdresser-1.0.dist-info/RECORD").splitlines()
    # The published SHA-256 of nothing, in the wheel's letters.
    check("release: a wheel's RECORD", record[0] == b"p/empty,sha256=47DEQpj8HBSa-_TImW-5JCeuQeRkm5NMpJWZG3hSuFU,0" and len(record) == 4)
    check("release: a wheel's name, and the same bytes again",
          name == "rookdresser-1.0-some-tag.whl" and made == backend.wheel({"p/empty": b""}, "1.0", "some-tag")[1])


def check_compare():
    """What `--verify` says of two builds."""
    for title, found, status, told in (("the same", b"2", 0, "p.tar.gz: the same, sha256 "), ("other bytes", b"3", 1, "p.tar.gz: differs"),
                                       ("none", None, 1, "p.tar.gz: differs")):
        with tempfile.TemporaryDirectory() as name, contextlib.redirect_stdout(io.StringIO()) as said:
            for folder, data in (("old", b"2"), ("new", found)):
                Path(name, folder).mkdir()
                if data:
                    Path(name, folder, "p.tar.gz").write_bytes(data)
            ended = compare(Path(name, "old", "p.tar.gz"), Path(name, "new"))
        check("release --verify: %s" % title, ended == status and told in said.getvalue())


def check_machines():
    words = ("mov", "tzcnt", "pshufb", "popcntq", "verr", "vmovaps", "shlx", "lzcnt")
    check("release: what x86-64-v2 hasn't", [word for word in words if elf.is_beyond(word)] == ["vmovaps", "shlx", "lzcnt"])


def check_release():
    check_gate()
    check_archives()
    check_compare()
    check_machines()
    refused("release without words", RELEASE, b"", 2, "--unproved")
    for words in ("--unproved --gate x", "--gate x --program /bin/sh", "--unproved --library /", "--verify /no/such", "--verify /etc/passwd --unproved"):
        refused("release %s" % words, [*RELEASE, *words.split()], b"", 2, "--help")
    with tempfile.NamedTemporaryFile("w", suffix=".log") as log:
        log.write(LOG.replace("17 passed, 0", "17 passed, 1"))
        log.flush()
        refused("release after a gate that failed", [*RELEASE, "--gate", log.name], b"", 1, "17 passed, 1 failed")
