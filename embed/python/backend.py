#!/usr/bin/env python3
"""Builds the native module by a C compiler, and the wheel around it: what pip calls to build the package. It needs nothing else.

    python3 backend.py              builds the module into rookdresser/, so that the package can be imported from this folder
    python3 backend.py --refuses    the same with refusal.c, for test_memory.py and test_window.py

librookdresser.a comes from the folder that ROOKDRESSER_LIB names, or else from the checkout's out/embed or out/embed-unproved.
One module serves every CPython from 3.10 on. CC and CFLAGS are followed.
"""
import base64
import hashlib
import io
import os
import re
import shlex
import shutil
import subprocess
import sys
import sysconfig
import tempfile
import zipfile
from pathlib import Path

HERE = Path(__file__).resolve().parent
PACKAGE = HERE / "rookdresser"
# A build without the interpreter's lock has no limited API yet, and by that of a debug build no references are counted.
IS_LIMITED = not sysconfig.get_config_var("Py_GIL_DISABLED") and not sysconfig.get_config_var("Py_DEBUG")
SUFFIX = ".abi3.so" if IS_LIMITED else sysconfig.get_config_var("EXT_SUFFIX")
# PyWeakref_GetObject is deprecated from 3.13 on, but what stands in its place isn't in the limited API of 3.10.
FLAGS = ["-std=gnu11", "-O2", "-fPIC", "-shared", "-fvisibility=hidden", "-Wall", "-Wextra", "-Werror", "-Wno-deprecated-declarations"]
LINKED = ["-Wl,--exclude-libs,ALL"]
REFUSES = ["-Wl,--wrap=malloc,--wrap=realloc,--wrap=free"]


def library():
    """Returns the folder of librookdresser.a; ends with a sentence if there is none."""
    named = os.environ.get("ROOKDRESSER_LIB")
    folders = [Path(named)] if named else [HERE.parent.parent / "out" / name for name in ("embed", "embed-unproved")]
    for folder in folders:
        if (folder / "librookdresser.a").exists():
            return folder.resolve()
    raise SystemExit("there is no librookdresser.a in %s: `sh tools/embed --unproved` builds it in a minute or two without any proof, and"
                     " `sh tools/embed` proves it first, in most of an hour; or ROOKDRESSER_LIB names its folder" % " or ".join(map(str, folders)))


def compiler():
    """Returns the C compiler's command; ends with a sentence if there is none, or no header of Python."""
    words = shlex.split(os.environ.get("CC") or "cc")
    if not shutil.which(words[0]):
        raise SystemExit("there is no C compiler %s, which the native module needs" % words[0])
    if not Path(sysconfig.get_path("include"), "Python.h").exists():
        raise SystemExit("there is no %s/Python.h, which the native module needs: install Python's headers, as Debian's python3-dev"
                         % sysconfig.get_path("include"))
    return words


def compile_module(made, folder, refuses=False):
    """Builds the module over the library of a folder into the file `made`."""
    sources = [*sorted((PACKAGE / "native").glob("*.c")), *[HERE / "refusal.c"] * refuses]
    included = ["-I%s" % sysconfig.get_path("include"), "-I%s" % folder]
    given = [*FLAGS, *["-DPy_LIMITED_API=0x030A0000"] * IS_LIMITED, *shlex.split(os.environ.get("CFLAGS", "")), *included]
    linked = [str(folder / "librookdresser.a"), *LINKED, *REFUSES * refuses]
    subprocess.run([*compiler(), *given, *map(str, sources), *linked, "-o", str(made)], check=True)


def about():
    """Returns what pyproject.toml says of the package, by name."""
    return dict(re.findall(r'^([\w-]+) = "(.*)"$', (HERE / "pyproject.toml").read_text(), re.M))


def metadata(said, version):
    """Returns what a wheel tells of itself in METADATA."""
    head = ("Metadata-Version: 2.1", "Name: rookdresser", "Version: " + version, "Summary: " + said["description"],
            "Requires-Python: " + said["requires-python"], "Description-Content-Type: text/markdown", "")
    return "\n".join([*head, without_files((HERE / "README.md").read_text())])


def without_files(page):
    """Returns a page whose links to files are text: beside METADATA there is none of them."""
    return re.sub(r"\[([^]]*)\]\((?!#|https:)[^()\s]*\)", r"\1", page)


def tag_of(platform):
    """Returns the tag of a wheel that is built by this Python."""
    version = "cp%d%d" % sys.version_info[:2]
    return "cp310-abi3-%s" % platform if IS_LIMITED else "%s-%s%s-%s" % (version, version, sys.abiflags, platform)


def modules():
    """Returns the package's files of Python, without the native part's sources."""
    return [path for path in sorted(PACKAGE.glob("*")) if path.suffix in (".py", ".pyi") or path.name == "py.typed"]


def wheel(files, version, tag):
    """Returns the name and the bytes of a wheel of these files, by name: the same bytes for the same files."""
    info = "rookdresser-%s.dist-info/" % version
    head = "Wheel-Version: 1.0\nGenerator: rookdresser\nRoot-Is-Purelib: false\nTag: %s\n" % tag
    files = {**files, info + "METADATA": metadata(about(), version).encode(), info + "WHEEL": head.encode()}
    rows = ["%s,sha256=%s,%d" % (name, base64.urlsafe_b64encode(hashlib.sha256(data).digest()).rstrip(b"=").decode(), len(data))
            for name, data in files.items()]
    files[info + "RECORD"] = "\n".join([*rows, info + "RECORD,,", ""]).encode()
    out = io.BytesIO()
    with zipfile.ZipFile(out, "w") as archive:
        for name, data in files.items():
            # With the date of 1980 that an item has by default.
            item = zipfile.ZipInfo(name)
            item.compress_type, item.external_attr = zipfile.ZIP_DEFLATED, 0o100644 << 16
            archive.writestr(item, data)
    return "rookdresser-%s-%s.whl" % (version, tag), out.getvalue()


def _write(folder, files):
    """Writes a wheel of these files, by name, into a folder. Returns its name."""
    name, data = wheel(files, about()["version"], tag_of(sysconfig.get_platform().replace("-", "_").replace(".", "_")))
    Path(folder, name).write_bytes(data)
    return name


# What pip calls.

def get_requires_for_build_wheel(config_settings=None):
    """Returns that nothing has to be installed for a build."""
    return []


get_requires_for_build_editable = get_requires_for_build_wheel


def build_wheel(wheel_directory, config_settings=None, metadata_directory=None):
    """Builds the wheel, and returns its name."""
    folder = library()
    with tempfile.TemporaryDirectory() as name:
        made = Path(name, "made")
        compile_module(made, folder)
        files = {"rookdresser/" + path.name: path.read_bytes() for path in modules()}
        files["rookdresser/_native" + SUFFIX] = made.read_bytes()
    unproved = folder / "UNPROVED"
    return _write(wheel_directory, {**files, **({"rookdresser/UNPROVED": unproved.read_bytes()} if unproved.exists() else {})})


def build_editable(wheel_directory, config_settings=None, metadata_directory=None):
    """Builds the module in this folder, and a wheel that names the folder, for `pip install -e`."""
    compile_module(PACKAGE / ("_native" + SUFFIX), library())
    return _write(wheel_directory, {"rookdresser.pth": ("%s\n" % HERE).encode()})


def build_sdist(sdist_directory, config_settings=None):
    """Refuses: the sources are a release's archive of sources, as the library is built from them, too."""
    raise NotImplementedError("the sources come as rookdresser-VERSION-sources.tar.gz; build a wheel")


def main(words):
    if words not in ([], ["--refuses"]):
        raise SystemExit(__doc__)
    compile_module(PACKAGE / ("_native" + SUFFIX), library(), bool(words))


if __name__ == "__main__":
    main(sys.argv[1:])
