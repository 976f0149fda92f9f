"""What goes into each file of a release: entries by their names, from what was built and what git holds of the checkout."""
import re
import sys
from pathlib import Path

from archives import Entry
from page_links import moved, targets_of
from places import TOOLS, TOP, files
from trees import in_git

sys.path.append(str(TOP / "embed/python"))
import backend

OWN = Path(__file__).resolve().parent / "release_files"
PYTHON_TOOLS = ("hit_curve", "show_trace", "trace_convert", "trace_gen")
SHARE = "share/rookdresser/"
UNPROVED = b"This was built by tools/release --unproved: nothing of its program and libraries is proved or checked.\n"


def tracked(*paths):
    """The files below some paths that git holds, each with its name from the top."""
    found = set()
    for path in paths:
        names = {name for name in in_git(TOP, "ls-files", "-z", "--", path).split("\0") if name and (TOP / name).is_file()}
        if not names:
            raise OSError("git holds no file %s, which a release has" % path)
        found |= names
    return sorted(found)


def entry(name):
    path = TOP / name
    return Entry(path.read_bytes(), runs=bool(path.stat().st_mode & 0o100))


def parts_used(names):
    """Of tools/lib, what some tools import, and what that imports."""
    found, left = set(), [TOOLS / name for name in names]
    while left:
        for word in re.findall(r"^(?:from|import) (\w+)", left.pop().read_text(), re.M):
            path = TOOLS / "lib" / (word + ".py")
            if path.exists() and path not in found:
                found.add(path)
                left.append(path)
    return sorted("tools/lib/" + path.name for path in found)


def below(folder, names, cut=""):
    """The names that files of the checkout have in a folder of the archive: without the beginning of theirs."""
    return {name: folder + name.removeprefix(cut) for name in names}


def page(name, place, places):
    """A page of the checkout, whose links lead to what the archive has."""
    return Entry(moved((TOP / name).read_text(), name, place, places).encode())


def laid(places):
    """The files of the checkout that an archive has, by their names there."""
    return {place: page(name, place, places) if name.endswith(".md") else entry(name) for name, place in places.items()}


def examples_of_c():
    """The programs that the page on C names."""
    return ["embed/c/" + target for target in targets_of((TOP / "embed/c/README.md").read_text()) if target.endswith(".c")]


def pkg_config(text):
    """rookdresser.pc with folders for the header and the libraries."""
    text = text.replace("prefix=${pcfiledir}", "prefix=${pcfiledir}/../..").replace("-I${prefix}", "-I${prefix}/include")
    return Entry(text.replace("-L${prefix}", "-L${prefix}/lib").replace("rpath,${prefix}", "rpath,${prefix}/lib").encode())


def for_system(built):
    """The program, the libraries for C, the tools that need Python alone, and the pages."""
    library, soname = built.library, built.soname
    tools = ["tools/" + name for name in PYTHON_TOOLS]
    pages = tracked("README.md", "CHANGELOG.md", "CONTRIBUTING.md", "docs", "embed/*.md", *examples_of_c(), "traces",
                    "tools/README.md", "bench/README.md")
    places = below(SHARE, [*tools, *parts_used(PYTHON_TOOLS), *tracked("tools/lib/page", "tools/model"), *pages])
    entries = {
        "GUIDE.md": page("docs/GUIDE.md", "GUIDE.md", places),
        "bin/wt_replay": Entry(built.program.read_bytes(), runs=True),
        "lib/librookdresser.a": Entry((library / "librookdresser.a").read_bytes()),
        "lib/" + soname: Entry((library / soname).read_bytes(), runs=True),
        "lib/librookdresser.so": Entry(link=soname),
        "lib/pkgconfig/rookdresser.pc": pkg_config((library / "rookdresser.pc").read_text()),
        **{"include/" + header.name: Entry(header.read_bytes()) for header in files(library, "*.h")},
        "share/man/man1/wt_replay.1": entry("docs/wt_replay.1"),
        "share/bash-completion/completions/wt_replay": entry("tools/completions/wt_replay.bash"),
        "share/zsh/site-functions/_wt_replay": entry("tools/completions/_wt_replay"),
        "share/fish/vendor_completions.d/wt_replay.fish": entry("tools/completions/wt_replay.fish"),
        **{"bin/" + name: Entry(link="../%stools/%s" % (SHARE, name)) for name in PYTHON_TOOLS},
        **laid(places),
    }
    return entries if built.is_proved else {**entries, SHARE + "UNPROVED": Entry(UNPROVED)}


def for_python(built, glibc, version):
    """The wheel, by its name: the package with the native module in it."""
    files = {"rookdresser/" + path.name: path.read_bytes() for path in backend.modules()}
    files["rookdresser/_native" + backend.SUFFIX] = built.module.read_bytes()
    if not built.is_proved:
        files["rookdresser/UNPROVED"] = UNPROVED
    return dict([backend.wheel(files, version, backend.tag_of("manylinux_%s_x86_64" % glibc.replace(".", "_")))])


def for_language(built, language, folder):
    """A wrapper with the static library and the header in one of its folders, what all wrappers keep to, and what callbacks may do."""
    places = {**below("", tracked("embed/" + language), "embed/%s/" % language), "embed/CALLBACKS.md": "CALLBACKS.md", "embed/README.md": "WRAPPERS.md"}
    entries = {**laid(places), **{folder + name: Entry((built.library / name).read_bytes()) for name in ("librookdresser.a", "rookdresser.h")}}
    return entries if built.is_proved else {**entries, "UNPROVED": Entry(UNPROVED)}


def for_rust(built):
    return for_language(built, "rust", "lib/")


def for_go(built):
    """The library lies beside the sources, since `go mod vendor` takes along no other folder."""
    return {**for_language(built, "go", ""), "carried.go": Entry((OWN / "carried.go").read_bytes())}
