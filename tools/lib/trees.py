"""Copies of the repository: a clone, some crates with those below them, and a tree of links in which some files differ."""
import shutil
import subprocess

from crates_txt import with_below
from places import CRATES, TOOLS, TOP


def in_git(top, *words):
    """What git prints. Raises OSError with git's last line if it fails."""
    done = subprocess.run(["git", *map(str, words)], cwd=top, stdout=subprocess.PIPE, stderr=subprocess.PIPE, text=True, errors="surrogateescape")
    if done.returncode:
        raise OSError("git %s failed: %s" % (words[0], (done.stderr.strip().split("\n") or [""])[-1]))
    return done.stdout


def clone(target, commit=None):
    """Clones the repository into a folder, at a commit if one is named."""
    target.parent.mkdir(parents=True, exist_ok=True)
    in_git(TOP, "clone", "-q", "--no-hardlinks", TOP, target)
    if commit:
        in_git(target, "checkout", "-q", commit)
    return target


def fresh_copy(target):
    """A clone with what isn't committed yet, as a commit of its own. Files that git ignores aren't in it."""
    clone(target)
    changed = in_git(TOP, "diff", "--name-only", "--no-renames", "-z", "HEAD") + in_git(TOP, "ls-files", "-z", "--others", "--exclude-standard")
    for name in filter(None, changed.split("\0")):
        place = target / name
        if (TOP / name).is_file():
            place.parent.mkdir(parents=True, exist_ok=True)
            shutil.copy2(TOP / name, place, follow_symlinks=False)
        else:
            place.unlink(missing_ok=True)
    if changed:
        in_git(target, "add", "-A")
        in_git(target, "-c", "user.name=tools", "-c", "user.email=tools", "commit", "-q", "-m", "changes that aren't committed yet")
    return target


def copy_crates(folder, names, *more, built=False):
    """Copies the crates of these names and those below into a folder's crates/, with HANDLES and their lines of crates.txt, and with lines for
    further crates. What is built of them comes along if it is asked for."""
    found = with_below(names)
    for name in found:
        # What stands behind a link is copied too, so that whoever changes the copy changes nothing else; what is built has links of its own.
        shutil.copytree(CRATES / name, folder / "crates" / name, symlinks=built, ignore=None if built else shutil.ignore_patterns("out"))
    (folder / "crates.txt").write_text("".join(line + "\n" for line in [*found.values(), *more]))
    shutil.copy(TOP / "HANDLES", folder)
    return list(found)


def own_folder(path):
    """Makes a folder of links in the place of a link to a folder, without what is built there."""
    target = path.resolve()
    path.unlink()
    path.mkdir()
    for child in target.iterdir():
        if child.name != "out":
            (path / child.name).symlink_to(child)


def linked(top, changes):
    """A tree of links to this one in which nothing is built; the tools are copied, since they find their top by their own place. `changes` has
    for the name of a file what makes its text of the one that is there."""
    top.mkdir(parents=True, exist_ok=True)
    for child in TOP.iterdir():
        if child.name not in (".git", "out", "tools"):
            (top / child.name).symlink_to(child)
    own_folder(top / "crates")
    for crate in [path for path in (top / "crates").iterdir() if path.is_dir()]:
        own_folder(crate)
    shutil.copytree(TOOLS, top / "tools", ignore=shutil.ignore_patterns("__pycache__"))
    for name, change in changes.items():
        path = top / name
        for folder in [*reversed(path.relative_to(top).parents)][1:]:
            if (top / folder).is_symlink():
                own_folder(top / folder)
        text = change(path.read_text())
        path.unlink()
        path.write_text(text)
    return top
