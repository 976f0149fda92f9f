"""Folders of links that pose as a kit."""
import os
import shutil
from pathlib import Path

import kit

# rt finds its kit by its own place, so links to these would lead it out of the folder.
COPIED = {Path("bin/rt"), Path("bin/rtlib.py")}


def link(made, own):
    """Makes a folder of links to the kit. The files that `own` names, by their paths in the kit, are left to the caller."""
    real, left = kit.folder(), {Path(name) for name in own}
    opened = {parent for path in left | COPIED for parent in path.parents}
    for folder in sorted(opened):
        (made / folder).mkdir(parents=True)
        for path in (real / folder).iterdir():
            name = path.relative_to(real)
            if name not in opened | left | COPIED:
                (made / name).symlink_to(path)
    for name in COPIED - left:
        shutil.copy(real / name, made / name)


def pose(made, texts):
    """Makes such a folder, with these texts for some of the kit's files. Returns the environment of somebody who has this kit."""
    link(made, texts)
    for name, text in texts.items():
        (made / name).write_text(text)
        shutil.copymode(kit.folder() / name, made / name)
    return {**os.environ, "PATH": "%s:%s" % (made / "bin", os.environ["PATH"])}


def with_rt_of(is_newer):
    """The text of a bin/rt that has the words of all conveniences, or of none."""
    text = (kit.folder() / "bin" / "rt").read_text()
    every = [words for one in kit.CONVENIENCES for words in (one.mark, *one.inside)]
    if is_newer:
        return text + "".join("# %s\n" % words for words in every)
    for words in every:
        text = text.replace(words, "")
    return text
