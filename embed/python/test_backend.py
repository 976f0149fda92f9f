#!/usr/bin/env python3
"""What the build says if something is missing, and what it makes. tools/embed builds and installs the package."""
import os
import shutil
import subprocess
import sys
import tempfile
import unittest
from pathlib import Path

import backend

HERE = Path(__file__).resolve().parent


def run(*words, cwd=HERE, **env):
    done = subprocess.run([sys.executable, *map(str, words)], cwd=cwd, env={**os.environ, **env}, capture_output=True, text=True)
    return done.returncode, (done.stderr.strip().splitlines() or [""])[-1]


class Backend(unittest.TestCase):
    def setUp(self):
        folder = tempfile.TemporaryDirectory(suffix=" with a space")
        self.addCleanup(folder.cleanup)
        self.folder = Path(folder.name)

    def test_what_is_missing_is_named_in_a_sentence(self):
        (self.folder / "librookdresser.a").touch()
        without_headers = "import sysconfig, sys; sysconfig.get_path = lambda name: '/no/such'; import backend; backend.main([])"
        for said, words, env in (
                ("there is no librookdresser.a in /no/such: `sh tools/embed --unproved` builds it", ["backend.py"], {"ROOKDRESSER_LIB": "/no/such"}),
                ("there is no C compiler no_such_compiler", ["backend.py"], {"ROOKDRESSER_LIB": str(self.folder), "CC": "no_such_compiler"}),
                ("there is no /no/such/Python.h", ["-c", without_headers], {"ROOKDRESSER_LIB": str(self.folder)})):
            status, last = run(*words, **env)
            self.assertEqual((status, last[:len(said)]), (1, said))

    def test_a_package_that_isn_t_built_says_so(self):
        shutil.copytree(HERE / "rookdresser", self.folder / "rookdresser", ignore=shutil.ignore_patterns("*.so"))
        status, last = run("-c", "import rookdresser", cwd=self.folder, PYTHONPATH="")
        self.assertEqual((status, last.split(":")[0], "isn't built" in last), (1, "ImportError", True))

    def test_the_wheel_s_tag_and_files(self):
        self.assertEqual(backend.tag_of("any"), "cp310-abi3-any" if backend.IS_LIMITED else backend.tag_of("any"))
        names = [path.name for path in backend.modules()]
        self.assertTrue({"__init__.py", "_native.pyi", "py.typed"} <= set(names))
        self.assertFalse([name for name in names if name.endswith((".c", ".h", ".so"))])
        self.assertIn("Requires-Python: >=3.10", backend.metadata(backend.about(), "1.0").splitlines())
        self.assertEqual(backend.get_requires_for_build_wheel(), [])


if __name__ == "__main__":
    unittest.main()
