"""What tools/package-python of the repository builds. Where that isn't there, or setuptools and wheel aren't, it is left out."""

import glob
import importlib.util
import os
import re
import subprocess
import sys
import tarfile
import tempfile
import unittest
import zipfile

import garterfossil

PACKAGE = os.path.dirname(os.path.dirname(os.path.abspath(__file__)))
BUILDER = os.path.join(PACKAGE, "..", "..", "tools", "package-python")
CAN_BUILD = os.path.exists(BUILDER) and all(importlib.util.find_spec(name) for name in ("setuptools", "wheel"))


def files():
    """The files in the package's folder."""
    found = glob.glob(os.path.join(PACKAGE, "**", "*"), recursive=True)
    return {os.path.relpath(path, PACKAGE) for path in found if "__pycache__" not in path}


@unittest.skipUnless(CAN_BUILD, "setuptools and wheel aren't installed, or it isn't in the repository")
class Packages(unittest.TestCase):
    def test_a_wheel_and_a_source_distribution(self):
        before = files()
        with tempfile.TemporaryDirectory() as folder:
            words = [BUILDER, folder, sys.executable]
            done = subprocess.run(words, stdout=subprocess.PIPE, stderr=subprocess.STDOUT, text=True, check=False)
            self.assertEqual(done.returncode, 0, done.stdout)
            self.assertEqual(files(), before)
            name = f"{folder}/garterfossil-{garterfossil.__version__}"
            self.see_wheel(f"{name}-py3-none-any.whl", f"{folder}/installed")
            with tarfile.open(f"{name}.tar.gz") as it:
                self.see_names([re.sub("^[^/]*/", "", found) for found in it.getnames()], ["tests/__init__.py", "README.md"])

    def see_wheel(self, path, folder):
        with zipfile.ZipFile(path) as it:
            self.see_names([re.sub("^.*dist-info/", "", found) for found in it.namelist()], ["METADATA"])
            it.extractall(folder)
        words = [sys.executable, "-m", "garterfossil", "--version"]
        said = subprocess.run(words, cwd=folder, stdout=subprocess.PIPE, text=True, check=False).stdout
        self.assertEqual(said, f"garterfossil {garterfossil.__version__}\n")

    def see_names(self, names, more):
        """Sees that these are the names of all modules, of the licences, and of more."""
        wanted = [name for name in files() if name.startswith("garterfossil/") and name.endswith((".py", "py.typed"))]
        self.assertEqual(set(), {*wanted, "LICENSE-APACHE", "LICENSE-MIT", *more} - set(names))


if __name__ == "__main__":
    unittest.main()
