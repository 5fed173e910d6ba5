"""The types of the package, as `mypy --strict` sees them in the package and in a program that uses it. Without mypy it is left out."""

import os
import shutil
import subprocess
import tempfile
import unittest

HERE = os.path.dirname(os.path.abspath(__file__))


@unittest.skipIf(shutil.which("mypy") is None, "mypy isn't installed")
class Types(unittest.TestCase):
    def test_the_package_and_a_program_that_uses_it(self):
        with tempfile.TemporaryDirectory() as folder:
            for words in (["-p", "garterfossil"], [os.path.join("tests", "users_file.py")]):
                words = ["mypy", "--config-file", "pyproject.toml", "--strict", "--cache-dir", folder, *words]
                done = subprocess.run(words, cwd=os.path.dirname(HERE), stdout=subprocess.PIPE, text=True, check=False)
                self.assertEqual(done.returncode, 0, done.stdout)


if __name__ == "__main__":
    unittest.main()
