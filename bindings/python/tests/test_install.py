"""The package as pip installs it, used from another folder."""

import base64
import csv
import hashlib
import os
import shutil
import subprocess
import sys
import tempfile
import unittest
import zipfile
from pathlib import Path

import backend
from tests.reports import HERE, W1, joined

# Where bindings/library writes the shared library.
BUILT = HERE.parent.parent / "target" / "lib"

# What an installed package is asked: where it is, whether it reads, whether it checks.
ASKED = f"""
import stormhlaw
print(stormhlaw.__file__)
print(len(stormhlaw.read({joined(W1)!r}).segments))
try:
    stormhlaw.read(None)
except TypeError as error:
    print(error)
"""


class Installed(unittest.TestCase):
    def setUp(self):
        folder = tempfile.TemporaryDirectory()
        self.addCleanup(folder.cleanup)
        self.folder = Path(folder.name).resolve()

    def python(self, *words, **environment):
        """Runs Python in the temporary folder, where nothing leads to the package here."""
        kept = {name: value for name, value in os.environ.items() if name not in ("PYTHONPATH", "STORMHLAW_LIBRARY")}
        command = [sys.executable, *words]
        return subprocess.run(command, cwd=self.folder, env={**kept, **environment}, capture_output=True, text=True)

    def pip(self, *words, **environment):
        if self.python("-m", "pip", "--version").returncode != 0:
            self.skipTest("there is no pip")
        words = ["-m", "pip", "--no-cache-dir", "--disable-pip-version-check", *words]
        return self.python(*words, PIP_NO_INDEX="1", **environment)

    def works(self, target):
        """The package in that folder works."""
        done = self.python("-c", ASKED, PYTHONPATH=str(target))
        wanted = f"{target}/stormhlaw/__init__.py\n7\ndata: bytes, bytearray or memoryview wanted, not None\n"
        self.assertEqual((done.stdout, done.stderr), (wanted, ""))

    def test_pip(self):
        target = self.folder / "target"
        done = self.pip("install", "--target", str(target), str(HERE))
        self.assertEqual(done.returncode, 0, done.stderr)
        self.works(target)
        done = self.python("-m", "stormhlaw", "--version", PYTHONPATH=str(target))
        self.assertEqual(done.stdout, "stormhlaw 0.7.0\n")
        self.assertFalse((target / "bin").exists())

    def test_pip_without_the_library(self):
        done = self.pip("install", "--target", "target", str(HERE), STORMHLAW_LIB_DIR=str(self.folder))
        self.assertNotEqual(done.returncode, 0)
        self.assertIn(f"there is no {self.folder}/libstormhlaw.so: run bindings/library first\n", done.stderr)

    def test_wheel(self):
        name = backend.build_wheel(str(self.folder))
        self.assertRegex(name, r"^stormhlaw-0\.7\.0-py3-none-linux_\w+\.whl$")
        with zipfile.ZipFile(self.folder / name) as wheel:
            names = wheel.namelist()
            record = csv.reader(wheel.read("stormhlaw-0.7.0.dist-info/RECORD").decode().splitlines())
            for path, digest, size in record:
                self.assertIn(path, names)
                names.remove(path)
                if not path.endswith("/RECORD"):
                    data = wheel.read(path)
                    found = base64.urlsafe_b64encode(hashlib.sha256(data).digest()).decode().rstrip("=")
                    self.assertEqual((digest, size), (f"sha256={found}", str(len(data))))
            self.assertEqual(names, [])
            wheel.extractall(self.folder / "unpacked")
        self.works(self.folder / "unpacked")

    def test_the_same_wheel_again(self):
        wheels = []
        for part in ("one", "two"):
            (self.folder / part).mkdir()
            wheels.append((self.folder / part / backend.build_wheel(str(self.folder / part))).read_bytes())
        self.assertEqual(*wheels)

    def test_editable(self):
        name = backend.build_editable(str(self.folder))
        with zipfile.ZipFile(self.folder / name) as wheel:
            self.assertEqual(wheel.read("stormhlaw.pth").decode(), f"{HERE}\n")

    def test_no_source_distribution(self):
        with self.assertRaises(SystemExit) as caught:
            backend.build_sdist(str(self.folder))
        self.assertIn("there is no source distribution", str(caught.exception))


class Library(unittest.TestCase):
    """Where the shared library is looked for."""

    def told(self, library, cwd=HERE):
        command = [sys.executable, "-c", "import stormhlaw"]
        environment = {**os.environ, "STORMHLAW_LIBRARY": library, "PYTHONPATH": str(HERE)}
        done = subprocess.run(command, cwd=cwd, env=environment, capture_output=True, text=True)
        return done.returncode, done.stderr.splitlines()[-1:]

    def test_named(self):
        self.assertEqual(self.told(str(BUILT / "libstormhlaw.so")), (0, []))
        self.assertEqual(self.told("libstormhlaw.so", cwd=BUILT), (0, []))

    def test_missing(self):
        wanted = "ImportError: there is no /nowhere/lib.so, which STORMHLAW_LIBRARY names"
        self.assertEqual(self.told("/nowhere/lib.so"), (1, [wanted]))

    def test_nowhere(self):
        """A copy of the package without the library, outside the repository and in one that has not built it."""
        with tempfile.TemporaryDirectory() as folder:
            bindings = Path(folder).resolve() / "bindings" / "python"
            shutil.copytree(HERE / "stormhlaw", bindings / "stormhlaw")
            command = [sys.executable, "-c", "import stormhlaw"]
            for wanted in (
                f"ImportError: there is no {bindings}/stormhlaw/libstormhlaw.so",
                f"ImportError: there is no {Path(folder).resolve()}/target/lib/libstormhlaw.so: run bindings/library first",
            ):
                done = subprocess.run(command, cwd=bindings, capture_output=True, text=True)
                self.assertEqual((done.returncode, done.stderr.splitlines()[-1]), (1, wanted))
                (bindings / "pyproject.toml").touch()

    def test_no_library(self):
        status, errors = self.told(str(HERE / "pyproject.toml"))
        self.assertEqual(status, 1)
        self.assertRegex(errors[0], r"^ImportError: .*/pyproject\.toml cannot be used: ")


if __name__ == "__main__":
    unittest.main()
