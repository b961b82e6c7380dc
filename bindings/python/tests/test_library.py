"""Where the shared object is looked for."""

import os
import shutil
import subprocess
import sys
import tempfile
import unittest
from pathlib import Path

import sindhopul

PACKAGE = Path(sindhopul.__file__).parent
LIBRARY = Path(os.environ["SINDHOPUL_LIBRARY"]).resolve()

PROGRAM = "import sindhopul; print(sindhopul.Series.read('OW20L262400').price)"


class Library(unittest.TestCase):
    def setUp(self) -> None:
        folder = tempfile.TemporaryDirectory()
        self.addCleanup(folder.cleanup)
        self.folder = Path(folder.name)
        # Without a library that may have been put beside the package.
        ignored = shutil.ignore_patterns("*.so")
        shutil.copytree(PACKAGE, self.folder / "sindhopul", ignore=ignored)

    def run_program(self, **variables: str) -> subprocess.CompletedProcess:
        inherited = {
            name: value
            for name, value in os.environ.items()
            if name not in ("SINDHOPUL_LIBRARY", "LD_LIBRARY_PATH")
        }
        return subprocess.run(
            [sys.executable, "-c", PROGRAM],
            env={**inherited, "PYTHONPATH": str(self.folder), **variables},
            capture_output=True,
            text=True,
        )

    def test_named(self) -> None:
        self.assertEqual(self.run_program(SINDHOPUL_LIBRARY=str(LIBRARY)).stdout, "2400\n")

    def test_beside_the_package(self) -> None:
        shutil.copy(LIBRARY, self.folder / "sindhopul" / "libsindhopul.so")
        self.assertEqual(self.run_program().stdout, "2400\n")

    def test_installed(self) -> None:
        shutil.copy(LIBRARY, self.folder / "libsindhopul.so.1")
        program = self.run_program(LD_LIBRARY_PATH=str(self.folder))
        self.assertEqual(program.stdout, "2400\n")

    def test_missing(self) -> None:
        program = self.run_program(SINDHOPUL_LIBRARY=str(self.folder / "none.so"))
        self.assertEqual(program.returncode, 1)
        self.assertIn("ImportError", program.stderr)
        self.assertIn("SINDHOPUL_LIBRARY", program.stderr)


if __name__ == "__main__":
    unittest.main()
