"""The tools are put where they are wanted, work there, and are taken away again."""

import pathlib
import subprocess
import sys
import tempfile
import unittest

from helpers import TOOLS


def make(target, root):
    return subprocess.run(
        ["make", "-s", target, f"DESTDIR={root}", "PREFIX=/opt/sag", f"PYTHON={sys.executable}"],
        cwd=TOOLS.parent,
        capture_output=True,
        text=True,
        check=False,
    )


class Install(unittest.TestCase):
    def test_there_and_back(self):
        with tempfile.TemporaryDirectory() as root:
            self.assertEqual((make("install-tools", root).stderr, make("install-tools", root).returncode), ("", 0))
            for name in ("sag-plot", "sag-experiment"):
                done = subprocess.run(
                    [pathlib.Path(root) / "opt/sag/bin" / name, "--help"], capture_output=True, text=True, check=False
                )
                self.assertEqual((done.returncode, done.stderr, done.stdout[:7]), (0, "", "usage: "))
            self.assertEqual(make("uninstall-tools", root).returncode, 0)
            self.assertEqual([path for path in pathlib.Path(root).rglob("*") if path.is_file()], [])


if __name__ == "__main__":
    unittest.main()
