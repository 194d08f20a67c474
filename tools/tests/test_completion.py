"""The completion in bash: what is offered behind some words."""

import os
import pathlib
import re
import shlex
import shutil
import subprocess
import tempfile
import unittest

from helpers import TOOLS
from sagtools import experiment, plot

USAGE = (
    "usage: sag analyse JOBS [--prec FILE] [--cores N] [--budget N]\n"
    "       sag report JOBS CERT [--prec FILE] [--cores N] [--tasks]\n"
    "       sag attain JOBS TASK JOB best|worst [--budget N]\n       sag unroll TASKS HORIZON POLICY\n"
)
FUNCTIONS = {"sag": "_sag", "sag-plot": "_sag_plot", "sag-experiment": "_sag_experiment"}


@unittest.skipUnless(shutil.which("bash"), "bash")
class Completion(unittest.TestCase):
    def offers(self, *words):
        """What is offered for the last of the words, in a folder with the files jobs.csv and cert.txt."""
        with tempfile.TemporaryDirectory() as name:
            for file in ("jobs.csv", "cert.txt"):
                (pathlib.Path(name) / file).touch()
            sag = pathlib.Path(name) / "bin" / "sag"
            sag.parent.mkdir()
            sag.write_text(f"#!/bin/sh\nprintf %s {shlex.quote(USAGE)} >&2\nexit 2\n")
            sag.chmod(0o755)
            script = (
                f"source {shlex.quote(str(TOOLS / 'sag.bash'))}; COMP_WORDS=({shlex.join(words)}); "
                f"COMP_CWORD={len(words) - 1}; {FUNCTIONS[words[0]]}; printf '%s\\n' \"${{COMPREPLY[@]}}\""
            )
            done = subprocess.run(
                ["bash", "-c", script],
                cwd=name,
                capture_output=True,
                text=True,
                check=False,
                env=dict(os.environ, PATH=f"{sag.parent}:{os.environ['PATH']}"),
            )
            self.assertEqual(done.stderr, "")
            return sorted(set(done.stdout.split()) - {"bin"})

    def test_sag(self):
        rows = [
            (("sag", ""), ["analyse", "attain", "report", "unroll"]),
            (("sag", "a"), ["analyse", "attain"]),
            (("sag", "report", "jobs.csv", "--"), ["--cores", "--prec", "--tasks"]),
            (("sag", "analyse", ""), ["cert.txt", "jobs.csv"]),
            (("sag", "analyse", "j"), ["jobs.csv"]),
            (("sag", "analyse", "jobs.csv", "--cores", ""), []),
            (("sag", "analyse", "--prec", ""), ["cert.txt", "jobs.csv"]),
            (("sag", "attain", "jobs.csv", "1", "2", ""), ["best", "worst"]),
            (("sag", "unroll", "t.csv", ""), []),
            (("sag", "unroll", "t.csv", "100", ""), ["deadline", "edf", "rate"]),
        ]
        self.assertEqual([(words, self.offers(*words)) for words, _ in rows], rows)

    def test_tools(self):
        rows = [
            (("sag-plot", "s"), ["schedule"]),
            (("sag-plot", "levels", "--f"), ["--format", "--from"]),
            (("sag-plot", "bounds", "--format", ""), ["png", "svg"]),
            (("sag-plot", "page", "c"), ["cert.txt"]),
            (("sag-experiment", "make", "a", "--periods", ""), ["automotive"]),
        ]
        self.assertEqual([(words, self.offers(*words)) for words, _ in rows], rows)

    def test_nothing_is_left_out(self):
        for name, parser in (("sag-plot", plot.parser_of_words()), ("sag-experiment", experiment.parser_of_words())):
            commands = parser._subparsers._group_actions[0].choices  # argparse has no public way to ask
            self.assertEqual(self.offers(name, ""), sorted(commands))
            for command, below in commands.items():
                options = set(re.findall(r"--?[a-z-]+", " ".join(below._option_string_actions))) - {"-h"}
                self.assertEqual(self.offers(name, command, "-"), sorted(options))


if __name__ == "__main__":
    unittest.main()
