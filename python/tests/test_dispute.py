"""examples/dispute: each command of its page is run, and prints what the page has after it."""
import os
import re
import shlex
import shutil
import tempfile
import unittest

from .support import ROOT, needs_library, run

DISPUTE = ROOT / "examples" / "dispute"


def steps(text):
    """The commands of a page, each with the lines that stand after it."""
    return re.findall(r"^    \$ j1850 (.*)\n((?:    (?!\$).*\n)*)", text, re.M)


@needs_library
class Dispute(unittest.TestCase):
    def test_each_step(self):
        before = os.getcwd()
        with tempfile.TemporaryDirectory() as folder:
            shutil.copytree(DISPUTE, folder, dirs_exist_ok=True)
            os.chdir(folder)
            try:
                for command, printed in steps((DISPUTE / "README.md").read_text(encoding="utf-8")):
                    status, out, err = run(*shlex.split(command))
                    self.assertEqual((status, err), (0, ""), command)
                    self.assertEqual("".join(f"    {row}\n" for row in out.splitlines()), printed, command)
                with open("dispute.html", encoding="utf-8") as file:
                    self.assertIn("Round 1: dash got through with 08 FF 20 10 73", file.read())
                with open("replay.txt", encoding="utf-8") as replay:
                    self.assertEqual(replay.read(), (DISPUTE / "haulier-3.txt").read_text())
            finally:
                os.chdir(before)
