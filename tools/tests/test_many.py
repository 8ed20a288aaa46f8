"""The programs of docs/MANY.md print what stands under them."""
import os
import re
import sys
import unittest

from common import TOP, Case, ended, needs_uc, uc

BLOCKS = re.compile(r"^```(sh|python)\n(.*?)^```\n+^```text\n(.*?)^```$", re.M | re.S)


def blocks():
    """Returns each program of the page: its language, its text, and what it is to print."""
    with open(os.path.join(TOP, "docs", "MANY.md"), encoding="utf-8") as file:
        return BLOCKS.findall(file.read())


@needs_uc
class Callers(Case):
    """Each program, run at the top of the repository with uc on PATH."""

    def run_blocks(self, language, number):
        found = [block[1:] for block in blocks() if block[0] == language]
        self.assertEqual(len(found), number)
        os.symlink(os.path.abspath(uc()), self.path("uc"))
        environment = {**self.environment, "PATH": self.folder + os.pathsep + os.environ["PATH"]}
        for text, wanted in found:
            words = ["bash", "-c", text] if language == "sh" else [sys.executable, "-c", text]
            done = ended(words, cwd=TOP, env=environment)
            self.assertEqual(done.stderr.decode(), "")
            self.assertEqual((done.returncode, done.stdout.decode()), (0, wanted))

    def test_shell(self):
        self.run_blocks("sh", 2)

    def test_python(self):
        self.run_blocks("python", 1)


if __name__ == "__main__":
    unittest.main()
