"""What the tests of the tools share."""
import os
import shutil
import signal
import subprocess
import sys
import tempfile
import time
import unittest

sys.dont_write_bytecode = True
TOOLS = os.path.dirname(os.path.dirname(os.path.realpath(__file__)))
TOP = os.path.dirname(TOOLS)
EXAMPLES = os.path.join(TOP, "examples")
sys.path.insert(0, TOOLS)

MARK = "UC_TOOLS_TEST"
SECONDS = 300


def uc():
    """Returns the program that the tests run: the one of the variable UC, else the one that was built here, or None."""
    named = os.environ.get("UC")
    if named:
        return named
    built = os.path.join(TOP, "crates", "uc_main", "out", "uc_main")
    return built if os.access(built, os.X_OK) else None


needs_uc = unittest.skipUnless(uc(), "uc isn't built, and the variable UC doesn't name it")


def needs(tool):
    """Skips a test where a program isn't installed."""
    return unittest.skipUnless(shutil.which(tool), f"{tool} isn't installed")


def ended(words, **more):
    """Runs a command to its end, with what it prints as bytes."""
    more.setdefault("stdout", subprocess.PIPE)
    more.setdefault("timeout", SECONDS)
    return subprocess.run([os.fspath(word) for word in words], stderr=subprocess.PIPE, stdin=subprocess.DEVNULL, check=False, **more)


def started(words, **more):
    """Starts a command with pipes for what it prints, and with no signal ignored, whatever the tests themselves ignore (`nohup`)."""

    def listen():
        for number in (signal.SIGHUP, signal.SIGINT, signal.SIGTERM):
            signal.signal(number, signal.SIG_DFL)

    pipes = {"stdin": subprocess.DEVNULL, "stdout": subprocess.PIPE, "stderr": subprocess.PIPE}
    return subprocess.Popen([os.fspath(word) for word in words], preexec_fn=listen, **pipes, **more)


def tool(name):
    """Returns the path of a tool."""
    return os.path.join(TOOLS, name)


def alive(mark):
    """Returns the processes whose environment has the mark, those that have ended but not been waited for left out."""
    found = []
    for name in os.listdir("/proc"):
        if not name.isdigit() or int(name) == os.getpid():
            continue
        try:
            with open(f"/proc/{name}/environ", "rb") as file:
                if f"{MARK}={mark}".encode() not in file.read().split(b"\0"):
                    continue
            with open(f"/proc/{name}/stat", "rb") as file:
                if file.read().rpartition(b")")[2].split()[0] != b"Z":
                    found.append(int(name))
        except OSError:
            continue
    return found


class Case(unittest.TestCase):
    """A test with a folder of its own, and a mark by which its processes are known."""

    def setUp(self):
        self.folder = tempfile.mkdtemp(prefix="uc-tools-")
        self.addCleanup(shutil.rmtree, self.folder, ignore_errors=True)
        self.mark = os.path.basename(self.folder)
        self.addCleanup(self.end_what_is_left)
        self.environment = {**os.environ, MARK: self.mark, "PATH": os.environ["PATH"]}

    def end_what_is_left(self):
        """Ends the processes that a test that failed has left."""
        for pid in alive(self.mark):
            try:
                os.kill(pid, signal.SIGKILL)
            except ProcessLookupError:
                pass

    def path(self, name):
        """Returns a path in the test's folder."""
        return os.path.join(self.folder, name)

    def write(self, name, text, mode=0o644):
        """Writes a file in the test's folder."""
        path = self.path(name)
        with open(path, "w", encoding="utf-8") as file:
            file.write(text)
        os.chmod(path, mode)
        return path

    def fake(self, prove, check="echo accepted", show=None):
        """Makes a stand-in for uc out of three lines of shell."""
        shown = show or "echo 'cnf(a, axiom, f(a) = b).'; echo 'cnf(g, negated_conjecture, f(a) != b).'"
        return self.write("fake-uc", f"#!/bin/sh\ncase $1 in\nshow) {shown} ;;\nprove) {prove} ;;\ncheck) {check} ;;\nesac\n", 0o755)

    def run_tool(self, name, *words, **more):
        """Runs a tool with the mark in its environment."""
        return ended([tool(name), *words], env=self.environment, **more)

    def says(self, done, status, *pieces):
        """Expects a status and, where it isn't an answer, one line on standard error with these pieces."""
        told = done.stderr.decode("utf-8", "replace")
        self.assertEqual(done.returncode, status, told)
        for piece in pieces:
            self.assertIn(piece, told)
        if pieces:
            self.assertEqual(len(told.splitlines()), 1, told)

    def expect_none_left(self, seconds=5):
        """Expects that all processes of the test end within so many seconds."""
        until = time.monotonic() + seconds
        while alive(self.mark):
            if time.monotonic() > until:
                self.fail(f"processes are left: {alive(self.mark)}")
            time.sleep(0.02)
