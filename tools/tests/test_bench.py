"""Tests of uc-bench: tables, limits, going on after a stop, several machines, and faults."""
import json
import os
import random
import shutil
import signal
import sys
import time
import xml.etree.ElementTree as tree

from common import EXAMPLES, Case, alive, ended, needs, needs_uc, started, tool, uc

SSH = """#!/bin/bash
# Takes the place of ssh: every host is this machine, and its name is noted. As sshd does, it names the shell of the session.
export SHELL=/bin/bash
while [[ $1 == -* ]]; do case $1 in -[olpiS]) shift 2 ;; *) shift ;; esac; done
host=$1
echo "$host" >> "$(dirname "$0")/hosts"
shift
[ "$1" = -- ] && shift
exec bash -c "$*"
"""


class BenchCase(Case):
    """A folder of problems, and a stand-in for uc that notes what it is asked."""

    def problems(self, *names, status="Unsatisfiable", folder="problems"):
        os.makedirs(self.path(folder), exist_ok=True)
        for name in names:
            self.write(os.path.join(folder, name), f"% Status: {status}\n% Options: --order lpo\n\ncnf(a, axiom, a = b).\n")
        return self.path(folder)

    def answering(self, word="Unsatisfiable", code=0, wait="0"):
        log = self.path("log")
        prove = f"echo \"start $*\" >> '{log}'; sleep {wait}; echo \"end $*\" >> '{log}'; echo '% SZS status {word} for x'; exit {code}"
        return self.fake(prove)

    def bench(self, *words, **more):
        return self.run_tool("uc-bench", *words, **more)

    def rows(self, folder="out"):
        with open(self.path(os.path.join(folder, "results.jsonl")), encoding="utf-8") as file:
            return [json.loads(line) for line in file][1:]

    def log(self):
        try:
            with open(self.path("log"), encoding="utf-8") as file:
                return file.read().splitlines()
        except FileNotFoundError:
            return []

    def table(self, folder="out"):
        with open(self.path(os.path.join(folder, "table.md")), encoding="utf-8") as file:
            return file.read()


class Tables(BenchCase):
    """What is written where all goes well, and what is told of contradictions."""

    def test_table_and_drawing(self):
        folder = self.problems("a.p", "b.p")
        done = self.bench("--uc", self.answering(), "--provers", "uc,uc-header", "-o", self.path("out"), folder)
        self.says(done, 0)
        self.assertIn("| decided | of 2 | 2 | 2 |", self.table())
        self.assertIn("uc decides 0 that uc-header doesn't", done.stdout.decode())
        self.assertEqual(sum("--order lpo" in line for line in self.log()), 4)
        drawing = tree.parse(self.path("out/cactus.svg")).getroot()
        self.assertTrue(drawing.tag.endswith("svg"))
        self.assertIn("uc: 2", "".join(drawing.itertext()))

    def test_a_status_that_contradicts_the_header(self):
        folder = self.problems("a.p", status="Satisfiable")
        done = self.bench("--uc", self.answering(), "--provers", "uc", "-o", self.path("out"), folder)
        self.says(done, 1)
        self.assertIn("Contradiction: a.p: the header says Satisfiable, uc says Unsatisfiable", done.stdout.decode())
        self.assertIn("Contradiction: a.p", self.table())

    def test_the_words_for_a_conjecture(self):
        for stated, word, code, status in (("Theorem", "Theorem", 0, "Unsatisfiable"), ("Satisfiable", "CounterSatisfiable", 1, "Satisfiable")):
            folder = self.problems("a.p", status=stated, folder=word)
            done = self.bench("--uc", self.answering(word, code), "--provers", "uc", "-o", self.path("out" + word), folder)
            self.says(done, 0)
            self.assertEqual([row["status"] for row in self.rows("out" + word)], [status])

    def test_a_proof_that_is_not_accepted(self):
        folder = self.problems("a.p")
        prove = "echo '% SZS status Unsatisfiable for x'; echo '% SZS output start CNFRefutation for x'"
        done = self.bench("--uc", self.fake(prove, check="exit 1"), "--provers", "uc", "-o", self.path("out"), folder)
        self.says(done, 1)
        self.assertIn("uc check doesn't accept the proof of uc", done.stdout.decode())

    def test_headers_of_the_library(self):
        from uctools import jobs

        path = self.write("t.p", "% File : X\n% Status   : Theorem\n% Options:\n")
        self.assertEqual(jobs.header_of(path), ("Theorem", []))
        self.assertEqual(jobs.plain("Theorem"), "Unsatisfiable")
        self.assertEqual(jobs.header_of(self.write("n.p", "cnf(a, axiom, a = b).\n")), (None, []))

    @needs_uc
    def test_real_problems(self):
        os.mkdir(self.path("few"))
        for name in ("group-right-identity.p", "monoid-different-words.p"):
            os.symlink(os.path.join(EXAMPLES, name), self.path("few/" + name))
        done = self.bench("--uc", uc(), "--provers", "uc,uc-portfolio", "--memory", "20000", "-o", self.path("out"), self.path("few"))
        self.says(done, 0)
        self.assertEqual({row["status"] for row in self.rows()}, {"Unsatisfiable", "Satisfiable"})
        self.assertIn("| decided | of 2 | 2 | 2 |", self.table())

    @needs_uc
    def test_harder_problems(self):
        """Each of the harder problems states a status and its source, is read by uc, and its options are an order."""
        from uctools import jobs

        folder = os.path.join(EXAMPLES, "harder")
        names = [name for name in os.listdir(folder) if name.endswith(".p")]
        self.assertGreaterEqual(len(names), 20)
        for name in names:
            path = os.path.join(folder, name)
            stated, options = jobs.header_of(path)
            self.assertIn(stated, jobs.DECIDED, name)
            with open(path, encoding="utf-8") as file:
                self.assertIn("\n% Source: ", file.read(), name)
            self.assertEqual(ended([uc(), "order", *options, path]).returncode, 0, name)

    @needs("eprover")
    def test_eprover(self):
        path = self.problems("it's a.p", folder="-one")
        self.write("-one/it's a.p", "% Status: Unsatisfiable\ncnf(a, axiom, f(X) = X).\ncnf(g, negated_conjecture, f(f(a)) != a).\n")
        done = self.bench("--uc", self.answering(), "--provers", "eprover", "-o", "out", "--", "-one", cwd=self.folder)
        self.says(done, 0)
        self.assertEqual(self.rows()[0]["status"], "Unsatisfiable", path)


class Limits(BenchCase):
    """Runs that need too much."""

    def test_processor_time(self):
        done = self.bench("--uc", self.fake("while :; do :; done"), "--cpu", "1", "--provers", "uc", "-o", self.path("out"), self.problems("a.p"))
        self.says(done, 0)
        row = self.rows()[0]
        self.assertEqual(row["status"], "Timeout")
        self.assertTrue(0.5 <= row["cpu"] <= 3, row)

    def test_memory(self):
        greedy = f"exec {sys.executable} -c 'x = bytearray(1 << 30)'"
        done = self.bench("--uc", self.fake(greedy), "--memory", "300", "--provers", "uc", "-o", self.path("out"), self.problems("a.p"))
        self.says(done, 0)
        self.assertEqual((self.rows()[0]["status"], self.rows()[0]["exit"]), (None, 1))
        self.assertLess(self.rows()[0]["memory"], 300 << 20)


class Stops(BenchCase):
    """That nothing is lost and nothing is run twice."""

    def finish(self, words, turns, chance, signals):
        """Runs a command again and again, ending it at random moments, till it ends by itself."""
        for turn in range(turns):
            done = started(words, env=self.environment)
            time.sleep(0.2 + chance.random() * 0.8)
            done.send_signal(signals[turn % len(signals)])
            done.communicate(timeout=30)
            self.expect_none_left()
            for row in self.whole_rows():
                key = (row["problem"], row["prover"])
                self.frozen.setdefault(key, self.starts()[key])
        return ended(words, env=self.environment)

    def whole_rows(self):
        try:
            with open(self.path("out/results.jsonl"), encoding="utf-8") as file:
                return [json.loads(line) for line in file if line.endswith("\n")][1:]
        except FileNotFoundError:
            return []

    def starts(self):
        count = {}
        for line in self.log():
            if line.startswith("start "):
                key = (os.path.basename(line.split("-- ")[1]), "uc-header" if "lpo" in line else "uc")
                count[key] = count.get(key, 0) + 1
        return count

    def stop_and_go(self, *more):
        self.frozen = {}
        names = [f"{number}.p" for number in range(8)]
        folder = self.problems(*names)
        words = [tool("uc-bench"), "--uc", self.answering(wait="0.1"), "--provers", "uc,uc-header", "-o", self.path("out"), *more, folder]
        done = self.finish(words, 6, random.Random(2027), [signal.SIGKILL, signal.SIGTERM])
        self.says(done, 0)
        keys = [(row["problem"], row["prover"]) for row in self.rows()]
        self.assertEqual(sorted(keys), sorted((name, prover) for name in names for prover in ("uc", "uc-header")))
        for key, count in self.frozen.items():
            self.assertEqual(self.starts()[key], count, "a run whose result stood was made again")
        self.assertEqual([name for name in os.listdir(self.path("out")) if name.startswith("parallel")], [])
        self.expect_none_left()

    def test_here(self):
        self.stop_and_go("--jobs", "2")

    @needs("parallel")
    def test_two_machines(self):
        self.stop_and_go("--sshlogin", "east,west", "--ssh", self.write("ssh", SSH, 0o755))
        with open(self.path("hosts"), encoding="utf-8") as file:
            self.assertEqual(set(file.read().split()), {"east", "west"})

    @needs("parallel")
    def test_two_machines_ended_at_work(self):
        """Runs that would go on for long end when the one that waits for them is ended, though its signals don't get to them.

        As with a real ssh, what a run prints goes through the connection, which is open as long as both ends are there.
        """
        ssh = self.write("ssh", SSH.replace('exec bash -c "$*"', 'setsid -w bash -c "$*" | cat'), 0o755)
        words = ["--provers", "uc", "-o", self.path("out"), "--sshlogin", "east,west", "--ssh", ssh]
        words = [tool("uc-bench"), "--uc", self.answering(wait="300"), *words, self.problems("a.p", "b.p")]
        with started(words, env=self.environment) as done:
            self.wait_for_log(2)
            done.send_signal(signal.SIGKILL)
            done.communicate(timeout=30)
        self.expect_none_left(20)

    def test_a_run_whose_reader_has_gone(self):
        """A run ends when nobody reads its result any more."""
        from uctools import jobs

        job = jobs.Job("a.p", self.path("a.p"), "uc", None, [], 100.0, 1000, self.answering(wait="300"), None, "")
        words = [tool("uc-bench"), "--one", jobs.packed(job)]
        with started(words, env=self.environment) as done:
            self.wait_for_log(1)
            done.stdout.close()
            self.assertEqual(done.wait(20), 3)
            self.assertIn(b"nobody waits for the result any more", done.stderr.read())
        self.expect_none_left()

    def wait_for_log(self, lines):
        """Waits until the stand-in for uc has noted so many lines."""
        until = time.monotonic() + 30
        while len(self.log()) < lines and time.monotonic() < until:
            time.sleep(0.05)

    @needs("parallel")
    def test_a_machine_that_is_not_there(self):
        """Runs that a machine doesn't make are told, and the same command on the others makes them."""
        folder = self.problems(*(f"{number}.p" for number in range(4)))
        gone = self.write("ssh", SSH.replace("exec bash", "[ $host = west ] && exit 255\nexec bash"), 0o755)
        words = ["--uc", self.answering(wait="0.2"), "--provers", "uc", "--ssh", gone, "-o", self.path("out"), folder]
        done = self.bench("--sshlogin", "east,west", *words)
        self.assertEqual(done.returncode, 8, done.stderr)
        self.assertRegex(done.stderr.decode(), r"[1-4] of 4 runs gave no result; the same command tries them again")
        self.says(self.bench("--sshlogin", "east", *words), 0)
        self.assertEqual(len(self.rows()), 4)

    def test_a_line_that_was_cut_off(self):
        folder = self.problems("a.p", "b.p")
        words = ["--uc", self.answering(), "--provers", "uc", "-o", self.path("out"), folder]
        self.says(self.bench(*words), 0)
        path = self.path("out/results.jsonl")
        with open(path, "rb+") as file:
            file.truncate(os.path.getsize(path) - 5)
        self.says(self.bench(*words), 0)
        self.assertEqual(len(self.rows()), 2)
        self.assertEqual(sum(line.startswith("start") for line in self.log()), 3)

    def test_two_at_once(self):
        folder = self.problems("a.p")
        words = [tool("uc-bench"), "--uc", self.answering(wait="2"), "--provers", "uc", "-o", self.path("out"), folder]
        with started(words, env=self.environment) as first:
            while not self.log():
                time.sleep(0.02)
            self.says(self.bench(*words[1:]), 3, "is being written by another uc-bench")
            first.communicate(timeout=30)


class Faults(BenchCase):
    """What is told where something is missing or full."""

    def test_words(self):
        self.assertEqual(self.bench("--help").returncode, 0)
        self.says(self.bench("x"), 4, "--output are needed")
        self.says(self.bench("--provers", "zipper", "-o", "out", self.folder), 4, "'zipper' is no prover")
        self.says(self.bench("--one", "x"), 4, "--one takes a job")

    def test_what_is_missing(self):
        out = self.path("out")
        provers = ["--provers", "uc", "-o", out]
        self.says(self.bench(*provers, self.path("none")), 3, "can't be read: No such file or directory")
        os.mkdir(self.path("empty"))
        self.says(self.bench(*provers, self.path("empty")), 3, "has no file *.p")
        self.says(self.bench("--uc", self.path("nothing"), *provers, self.problems("a.p")), 8, "there is no program")
        bare = {**self.environment, "PATH": self.path("empty")}
        words = [sys.executable, tool("uc-bench"), "--uc", self.answering(), "-o", out]
        self.says(ended([*words, "--provers", "eprover", self.problems("a.p")], env=bare), 8, "eprover is missing")
        self.says(ended([*words, "--provers", "uc", "--sshlogin", ":", self.problems("a.p")], env=bare), 8, "parallel is missing")

    def test_other_limits_than_before(self):
        words = ["--uc", self.answering(), "--provers", "uc", "-o", self.path("out"), self.problems("a.p")]
        self.says(self.bench(*words), 0)
        self.says(self.bench("--cpu", "7", *words), 4, "was made with")

    def test_odd_names(self):
        names = ("two words.p", "it's \"q\".p", "-dash.p", "a|b.p", "$(x).p")
        self.problems(*names, folder="-odd folder")
        done = self.bench("--uc", self.answering(), "--provers", "uc", "-o", "out dir", "--", "-odd folder", cwd=self.folder)
        self.says(done, 0)
        self.assertEqual({row["problem"] for row in self.rows("out dir")}, set(names))
        self.says(self.bench("--uc", self.answering(), "-o", "x", self.problems("ä.p"), "--provers", "uc"), 4, "uc reads names of the bytes 32 to 126")

    def test_full_disk(self):
        """On a small file system of its own, which the system takes away with the shell that mounted it."""
        small = self.path("small")
        os.mkdir(small)
        own = ["unshare", "--mount", "--map-root-user", "sh", "-c"]
        mount = f"mount -t tmpfs -o size=16k none '{small}'"
        if not shutil.which("unshare") or ended([*own, mount]).returncode != 0:
            self.skipTest("a small file system can't be mounted here")
        folder = self.problems(*(f"{number:03}.p" for number in range(12)))
        bench = f"'{tool('uc-bench')}' --uc '{self.answering()}' --provers uc -o '{small}' --jobs 3 '{folder}' > /dev/null"
        fill = f"head -c 12288 /dev/zero > '{small}/ballast' && head -c 100 /dev/zero > '{small}/more'"
        script = f"{mount} && {fill} || exit 99; {bench}; echo $?; rm '{small}/ballast' '{small}/more'; {bench}; echo $?"
        done = ended([*own, script], env=self.environment)
        self.assertEqual(done.stdout.decode(), "6\n0\n", done.stderr)
        self.assertRegex(done.stderr.decode(), r"can't be written: [^\n]*\n$")
        self.assertEqual(len(done.stderr.splitlines()), 1, done.stderr)

    @needs("parallel")
    def test_tools_in_a_folder_with_a_space(self):
        tools = self.path("its own tools")
        shutil.copytree(os.path.dirname(tool("uc-bench")), tools)
        words = [os.path.join(tools, "uc-bench"), "--uc", self.answering(), "--provers", "uc", "--sshlogin", ":"]
        self.says(ended([*words, "-o", self.path("out"), self.problems("a.p")], env=self.environment), 0)
        self.assertEqual(self.rows()[0]["status"], "Unsatisfiable")

    def test_broken_pipe_and_full_output(self):
        words = ["--uc", self.answering(), "--provers", "uc", "-o", self.path("out"), self.problems("a.p", "b.p")]
        read, write = os.pipe()
        os.close(read)
        with os.fdopen(write, "wb") as gone:
            self.says(self.bench(*words, stdout=gone), 6, "the answer can't be written: Broken pipe")
        with open("/dev/full", "wb") as full:
            self.says(self.bench(*words, stdout=full), 6, "the answer can't be written: No space left on device")
        self.says(self.bench(*words), 0)
        self.assertEqual(len(self.rows()), 2)
        self.assertEqual(sum(line.startswith("start") for line in self.log()), 2)
        self.assertEqual(alive(self.mark), [])
