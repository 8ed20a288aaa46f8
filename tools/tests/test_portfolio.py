"""Tests of uc-portfolio: its answers, its faults, and that no process of it is left."""
import os
import random
import shlex
import shutil
import signal
import sys
import time
import unittest

from common import EXAMPLES, TOP, Case, ended, needs_uc, started, tool, uc

GROUP = """cnf(left_identity, axiom, m(e,X) = X).
cnf(left_inverse, axiom, m(i(X),X) = e).
cnf(associativity, axiom, m(m(X,Y),Z) = m(X,m(Y,Z))).
"""
BUSY = "sh -c 'while :; do :; done' & wait"


@needs_uc
class Answers(Case):
    """What the portfolio prints where uc itself answers."""

    def prove(self, *words, **more):
        return self.run_tool("uc-portfolio", "--uc", uc(), "--jobs", "2", *words, **more)

    def again(self, output):
        """Runs the words of the last line, and expects the same answer."""
        lines = output.decode().splitlines(keepends=True)
        self.assertTrue(lines[-1].startswith("% again: uc "), lines[-1])
        words = shlex.split(lines[-1][len("% again: ") :])
        done = ended([uc(), *words[1:]], cwd=self.folder)
        self.assertEqual(done.stdout.decode(), "".join(lines[:-1]))

    def test_proof(self):
        for name, word in (("group-right-inverse.p", "Unsatisfiable"), ("rectangular-band-middle.p", "Theorem")):
            path = os.path.join(EXAMPLES, name)
            done = self.prove(path)
            self.says(done, 0)
            self.assertTrue(done.stdout.startswith(f"% SZS status {word} for {path}\n".encode()))
            self.again(done.stdout)
            self.expect_none_left()

    def test_system_that_the_default_order_has_not(self):
        path = self.write("free.p", GROUP + "cnf(g, negated_conjecture, m(a,b) != m(b,a)).\n")
        done = self.prove("--time", "50", path)
        self.says(done, 1)
        self.assertTrue(done.stdout.startswith(f"% SZS status Satisfiable for {path}\n".encode()))
        self.again(done.stdout)

    def test_odd_names(self):
        text = "cnf(a, axiom, f(a) = b).\ncnf(g, negated_conjecture, f(f(a)) != f(b)).\n"
        for name in ("two words.p", "it's \"quoted\".p", "-dash.p", "--help", "$(x) `y` ;.p", "a\\b.p"):
            self.write(name, text)
            done = self.prove("--", name, cwd=self.folder)
            self.says(done, 0)
            self.assertTrue(done.stdout.startswith(f"% SZS status Unsatisfiable for {name}\n".encode()))
            self.again(done.stdout)

    def test_names_that_uc_cannot_read(self):
        for name in ("ä.p", "line\nfeed.p"):
            self.write(name, "")
            self.says(self.prove(name, cwd=self.folder), 4, "uc reads names of the bytes 32 to 126 alone")

    def test_refused_problem(self):
        path = self.write("bad.p", "cnf(a, axiom, f(a) = b)\n")
        done = self.prove(path)
        self.assertEqual(done.returncode, 3)
        self.assertEqual(done.stdout, ended([uc(), "prove", path]).stdout)
        self.assertEqual(self.prove(self.path("none.p")).returncode, 3)
        os.mkdir(self.path("folder.p"))
        self.assertEqual(self.prove(self.path("folder.p")).returncode, 5)

    def test_included_files(self):
        self.write("group.ax", GROUP)
        os.mkdir(self.path("problems"))
        path = self.write("problems/right.p", "include('group.ax').\ncnf(g, negated_conjecture, m(a,e) != a).\n")
        self.says(self.prove("--root", self.folder, path), 0)

    def test_quoted_symbols(self):
        path = self.write("q.p", "cnf(a, axiom, 'Big f'(X,'it\\'s') = X).\ncnf(g, negated_conjecture, 'Big f'(a,'it\\'s') != a).\n")
        self.says(self.prove(path), 0)

    def test_full_disk_and_broken_pipe(self):
        path = os.path.join(EXAMPLES, "group-right-identity.p")
        with open("/dev/full", "wb") as full:
            self.says(self.prove(path, stdout=full), 6, "the answer can't be written: No space left on device")
        read, write = os.pipe()
        os.close(read)
        with os.fdopen(write, "wb") as gone:
            self.says(self.prove(path, stdout=gone), 6, "the answer can't be written: Broken pipe")
        self.expect_none_left()

    def test_plan(self):
        path = self.write("free.p", GROUP + "cnf(g, negated_conjecture, m(a,b) != m(b,a)).\n")
        done = self.prove("--plan", path)
        self.says(done, 0)
        self.assertIn(b"recognised: a group: product m, inverse i\n", done.stdout)
        self.assertIn(b"--weights i=0", done.stdout)

    def test_every_row_gives_an_order(self):
        """Each row's options, for each example, are an order that uc takes."""
        from uctools import clauses, schedule, theories

        names = sorted(name for name in os.listdir(EXAMPLES) if name.endswith(".p"))
        for name in names:
            shown = ended([uc(), "show", os.path.join(EXAMPLES, name)]).stdout.decode()
            for row in schedule.rows_of(theories.Theory(clauses.read_problem(shown))):
                done = ended([uc(), "order", *row.options, os.path.join(EXAMPLES, name)])
                self.assertEqual(done.returncode, 0, (name, row.name, row.options, done.stdout))


class Faults(Case):
    """What is told where uc is missing or breaks its word, by a stand-in for it."""

    def prove(self, fake, *words, **more):
        return self.run_tool("uc-portfolio", "--uc", fake, *words, self.write("p.p", ""), **more)

    def test_help_and_usage(self):
        done = self.run_tool("uc-portfolio", "--help")
        self.assertEqual((done.returncode, done.stderr), (0, b""))
        for words in ([], ["a", "b"], ["--jobs", "0", "a"], ["--time", "x", "a"], ["--what", "a"]):
            self.says(self.run_tool("uc-portfolio", *words), 4, "--help")

    def test_missing_uc(self):
        self.says(self.prove(self.path("none")), 8, "there is no program")
        self.says(self.prove(self.write("plain", "")), 8, "there is no program")
        self.says(self.prove(self.write("broken", "#!/no/such/program\n", 0o755)), 8, "can't be started")
        tools = self.path("elsewhere")
        shutil.copytree(os.path.join(TOP, "tools"), tools)
        words = [sys.executable, os.path.join(tools, "uc-portfolio"), "p.p"]
        done = ended(words, env={**self.environment, "PATH": self.folder})
        self.says(done, 8, "uc is missing")

    def test_uc_that_crashes(self):
        done = self.prove(self.fake("kill -SEGV $$"), "--time", "5")
        self.says(done, 8, "uc ends with status -11: ")

    def test_proof_that_check_refuses(self):
        fake = self.fake("echo '% SZS status Unsatisfiable for p.p'", check="echo 'rejected p1 NoGoal'; exit 1")
        done = self.prove(fake)
        self.says(done, 8, "uc check doesn't accept")
        self.assertEqual(done.stdout, b"")

    def test_time_and_no_order_left(self):
        done = self.prove(self.fake(BUSY), "--time", "0.5")
        self.says(done, 2)
        self.assertTrue(done.stdout.startswith(b"% SZS status Timeout for "))
        done = self.prove(self.fake("echo '% SZS status ResourceOut for p.p'; echo '% size goal 0'; exit 2"))
        self.says(done, 2)
        self.assertTrue(done.stdout.startswith(b"% SZS status ResourceOut for "))
        self.expect_none_left()

    def test_processor_seconds(self):
        started = time.monotonic()
        done = self.prove(self.fake("while :; do :; done"), "--cpu", "0.3", "--jobs", "2")
        self.says(done, 2)
        self.assertLess(time.monotonic() - started, 30)

    def test_first_answer_ends_the_others(self):
        fake = self.fake(f"case \"$*\" in *lpo*) echo '% SZS status Satisfiable for p.p'; exit 1 ;; *) {BUSY} ;; esac")
        done = self.prove(fake, "--jobs", "4", "--time", "20")
        self.says(done, 1)
        self.assertIn(b"% again: uc prove --budget ", done.stdout)
        self.expect_none_left()


class Ends(Case):
    """That no process is left, whenever and however the portfolio is ended."""

    def test_ended_at_random_moments(self):
        chance = random.Random(27)
        fake = self.fake(BUSY)
        path = self.write("p.p", "")
        signals = [signal.SIGKILL, signal.SIGTERM, signal.SIGINT, signal.SIGHUP]
        for turn in range(16):
            words = [tool("uc-portfolio"), "--uc", fake, "--jobs", "3", "--time", "50", path]
            done = started(words, env=self.environment, start_new_session=True)
            time.sleep(chance.random() * 0.6)
            done.send_signal(signals[turn % 4])
            done.communicate(timeout=20)
            # a signal that comes while Python starts ends it by a status of Python's own
            self.assertNotEqual(done.returncode, 0)
            self.expect_none_left()

    def test_ended_with_uc_at_work(self):
        """The same, later, when the stand-in and its own child surely run."""
        fake = self.fake(BUSY)
        path = self.write("p.p", "")
        for number in (signal.SIGKILL, signal.SIGTERM):
            words = [tool("uc-portfolio"), "--uc", fake, "--jobs", "2", path]
            done = started(words, env=self.environment)
            until = time.monotonic() + 20
            while self.count() < 6 and time.monotonic() < until:
                time.sleep(0.05)
            self.assertGreaterEqual(self.count(), 6)
            done.send_signal(number)
            done.communicate(timeout=20)
            self.expect_none_left()

    def count(self):
        from common import alive

        return len(alive(self.mark))


class Recognition(unittest.TestCase):
    """What is recognised, up to the names of symbols and the sides of equations."""

    def theory(self, text):
        from uctools import clauses, theories

        return theories.Theory(clauses.read_problem(text))

    def test_group(self):
        found = self.theory(
            "cnf(a, axiom, X1 = t(X1,one)).\ncnf(b, axiom, one = t(X1,v(X1))).\ncnf(c, axiom, t(X1,t(X2,X3)) = t(t(X1,X2),X3)).\n"
        )
        self.assertEqual(found.inverses(), {"v": ("t", "one")})
        self.assertIn("a group: product t, inverse v", found.names())

    def test_ring(self):
        found = self.theory("cnf(a, axiom, p(t(X1,X2),t(X1,X3)) = t(X1,p(X2,X3))).\ncnf(b, axiom, p(X1,X2) = p(X2,X1)).\n")
        self.assertEqual(found.products_over_sums(), [("t", "p")])
        self.assertEqual(found.of("commutative"), [("p",)])

        near = GROUP.replace("m(", "p(") + "cnf(d, axiom, t(X1,p(X2,X3)) = p(t(X1,X2),t(X1,X3))).\n"
        self.assertIn("a near-ring: t distributes over p", self.theory(near).names())
        both = "cnf(a, axiom, p(z,X1) = X1).\ncnf(b, axiom, p(n(X1),X1) = z).\ncnf(c, axiom, p(p(X1,X2),X3) = p(X1,p(X2,X3))).\n"
        both += "cnf(d, axiom, t(p(X1,X2),X3) = p(t(X1,X3),t(X2,X3))).\ncnf(e, axiom, t(X1,X2) = t(X2,X1)).\ncnf(f, axiom, p(X1,X2) = p(X2,X1)).\n"
        self.assertIn("a ring: t distributes over p", self.theory(both).names())

    def test_one_sided(self):
        """A left unit with a right inverse makes no group."""
        names = self.theory(GROUP.replace("m(i(X),X)", "m(X,i(X))")).names()
        self.assertEqual(names, ["a product with unit and inverse: m, e, i"])
        self.assertEqual(self.theory(GROUP).names(), ["a group: product m, inverse i"])

    def test_boolean_algebra(self):
        text = "cnf(a, axiom, or(X1,and(X2,X3)) = and(or(X1,X2),or(X1,X3))).\ncnf(b, axiom, and(X1,or(X2,X3)) = or(and(X1,X2),and(X1,X3))).\n"
        self.assertEqual(self.theory(text).names(), ["and and or distribute over each other"])
        text += "cnf(c, axiom, or(X1,not(X1)) = one).\ncnf(d, axiom, and(X1,not(X1)) = zero).\n"
        self.assertEqual(self.theory(text).names(), ["a Boolean algebra: and and or, complement not"])

    def test_presentations(self):
        self.assertEqual(self.theory(GROUP + "cnf(r, axiom, m(a,m(b,a)) = e).\n").letters(), ["a", "b"])
        self.assertEqual(self.theory(GROUP + "cnf(r, axiom, m(a,X) = m(X,a)).\ncnf(s, axiom, m(a,a) = e).\n").letters(), [])
        words = self.theory("cnf(r, axiom, a(b(X1)) = X1).\n").names()
        self.assertIn("the presentation of a monoid: each letter a function of one argument", words)

    def test_near_misses(self):
        found = self.theory("cnf(a, axiom, f(X1,X1) = f(X1,X1)).\ncnf(b, axiom, f(f(X1,X2),X3) = f(X2,f(X1,X3))).\n")
        self.assertEqual(found.facts, [])

    def test_definitions(self):
        found = self.theory("cnf(a, axiom, app(nil,X1) = X1).\ncnf(b, axiom, app(cons(X1,X2),X3) = cons(X1,app(X2,X3))).\n")
        self.assertEqual(found.defined(), {"app": {"nil", "cons"}})

    def test_combinators_and_lattice(self):
        self.assertEqual(self.theory("cnf(k, axiom, a(a(k,X1),X2) = X1).\n").combinators(), ["K"])
        lattice = self.theory("cnf(a, axiom, j(X1,m(X1,X2)) = X1).\ncnf(b, axiom, m(X1,j(X1,X2)) = X1).\n")
        self.assertIn("a lattice: j and m", lattice.names())

    def test_deep_terms(self):
        deep = "f(" * 4000 + "a" + ")" * 4000
        found = self.theory(f"cnf(a, axiom, {deep} = a).\n")
        self.assertEqual(found.problem.arity, {"f": 1, "a": 0})


if __name__ == "__main__":
    unittest.main()
