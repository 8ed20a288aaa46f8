"""Tests of uc-view: what the page says, that it needs nothing else, and how a browser shows it."""
import os
import re
import shutil
import struct
import subprocess
import tempfile
from html.parser import HTMLParser

from common import EXAMPLES, SECONDS, Case, ended, needs, needs_uc, uc

PROOF = """% SZS status Unsatisfiable for r5.p
% SZS output start CNFRefutation for r5.p
cnf(p1, axiom, f(a) = b, file('r5.p', ax1)).
cnf(p2, axiom, f(b) = a, file('r5.p', ax2)).
cnf(p3, negated_conjecture, f(f(a)) != a, file('r5.p', goal)).
cnf(p4, plain, f(a) = b, inference(chain, [f(a), step(p1, lr, [], b)], [p1])).
cnf(p5, plain, f(b) = a, inference(chain, [f(b), step(p2, lr, [], a)], [p2])).
cnf(p6, plain, f(f(a)) = a, inference(chain, [f(f(a)), step(p4, lr, [1], f(b)), step(p5, lr, [], a)], [p4, p5])).
cnf(p7, plain, $false, inference(refute, [], [p3, p6])).
% SZS output end CNFRefutation for r5.p
"""
TRACE = """% SZS status ResourceOut for x.p
% budget 2 of 2
% 1 w0 draw goal 0 front 0
% 2 w0 commit goal 0 steps 0 full
% 3 w0 draw join 0 front 0
% 4 w0 commit join 0 kept 0
% 5 w0 draw meet 0 front 1
% 6 w0 commit meet 0 pairs 3 kills 0
% 7 w0 draw join 1 front 1
% 8 w0 commit join 1 kept 1
% 9 w0 draw meet 1 front 2
% 10 w0 commit meet 1 pairs 5 kills 1
% 11 w0 drop 3
% 12 w0 draw join 7 front 3
% 13 w0 commit join 7 joined
% 14 w0 close budget
% share w0 6
"""
VOID = ("meta", "br")


class Page(HTMLParser):
    """Reads a page: its elements are closed in order, and its links lead to places in it."""

    def __init__(self, text):
        super().__init__()
        self.open, self.ids, self.links, self.marks, self.outside = [], set(), [], [], []
        self.feed(text)
        if self.open:
            raise AssertionError(f"not closed: {self.open}")

    def handle_starttag(self, tag, attrs):
        given = dict(attrs)
        if tag not in VOID:
            self.open.append(tag)
        if tag == "mark":
            self.marks.append("")
        if "id" in given:
            self.ids.add(given["id"])
        if "href" in given:
            self.links.append(given["href"])
        if {"src", "srcset", "action", "data"} & set(given) or tag in ("link", "iframe", "object", "img"):
            self.outside.append((tag, given))

    def handle_startendtag(self, tag, attrs):
        if tag not in VOID:
            self.handle_starttag(tag, attrs)
            self.open.pop()

    def handle_endtag(self, tag):
        if self.open.pop() != tag:
            raise AssertionError(f"closed out of order: {tag}")

    def handle_data(self, data):
        if "mark" in self.open:
            self.marks[-1] += data


class View(Case):
    """What the page says."""

    def page(self, text, *words):
        done = self.run_tool("uc-view", self.write("in.s", text), "-o", self.path("page.html"), *words)
        self.says(done, 0)
        with open(self.path("page.html"), encoding="utf-8") as file:
            return file.read()

    def test_proof(self):
        text = self.page(PROOF)
        page = Page(text)
        self.assertEqual(page.marks, ["f(a)", "b", "f(b)", "a", "f(a)", "b", "f(b)", "a"])
        self.assertEqual(page.outside, [])
        self.assertTrue({f"p{number}" for number in range(1, 8)} <= page.ids)
        self.assertTrue({link[1:] for link in page.links} <= page.ids)
        self.assertNotIn("http", text.replace("http-equiv", "").replace("http://www.w3.org/2000/svg", ""))
        self.assertIn("default-src 'none'", text)

    def test_values_of_variables(self):
        step = "cnf(p3, plain, m(e,a) = a, inference(chain, [m(e,a), step(p1, lr, [], a)], [p1])).\n"
        text = "% SZS output start CNFRefutation for x\ncnf(p1, axiom, m(e,X1) = X1, file('x', ax)).\n" + step
        page = self.page(text + "% SZS output end CNFRefutation for x\n")
        self.assertIn("with X1 is a", page)

    def test_names_are_escaped(self):
        text = PROOF.replace("ax1", "'<script>alert(1)</script>'").replace("f(a", "'<b>'(a").replace("f('<b>'", "'<b>'('<b>'").replace("f(b", "'<b>'(b")
        page = self.page(text, "--title", "<i>&")
        Page(page)
        for piece in ("<script>alert", "<b>'", "<title><i>"):
            self.assertNotIn(piece, page)

    def test_trace(self):
        from uctools import traces

        events = traces.read_trace(TRACE)
        self.assertEqual(traces.least_axioms(events), 1)
        course = traces.course_of(events, 2)
        self.assertEqual([value for _, value in course.live], [0, 0, 0, 0, 1, 1, 1, 1, 2, 2, 1, 1, 1, 1, 1])
        self.assertEqual([value for _, value in course.waiting], [2, 2, 2, 1, 1, 1, 4, 3, 3, 3, 9, 8, 7, 7, 7])
        self.assertEqual(course.drawn, [(3, 0), (7, 1), (12, 7)])
        page = self.page(TRACE, "--axioms", "2")
        Page(page)
        self.assertIn("<p>14 events; the budget is spent.</p>", page)
        self.assertIn('<tr><td>drop</td><td class="number">1</td></tr>', page)
        self.assertNotIn("doesn't tell how many axioms", page)
        self.assertIn("With --problem there is a curve of the weights", page)

    def test_proof_and_trace(self):
        page = self.page(PROOF + TRACE)
        Page(page)
        self.assertIn("What uses what", page)
        self.assertIn("Live facts", page)

    @needs_uc
    def test_all_proofs_of_the_examples(self):
        for name in ("group-right-inverse.p", "ring-zero.p", "combinators-skk.p", "boolean-double-complement.p"):
            done = ended([uc(), "prove", "--trace", os.path.join(EXAMPLES, name)])
            page = self.page(done.stdout.decode())
            self.assertEqual(len(Page(page).marks), 2 * done.stdout.count(b"step("))

    @needs_uc
    def test_weights(self):
        """A history is gone through with its problem: every meeting makes as many pairs and kills as it says."""
        orders = {"group-not-commutative.p": ["--weights", "i=0", "--precedence", "i"], "near-ring-times-zero.p": ["--order", "lpo"]}
        for name in ("ring-zero.p", "group-solvable-equation.p", "combinators-identity.p", *orders):
            path = os.path.join(EXAMPLES, name)
            options = orders.get(name, [])
            trace = ended([uc(), "prove", "--trace", "--budget", "60", *options, path]).stdout.decode()
            page = self.page(trace, "--uc", uc(), "--problem", path, *options)
            self.assertIn("Weight of the drawn pair", page, name)
            self.assertNotIn("aren&#x27;t shown", page)

    def test_weights_of_a_small_search(self):
        from uctools import clauses, replay, traces

        problem = clauses.read_problem("cnf(a, axiom, f(a) = b).\ncnf(b, axiom, f(b) = a).\ncnf(g, negated_conjecture, f(f(a)) != a).\n")
        trace = "% 1 w0 draw join 0 front 0\n% 2 w0 commit join 0 kept 0\n% 3 w0 draw meet 0 front 1\n% 4 w0 commit meet 0 pairs 0 kills 0\n"
        more = "% 5 w0 draw join 1 front 1\n% 6 w0 commit join 1 kept 1\n"
        self.assertEqual(replay.weights_of(traces.read_trace(trace + more), problem, {}), ([(1, 3), (5, 3)], 2, 6))
        self.assertEqual(replay.weights_of(traces.read_trace(trace + more), problem, {}, most=4), ([(1, 3)], 2, 4))
        with self.assertRaises(replay.Differs):
            replay.weights_of(traces.read_trace(trace.replace("pairs 0", "pairs 1")), problem, {})

    @needs_uc
    def test_a_history_of_another_problem(self):
        trace = ended([uc(), "prove", "--trace", "--budget", "60", os.path.join(EXAMPLES, "group-right-inverse.p")]).stdout.decode()
        page = self.page(trace, "--uc", uc(), "--problem", os.path.join(EXAMPLES, "ring-zero.p"))
        self.assertIn("The weights of the pairs that were drawn aren&#x27;t shown: ", page)
        self.assertNotIn("Weight of the drawn pair", page)

    def test_deep_and_long(self):
        deep = "f(" * 3000 + "a" + ")" * 3000
        lines = [f"cnf(p1, axiom, f(a) = a, file('x', ax)).", f"cnf(p2, plain, {deep} = {deep}, inference(chain, [{deep}], []))."]
        for number in range(3, 1500):
            lines.append(f"cnf(p{number}, plain, f(a) = a, inference(chain, [f(a), step(p1, lr, [], a)], [p1])).")
        text = "\n".join(["% SZS output start CNFRefutation for x", *lines, "% SZS output end CNFRefutation for x", ""])
        Page(self.page(text))


class Faults(Case):
    """What is told where a page can't be made."""

    def view(self, *words, **more):
        return self.run_tool("uc-view", *words, **more)

    def test_words(self):
        self.assertEqual(self.view("--help").returncode, 0)
        self.says(self.view("a"), 4, "--help")
        self.says(self.view(), 4, "--help")

    def test_what_it_cannot_read(self):
        out = self.path("page.html")
        self.says(self.view(self.path("none"), "-o", out), 3, "there is no such file")
        self.says(self.view(self.folder, "-o", out), 5, "can't be read: Is a directory")
        self.says(self.view(self.write("a", "hello\n"), "-o", out), 3, "neither a proof nor a history")
        self.says(self.view(self.write("b", PROOF[: PROOF.index("% SZS output end")]), "-o", out), 3, "no end line")
        self.says(self.view(self.write("c", PROOF.replace("step(p1,", "step(p9,")), "-o", out), 3, "line 6 is no line of a proof")
        self.says(self.view(self.write("d", PROOF.replace("[1], f(b)", "[2], f(b)")), "-o", out), 3, "line 8 is no line of a proof")
        self.assertFalse(os.path.exists(out))

    def test_odd_names(self):
        for name in ("two words.s", "it's \"quoted\".s", "-dash.s", "ä\n.s"):
            self.write(name, PROOF)
            self.says(self.view("-o", "./" + name + ".html", "--", name, cwd=self.folder), 0)
            self.assertTrue(os.path.exists(self.path(name + ".html")))

    def test_full_disk_and_broken_pipe(self):
        path = self.write("a.s", PROOF)
        self.says(self.view(path, "-o", "/dev/full"), 6, "can't be written: No space left on device")
        self.says(self.view(path, "-o", self.path("none/page.html")), 6, "can't be written: No such file or directory")
        read, write = os.pipe()
        os.close(read)
        with os.fdopen(write, "wb") as gone:
            self.says(self.view(path, "-o", "/dev/stdout", stdout=gone), 6, "can't be written: Broken pipe")
        done = self.view(path, "-o", "/dev/stdout")
        self.assertTrue(done.stdout.startswith(b"<!DOCTYPE html>"))

    def test_missing_uc_and_problem(self):
        """The problem of a history is read by uc, which has to be there, and to find the problem."""
        trace, out = self.write("a.t", TRACE), self.path("page.html")
        self.says(self.view(trace, "-o", out, "--uc", self.path("none"), "--problem", "p.p"), 8, "there is no program")
        fake = self.fake("exit 3", show="echo '% p.p Absent'; exit 3")
        self.says(self.view(trace, "-o", out, "--uc", fake, "--problem", "p.p"), 3, "uc refuses the problem or the order")
        self.says(self.view(trace, "-o", out, "--problem", "ä.p"), 4, "uc reads names of the bytes 32 to 126 alone")
        self.assertFalse(os.path.exists(out))

    def test_a_page_that_stands_is_kept(self):
        """Where a page can't be made, the one that stood there stays."""
        out = self.write("page.html", "before")
        self.says(self.view(self.write("a", "hello\n"), "-o", out), 3, "neither")
        with open(out, encoding="utf-8") as file:
            self.assertEqual(file.read(), "before")


BROWSER = next((name for name in ("chromium", "chromium-browser", "google-chrome") if shutil.which(name)), "chromium")
MEASURE = "<script>document.title = 'measured ' + innerWidth + ' ' + document.documentElement.scrollWidth;</script>"


class Browser(Case):
    """How a browser without a screen shows the page, on files of this machine alone."""

    def browse(self, page, width, *words):
        home = tempfile.mkdtemp(prefix="home-", dir=self.folder)
        fixed = ["--headless=new", "--no-sandbox", "--disable-gpu", "--no-first-run", "--disable-background-networking", "--hide-scrollbars"]
        where = [f"--user-data-dir={home}", f"--window-size={width},900", "--virtual-time-budget=2000"]
        return subprocess.run([BROWSER, *fixed, *where, *words, "file://" + page], cwd=home, capture_output=True, timeout=SECONDS, check=False)

    @needs(BROWSER)
    def test_two_widths(self):
        text = PROOF.replace("f(f(a)) != a", f"{'f(' * 60}a{')' * 60} != a") + TRACE
        self.says(self.run_tool("uc-view", self.write("a.s", text), "-o", self.path("page.html")), 0)
        with open(self.path("page.html"), encoding="utf-8") as file:
            page = self.write("measured.html", file.read().replace("</body>", MEASURE + "</body>"))
        for width in (1200, 500):
            done = self.browse(page, width, "--dump-dom")
            found = re.search(rb"<title>measured (\d+) (\d+)</title>", done.stdout)
            self.assertTrue(found, done.stderr)
            self.assertEqual(int(found[1]), width)
            self.assertLessEqual(int(found[2]), width, "the page is wider than the window")
            picture = self.path(f"{width}.png")
            self.browse(page, width, f"--screenshot={picture}")
            with open(picture, "rb") as file:
                self.assertEqual(struct.unpack(">4x4xI4sII", file.read(24)[:24])[2:], (width, 900))

    @needs(BROWSER)
    def test_links_unfold(self):
        self.says(self.run_tool("uc-view", self.write("a.s", PROOF), "-o", self.path("page.html")), 0)
        closed = self.browse(self.path("page.html"), 800, "--dump-dom").stdout
        opened = self.browse(self.path("page.html") + "#p4", 800, "--dump-dom").stdout
        self.assertIn(b'<details id="p4">', closed)
        self.assertIn(b'<details id="p4" open="">', opened)
