"""The results of a benchmark: a file that grows by a line a run, and the table and the drawing that are made of it."""
import json
import os

from . import drawing
from .faults import REFUSED, USAGE, WRITE_FAULT, Fault, reason_of, shown
from .jobs import DECIDED, plain

LINE = "results.jsonl"


class Results:
    """The lines of one benchmark, each written whole before it counts. A run whose line stands is not made again."""

    def __init__(self, folder, settings):
        self.path = os.path.join(folder, LINE)
        self.rows = []
        self.settings = settings
        try:
            os.makedirs(folder, exist_ok=True)
            self.file = os.open(self.path, os.O_RDWR | os.O_CREAT | os.O_APPEND, 0o666)
        except OSError as error:
            raise Fault(WRITE_FAULT, f"{shown(self.path)} can't be written: {reason_of(error)}") from error
        self._lock()
        self._read()

    def _lock(self):
        # One benchmark at a time writes to a folder.
        import fcntl

        try:
            fcntl.flock(self.file, fcntl.LOCK_EX | fcntl.LOCK_NB)
        except OSError as error:
            raise Fault(REFUSED, f"{shown(self.path)} is being written by another uc-bench") from error

    def _read(self):
        with open(self.path, "rb") as file:
            data = file.read()
        whole = data.rfind(b"\n") + 1
        if whole < len(data):
            os.ftruncate(self.file, whole)
        try:
            rows = [json.loads(line) for line in data[:whole].splitlines()]
        except ValueError as error:
            raise Fault(REFUSED, f"{shown(self.path)} has a line that uc-bench didn't write") from error
        if not rows:
            self._write({"settings": self.settings})
        elif rows[0].get("settings") != self.settings:
            raise Fault(USAGE, f"{shown(self.path)} was made with {json.dumps(rows[0].get('settings'))}; take these, or another folder")
        self.rows = rows[1:]

    def _write(self, row):
        data = (json.dumps(row) + "\n").encode()
        length = os.fstat(self.file).st_size
        try:
            written = os.write(self.file, data)
            if written == len(data):
                os.fsync(self.file)
                return
            reason = "it took only a part"
        except OSError as error:
            reason = reason_of(error)
        os.ftruncate(self.file, length)
        raise Fault(WRITE_FAULT, f"{shown(self.path)} can't be written: {reason}")

    def add(self, row):
        """Writes a result to the file, and then counts it."""
        self._write(row)
        self.rows.append(row)

    def has(self, job):
        """Returns whether a job's result stands."""
        return any(row["problem"] == job.problem and row["prover"] == job.prover for row in self.rows)


def is_solved(row, cpu):
    """Returns whether a run decided its problem within the processor seconds."""
    return row["status"] in DECIDED and row["cpu"] <= cpu


def contradictions(rows):
    """Returns a line for each status that contradicts the header, or another prover's."""
    lines, said = [], {}
    for row in rows:
        if row["status"] == "NotAccepted":
            lines.append(f"{row['problem']}: uc check doesn't accept the proof of {row['prover']}")
        if row["status"] not in DECIDED:
            continue
        stated = plain(row["stated"])
        if stated in DECIDED and stated != row["status"]:
            lines.append(f"{row['problem']}: the header says {row['stated']}, {row['prover']} says {row['status']}")
        other = said.setdefault(row["problem"], row)
        if other["status"] != row["status"]:
            lines.append(f"{row['problem']}: {other['prover']} says {other['status']}, {row['prover']} says {row['status']}")
    return lines


def cell(row, cpu):
    """Returns what the table says of a run."""
    if row is None:
        return ""
    if is_solved(row, cpu):
        return f"{row['cpu']:.1f} s"
    return {"Timeout": "-", "ResourceOut": "limit", None: f"exit {row['exit']}"}.get(row["status"], row["status"])


def table(rows, provers, settings, command):
    """Returns the table of a benchmark, in Markdown."""
    cpu = settings["cpu"]
    by = {(row["problem"], row["prover"]): row for row in rows}
    problems = sorted({row["problem"] for row in rows})
    lines = [
        f"`{command}`, {cpu:g} processor seconds and {settings['memory']} MB a run. A time is that of a decided problem.",
        "",
        "| problem | status | " + " | ".join(provers) + " |",
        "|---|---|" + "---|" * len(provers),
    ]
    for problem in problems:
        found = [by.get((problem, prover)) for prover in provers]
        stated = next((row["stated"] for row in found if row and row["stated"]), None) or "?"
        name = problem.replace("|", "\\|")
        lines.append(f"| {name} | {stated} | " + " | ".join(cell(row, cpu) for row in found) + " |")
    solved = [sum(is_solved(row, cpu) for row in rows if row["prover"] == prover) for prover in provers]
    lines.append(f"| decided | of {len(problems)} | " + " | ".join(str(number) for number in solved) + " |")
    return "\n".join(lines) + "\n"


def beside(rows, provers, cpu):
    """Returns a line for each two provers: how many problems the one decides and the other doesn't."""
    done = {prover: {row["problem"] for row in rows if row["prover"] == prover and is_solved(row, cpu)} for prover in provers}
    return [
        f"{one} decides {len(done[one] - done[other])} that {other} doesn't"
        for one in provers
        for other in provers
        if one != other
    ]


def cactus(rows, provers, cpu):
    """Returns the drawing: for each prover how many problems it decides within how many processor seconds each."""
    curves = []
    for prover in provers:
        times = sorted(row["cpu"] for row in rows if row["prover"] == prover and is_solved(row, cpu))
        curves.append((f"{prover}: {len(times)}", [(number + 1, seconds) for number, seconds in enumerate(times)]))
    return drawing.chart("Problems decided within a time each", "problems", "processor seconds", curves, logarithmic=True) + "\n"
