"""One problem given to one prover under limits, as a job that can be sent to another machine as one word."""
import base64
import json
import os
import re
import select
import signal
import subprocess
import time
from collections import namedtuple

from . import program
from .faults import MOST_SECONDS, REFUSED, Fault, shown
from .proofs import START

Job = namedtuple("Job", "problem path prover stated options cpu memory uc root tools")
Job.__doc__ = "A problem's name and path, a prover's name, the status and options of the problem's header, limits, and where things stand."

HEADER = re.compile(rb"^[%#]\s*(Status|Options)\s*:[ \t]*(.*?)\s*$", re.M)
SAME = {"Theorem": "Unsatisfiable", "ContradictoryAxioms": "Unsatisfiable", "CounterSatisfiable": "Satisfiable"}
DECIDED = ("Unsatisfiable", "Satisfiable")
TICK = 0.1
SLACK = 60
MOST_OUTPUT = 1 << 28


def header_of(path):
    """Returns the status and the options that a problem states in its comments, or None and no options."""
    try:
        with open(path, "rb") as file:
            found = {name: text.decode("ascii", "replace") for name, text in reversed(HEADER.findall(file.read(1 << 16)))}
    except OSError as error:
        raise Fault(REFUSED, f"{shown(path)} can't be read: {error.strerror}") from error
    stated = found.get(b"Status", "").split()
    return (stated[0] if stated else None), found.get(b"Options", "").split()


def plain(status):
    """Returns a status in the words for clauses alone."""
    return SAME.get(status, status)


def uc_words(job, options):
    """Returns the words of `uc prove` with as much budget as can be had, so that time and memory alone end it."""
    given = []
    for name, most in (("--budget", "10000000"), ("--pairs", "8000000")):
        if not any(option.split("=")[0] == name for option in options):
            given += [name, most]
    root = ["--root", job.root] if job.root else []
    return [job.uc, "prove", *given, *options, *root, "--", job.path]


def portfolio_words(job):
    """Returns the words of the portfolio on one processor."""
    root = ["--root", job.root] if job.root else []
    clock = min(100 * job.cpu + SLACK, MOST_SECONDS)
    limits = ["--jobs", "1", "--cpu", str(job.cpu), "--time", str(clock), "--memory", str(job.memory)]
    return [os.path.join(job.tools, "uc-portfolio"), "--uc", job.uc, *limits, *root, "--", job.path]


def eprover_words(job):
    """Returns the words of E in its automatic mode."""
    return ["eprover", "--auto", "--tstp-format", "-s", f"--cpu-limit={int(job.cpu)}", os.path.abspath(job.path)]


# Each prover: its words, and whether its process is held to the limits of time and memory, or keeps them itself.
PROVERS = {
    "uc": (lambda job: uc_words(job, []), True),
    "uc-header": (lambda job: uc_words(job, job.options), True),
    "uc-portfolio": (portfolio_words, False),
    "eprover": (eprover_words, True),
}


def packed(job):
    """Returns a job as one word without a byte that a shell knows."""
    return base64.urlsafe_b64encode(json.dumps(job._asdict()).encode()).decode().rstrip("=")


def unpacked(word):
    """Returns the job that a word holds."""
    data = base64.urlsafe_b64decode(word + "=" * (-len(word) % 4))
    return Job(**json.loads(data))


def reader_has_gone():
    """Returns whether nobody reads what this process prints any more, so that its work is for nothing."""
    poll = select.poll()
    poll.register(1, 0)
    return any(what & (select.POLLERR | select.POLLHUP) for _, what in poll.poll(0))


def follow(child, cpu, watch):
    """Reads what a child prints until it ends; returns whether it ended by itself, within its processor seconds and a bound by the clock."""
    until = child.started + 100 * cpu + 10 * SLACK
    poll = select.poll()
    poll.register(child.fileno(), select.POLLIN)
    is_open = True
    while is_open or not child.has_ended():
        if child.seconds() >= cpu or time.monotonic() >= until or len(child.output) > MOST_OUTPUT:
            return False
        if watch and reader_has_gone():
            raise Fault(REFUSED, "nobody waits for the result any more")
        if not is_open:
            time.sleep(0.01)
        elif poll.poll(TICK * 1000):
            is_open = child.take_output()
    return True


def is_accepted(family, job, output):
    """Returns whether `uc check` accepts a printed proof."""
    root = ["--root", job.root] if job.root else []
    words = [job.uc, "check", *root, "--", job.path, "/dev/stdin"]
    child = program.ask(family, words, given=output, until=time.monotonic() + 10 * SLACK)
    return child is not None and child.status == 0


def run(family, job, watch=False):
    """Runs a job and returns its result, as a table of words and numbers."""
    words_of, is_limited = PROVERS[job.prover]
    limits = {"seconds": 1.2 * job.cpu + 1, "memory": job.memory << 20} if is_limited else {}
    child = family.start(words_of(job), errors=subprocess.DEVNULL, **limits)
    ended = follow(child, job.cpu if is_limited else 2 * job.cpu + SLACK, watch)
    wall = time.monotonic() - child.started
    child.end()
    output = bytes(child.output)
    word = plain(program.status_of(output))
    if word == "Unsatisfiable" and job.prover != "eprover" and START.encode() in output and not is_accepted(family, job, output):
        word = "NotAccepted"
    if not ended or child.status == -signal.SIGXCPU or child.cpu > job.cpu and word not in DECIDED:
        word = "Timeout"
    return {
        "problem": job.problem,
        "prover": job.prover,
        "stated": job.stated,
        "status": word,
        "exit": child.status,
        "cpu": round(child.cpu, 3),
        "wall": round(wall, 3),
        "memory": child.peak,
    }
