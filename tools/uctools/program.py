"""Finding `uc`, and asking it something."""
import os
import selectors
import shlex
import shutil
import subprocess
import time

from .faults import BROKEN, USAGE, Fault, shown

TOP = os.path.dirname(os.path.dirname(os.path.dirname(os.path.realpath(__file__))))
BUILT = os.path.join(TOP, "crates", "uc_main", "out", "uc_main")


def add_uc(parser):
    """Adds the option that names the program."""
    parser.add_argument("--uc", metavar="PATH", help="the program uc (default: uc on PATH, else the one built in crates/uc_main/out)")


def find_uc(named):
    """Returns the path of `uc`: the one that is named, else the one on PATH, else the one that was built in this repository."""
    if named is not None:
        if not os.path.isfile(named) or not os.access(named, os.X_OK):
            raise Fault(BROKEN, f"there is no program {shown(named)}")
        return os.path.abspath(named)
    found = shutil.which("uc")
    if found:
        return os.path.abspath(found)
    if os.access(BUILT, os.X_OK):
        return BUILT
    raise Fault(BROKEN, f"uc is missing: it isn't on PATH, and there is no {BUILT}; --uc PATH names it")


def check_name(name, what):
    """Refuses a file name that no word of `uc` can be."""
    if not name or any(not 32 <= byte <= 126 for byte in os.fsencode(name)):
        raise Fault(USAGE, f"{what} {shown(name)!r}: uc reads names of the bytes 32 to 126 alone")


def words_text(words):
    """Returns the words of a command as a shell reads them."""
    return " ".join(shlex.quote(word) for word in words)


def ask(family, words, given=None, until=None):
    """Runs a command to its end and returns the child, or None where the clock reaches `until` before.

    The bytes `given` are its standard input, all of which it is to read before it prints much.
    """
    child = family.start(words, given=None if given is None else subprocess.PIPE)
    if given is not None:
        feed(child.process.stdin, given)
    waiting = selectors.DefaultSelector()
    waiting.register(child, selectors.EVENT_READ)
    open_yet = True
    while open_yet:
        left = None if until is None else until - time.monotonic()
        if left is not None and left <= 0:
            child.end()
            return None
        if waiting.select(left):
            open_yet = child.take_output()
    child.has_ended(wait=True)
    child.end()
    return child


def feed(pipe, given):
    """Writes bytes to a process and closes the pipe; what a process that has ended doesn't read is dropped."""
    try:
        view = memoryview(given)
        while view:
            view = view[os.write(pipe.fileno(), view) :]
    except BrokenPipeError:
        pass
    pipe.close()


def status_of(output):
    """Returns the word of the first line `% SZS status WORD for NAME` or `# SZS status WORD`, or None."""
    for line in bytes(output[: 1 << 16]).splitlines():
        words = line.split(None, 4)
        if len(words) >= 4 and words[0] in (b"%", b"#") and words[1:3] == [b"SZS", b"status"]:
            return words[3].decode("ascii", "replace")
    return None
