"""How the tools end: one clear line on standard error, and a status."""
import argparse
import errno
import os
import signal
import sys

DONE = 0
"""Where a tool did what it was asked for, and nothing more is to be told by the status."""
REFUSED = 3
"""A file that isn't there, or isn't what the tool reads."""
USAGE = 4
"""Words that the tool has no reading for."""
READ_FAULT = 5
"""A file that the system doesn't give."""
WRITE_FAULT = 6
"""An answer that can't be written: a full disk, a broken pipe."""
NO_MEMORY = 7
"""Want of memory."""
BROKEN = 8
"""A program that the tool calls is missing, or doesn't do what it promises."""

MOST_SECONDS = 10_000_000


class Fault(Exception):
    """Ends the tool with a status, after one line that says why."""

    def __init__(self, status, line):
        super().__init__(line)
        self.status = status
        self.line = line


class Stopped(Exception):
    """A signal that asks the tool to end."""

    def __init__(self, number):
        super().__init__(signal.Signals(number).name)
        self.number = number


class Parser(argparse.ArgumentParser):
    """Reads the words of a command line; words without a reading end the tool with one line and the status `USAGE`."""

    def error(self, message):
        raise Fault(USAGE, f"{message} ({self.prog} --help tells the words)")


def counted(least, most):
    """Returns a reader of whole numbers within the two limits, for an option's `type`."""

    def number(word):
        if not word.isascii() or not word.isdigit() or not least <= int(word) <= most:
            raise argparse.ArgumentTypeError(f"{word!r} is no number from {least} to {most}")
        return int(word)

    return number


def timed(word):
    """Reads a number of seconds, for an option's `type`."""
    try:
        seconds = float(word)
    except ValueError:
        seconds = 0.0
    if not 0.01 <= seconds <= MOST_SECONDS:
        raise argparse.ArgumentTypeError(f"{word!r} is no number of seconds from 0.01 to {MOST_SECONDS}")
    return seconds


def reason_of(error):
    """Returns what the system says of an error, without the path and the number."""
    if error.errno is None:
        return str(error)
    return os.strerror(error.errno)


def put(data, end=1):
    """Writes all bytes to a descriptor, by default to standard output."""
    view = memoryview(data)
    try:
        while view:
            view = view[os.write(end, view) :]
    except OSError as error:
        raise Fault(WRITE_FAULT, f"the answer can't be written: {reason_of(error)}") from error


def read_file(path, most=1 << 28):
    """Returns the bytes of a file of at most `most` bytes."""
    try:
        with open(path, "rb") as file:
            data = file.read(most + 1)
    except FileNotFoundError as error:
        raise Fault(REFUSED, f"{shown(path)}: there is no such file") from error
    except OSError as error:
        raise Fault(READ_FAULT, f"{shown(path)} can't be read: {reason_of(error)}") from error
    if len(data) > most:
        raise Fault(REFUSED, f"{shown(path)} has more than {most} bytes")
    return data


def write_file(path, data):
    """Writes a file whole, or leaves what stood there: the bytes go to a new file beside it, which then takes its name."""
    made = None
    try:
        if os.path.exists(path) and not os.path.isfile(path):
            with open(path, "wb") as file:
                file.write(data)
            return
        made = f"{path}.{os.getpid()}.new"
        with open(made, "wb") as file:
            file.write(data)
            file.flush()
            os.fsync(file.fileno())
        os.replace(made, path)
    except OSError as error:
        if made and os.path.exists(made):
            os.unlink(made)
        raise Fault(WRITE_FAULT, f"{shown(path)} can't be written: {reason_of(error)}") from error


def shown(path):
    """Returns a path as it can stand in a line, whatever bytes it has."""
    text = os.fsdecode(path)
    return text if text.isprintable() else ascii(text)


def say(tool, line):
    """Writes one line to standard error, if that can be had."""
    try:
        os.write(2, f"{tool}: {line}\n".encode("utf-8", "backslashreplace"))
    except OSError:
        pass


def stop_on_signals():
    """Makes the signals that ask a program to end raise `Stopped`, once; those that are ignored stay so, as under `nohup`."""

    def stop(number, _frame):
        for other in (signal.SIGINT, signal.SIGTERM, signal.SIGHUP):
            signal.signal(other, signal.SIG_IGN)
        raise Stopped(number)

    for number in (signal.SIGINT, signal.SIGTERM, signal.SIGHUP):
        if signal.getsignal(number) != signal.SIG_IGN:
            signal.signal(number, stop)


def run_tool(tool, main):
    """Runs a tool's `main` on the words of its command line, and ends the process with its status."""
    try:
        stop_on_signals()
        status = main(sys.argv[1:])
    except Fault as fault:
        say(tool, fault.line)
        status = fault.status
    except Stopped as stopped:
        say(tool, f"ended by {stopped}")
        status = 128 + stopped.number
    except MemoryError:
        say(tool, "no memory is left")
        status = NO_MEMORY
    except OSError as error:
        say(tool, f"the system refuses: {error}")
        status = NO_MEMORY if error.errno == errno.ENOMEM else READ_FAULT
    except SystemExit as ended:
        status = ended.code or DONE
    try:
        sys.stdout.flush()
    except OSError as error:
        say(tool, f"the answer can't be written: {reason_of(error)}")
        status = WRITE_FAULT
    os._exit(status)
