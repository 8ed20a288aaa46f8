"""Processes that end with the one that started them, whatever happens to it.

A `Family` is a process group with a keeper in it. The keeper waits on a pipe whose other end only the tool holds: when the tool ends,
in whatever way, the system closes that end, and the keeper ends the whole group, itself included. So no process is left even where
the tool is ended by a signal that it can't catch. Where the system has it (Linux), each process also asks to be ended when its maker
ends. The two are independent of each other.
"""
import ctypes
import os
import resource
import signal
import subprocess
import sys
import time

from .faults import BROKEN, Fault, reason_of

PR_SET_PDEATHSIG = 1


def _prctl():
    if not sys.platform.startswith("linux"):
        return None
    try:
        return ctypes.CDLL(None, use_errno=True).prctl
    except (OSError, AttributeError):
        return None


PRCTL = _prctl()


def _end_with_maker(maker):
    """Asks the system to end this process when its maker ends; ends it at once where the maker has ended already."""
    if PRCTL is not None:
        PRCTL(PR_SET_PDEATHSIG, signal.SIGKILL, 0, 0, 0)
    if os.getppid() != maker:
        os._exit(127)


def join(group):
    """Puts this process into the group of a family, which a program between them has taken it out of, so that it ends with the family."""
    _end_with_maker(os.getppid())
    try:
        os.setpgid(0, group)
    except OSError as error:
        raise Fault(BROKEN, f"the processes to which this one belongs have ended: {reason_of(error)}") from error


class Child:
    """A process of a family, with what it has printed so far."""

    def __init__(self, process):
        self.process = process
        self.started = time.monotonic()
        self.output = bytearray()
        self.status = None
        self.cpu = 0.0
        self.peak = 0

    @property
    def pid(self):
        """Returns the number of the process."""
        return self.process.pid

    def fileno(self):
        """Returns the descriptor from which the output is read, so that a selector can wait for it."""
        return self.process.stdout.fileno()

    def take_output(self):
        """Reads what can be read; returns whether more may come."""
        data = os.read(self.fileno(), 1 << 16)
        self.output += data
        return bool(data)

    def has_ended(self, wait=False):
        """Returns whether the process has ended, and then notes its status, its processor seconds and its memory."""
        if self.status is None:
            pid, word, used = os.wait4(self.pid, 0 if wait else os.WNOHANG)
            if pid:
                self.status = -os.WTERMSIG(word) if os.WIFSIGNALED(word) else os.WEXITSTATUS(word)
                self.process.returncode = self.status
                self.cpu = used.ru_utime + used.ru_stime
                self.peak = used.ru_maxrss * (1 if sys.platform == "darwin" else 1024)
        return self.status is not None

    def seconds(self):
        """Returns the processor seconds that the process has had so far; seconds of the clock where the system doesn't tell."""
        if self.status is not None:
            return self.cpu
        try:
            with open(f"/proc/{self.pid}/stat", "rb") as file:
                fields = file.read().rpartition(b")")[2].split()
            return (int(fields[11]) + int(fields[12])) / os.sysconf("SC_CLK_TCK")
        except (OSError, ValueError, IndexError):
            return time.monotonic() - self.started

    def end(self):
        """Ends the process and waits for it."""
        if not self.has_ended():
            # Popen.kill would poll first, and might reap a process that ended just now
            os.kill(self.process.pid, signal.SIGKILL)
            self.has_ended(wait=True)
        self.process.stdout.close()


class Family:
    """Starts processes, and ends them all when it is left, or when this process ends."""

    def __init__(self):
        self.maker = os.getpid()
        held, self.held = os.pipe()
        self.keeper = os.fork()
        if self.keeper == 0:
            self._keep(held)
        os.close(held)
        try:
            os.setpgid(self.keeper, self.keeper)
        except OSError:
            pass

    def _keep(self, held):
        # The keeper: waits for the end of its maker, then ends the group.
        try:
            os.setpgid(0, 0)
            for number in (signal.SIGINT, signal.SIGTERM, signal.SIGHUP, signal.SIGPIPE):
                signal.signal(number, signal.SIG_IGN)
            os.close(self.held)
            for end in range(3):
                if end != held:
                    os.close(end)
            while os.read(held, 1):
                pass
            os.killpg(0, signal.SIGKILL)
        finally:
            os._exit(0)

    def start(self, words, given=None, seconds=None, memory=None, errors=subprocess.DEVNULL, cwd=None):
        """Starts a program with its output in a pipe, the bytes `given` as its input, and limits of processor seconds and bytes of memory."""

        def prepare():
            os.setpgid(0, self.keeper)
            _end_with_maker(self.maker)
            limit(seconds, memory)

        try:
            process = subprocess.Popen(
                words,
                stdin=subprocess.DEVNULL if given is None else given,
                stdout=subprocess.PIPE,
                stderr=errors,
                bufsize=0,
                cwd=cwd,
                preexec_fn=prepare,
            )
        except (OSError, subprocess.SubprocessError) as error:
            why = reason_of(error) if isinstance(error, OSError) else str(error)
            raise Fault(BROKEN, f"{words[0]} can't be started: {why}") from error
        return Child(process)

    def end(self):
        """Ends every process of the family."""
        if self.held is None:
            return
        try:
            os.killpg(self.keeper, signal.SIGKILL)
        except OSError:
            pass
        os.close(self.held)
        self.held = None
        os.waitpid(self.keeper, 0)

    def __enter__(self):
        return self

    def __exit__(self, *_):
        self.end()


def limit(seconds, memory):
    """Sets the limits of this process: processor seconds, and bytes of memory."""
    resource.setrlimit(resource.RLIMIT_CORE, (0, 0))
    if seconds is not None:
        whole = max(1, int(seconds + 0.999))
        resource.setrlimit(resource.RLIMIT_CPU, (whole, whole + 1))
    if memory is not None:
        resource.setrlimit(resource.RLIMIT_AS, (memory, memory))
