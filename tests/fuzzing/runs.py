"""Runs of programs under a limit of memory and time."""
import os
import resource
import signal

SECONDS = 10


class TooLong(Exception):
    pass


def too_long(_signal, _frame):
    raise TooLong


def limit_memory(size):
    """Limits this process, and those that it starts, to so many bytes; 0 is no limit."""
    if size:
        resource.setrlimit(resource.RLIMIT_AS, (size, resource.RLIM_INFINITY))
    resource.setrlimit(resource.RLIMIT_CORE, (0, 0))


class Run:
    """A status (negative: a signal; None: too long), the standard output, and the standard error."""

    def __init__(self, status, out, err):
        self.status, self.out, self.err = status, out, err

    def summary(self):
        """The run without what is a name's."""
        if self.status is None or self.status not in (0, 1, 2):
            return f"status {self.status}"
        if self.status == 0:
            return f"status 0, {'output' if self.out else 'no output'}"
        line = self.err.split(b"\n")[0].decode("utf-8", "replace")
        for start in ("no program", "cannot read", "usage"):
            if f"{start} " in line or line.startswith(start):
                line = start
        return f"status {self.status}, {line}"


class Runs:
    """Runs one program after the other."""

    def __init__(self):
        signal.signal(signal.SIGALRM, too_long)
        self.out = os.memfd_create("out")
        self.err = os.memfd_create("err")
        self.null = os.open("/dev/null", os.O_RDONLY)

    def start(self, words):
        for file in (self.out, self.err):
            os.ftruncate(file, 0)
            os.lseek(file, 0, os.SEEK_SET)
        moved = [(os.POSIX_SPAWN_DUP2, was, to) for was, to in ((self.null, 0), (self.out, 1), (self.err, 2))]
        return os.posix_spawn(words[0], words, {}, file_actions=moved)

    def wait(self, process):
        """The status; None where it takes too long, and then it is killed."""
        signal.alarm(SECONDS)
        try:
            return os.waitstatus_to_exitcode(os.waitpid(process, 0)[1])
        except TooLong:
            os.kill(process, signal.SIGKILL)
            os.waitpid(process, 0)
            return None
        finally:
            signal.alarm(0)

    def run(self, words):
        status = self.wait(self.start(words))
        out = os.pread(self.out, os.fstat(self.out).st_size, 0)
        return Run(status, out, os.pread(self.err, 10000, 0))
