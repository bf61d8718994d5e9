"""Runs that are measured."""
import os
import signal

# The sizes of each shape, as multiples of the first.
TIMES = (1, 2, 4)

# What is linear, but for a logarithm and noise; times below some hundredths of a second say little.
GROWTH, LEAST = 6, 0.1

# Bytes of memory for each byte of the file, and what each run may take.
FOR_EACH_BYTE, FLOOR = 64, 16 << 20


class Run:
    """A status (None: too long), seconds of a processor, bytes of memory at the peak, and the size of the files."""

    def __init__(self, status, seconds, memory, size):
        self.status, self.seconds, self.memory, self.size = status, seconds, memory, size


def too_long(_signal, _frame):
    raise TimeoutError


def once(words, seconds):
    """A run of a program on the files among its words."""
    quiet = os.open("/dev/null", os.O_RDWR)
    moved = [(os.POSIX_SPAWN_DUP2, quiet, to) for to in (0, 1, 2)]
    process = os.posix_spawn(words[0], words, {}, file_actions=moved)
    os.close(quiet)
    signal.signal(signal.SIGALRM, too_long)
    signal.alarm(seconds)
    try:
        _, status, used = os.wait4(process, 0)
        signal.alarm(0)
        status = os.waitstatus_to_exitcode(status)
    except TimeoutError:
        os.kill(process, signal.SIGKILL)
        _, _, used = os.wait4(process, 0)
        status = None
    size = sum(os.path.getsize(word) for word in words[1:] if os.path.exists(word))
    return Run(status, used.ru_utime + used.ru_stime, 1024 * used.ru_maxrss, size)


def run(words, seconds):
    """The shorter of two runs, where the first is no long one."""
    first = once(words, seconds)
    if first.status != 0 or first.seconds > 2:
        return first
    second = once(words, seconds)
    return min(first, second, key=lambda found: found.seconds)


class Measured:
    """A shape's runs, by size. What one costs that is told is no fault."""

    def __init__(self, name, runs, is_told):
        self.name, self.runs, self.is_told = name, runs, is_told

    def growth(self):
        """Time at the last size by that at the first."""
        return self.runs[-1].seconds / self.runs[0].seconds

    def for_each_byte(self):
        return max(found.memory / found.size for found in self.runs)

    def faults(self):
        last = self.runs[-1]
        if last.status != 0:
            return ["no end" if last.status is None else f"status {last.status}"]
        found = []
        if self.is_told:
            return found
        if last.seconds > LEAST and self.growth() > GROWTH:
            found.append("time")
        if any(each.memory > max(FOR_EACH_BYTE * each.size, FLOOR) for each in self.runs):
            found.append("memory")
        return found

    def line(self, base):
        cells = "".join(f"{each.seconds:9.3f}{each.memory / 2**20:7.0f}" for each in self.runs)
        cells = cells.ljust(16 * len(TIMES))
        numbers = f"{self.growth():8.1f}{self.for_each_byte():7.0f}"
        return f"{self.name:32}{base // 1024:6}{cells}{numbers} {' '.join(self.faults())}"
