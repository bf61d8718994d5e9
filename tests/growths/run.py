"""Programs that are run while memory is refused to them."""
import os
import signal
from pathlib import Path

CRATES = Path(__file__).parents[2] / "crates"

# A run takes milliseconds.
SECONDS = 20


class Tally:
    """How many runs gave what they have to give, and what is wrong with the others."""

    def __init__(self, row):
        self.row, self.passed, self.faults = row, 0, []

    def count(self, what, fault):
        """Counts a run; `fault` says what is wrong with it, or None."""
        if fault is None:
            self.passed += 1
        else:
            self.faults.append(f"{self.row}, {what}: {fault}")


class Output:
    """What a run left: its status, what it wrote, and how many growths it met and was refused (None: no library)."""

    def __init__(self, status, out, err, growths=None):
        self.status, self.out, self.err = status, out, err
        self.met, self.refused = growths or (0, 0)
        self.is_counted = growths is not None


def split_growths(err):
    """Standard error without the last line, and what that says of growths."""
    lines = err.splitlines(keepends=True)
    words = lines[-1].split() if lines else []
    if len(words) != 3 or words[0] != b"growths":
        return err, None
    return b"".join(lines[:-1]), (int(words[1]), int(words[2]))


def too_long(_signal, _frame):
    raise TimeoutError


class Runner:
    """Runs programs with the library and without it, one after the other."""

    def __init__(self, folder):
        self.folder = folder
        self.null = os.open("/dev/null", os.O_RDONLY)
        self.written = [os.memfd_create("out"), os.memfd_create("err")]
        signal.signal(signal.SIGALRM, too_long)

    def path(self, data):
        """A file with these bytes; no bytes are /dev/null."""
        if not data:
            return "/dev/null"
        path = self.folder / f"{os.getpid()}-{hash(data) % 2**64:x}"
        if not path.exists():
            path.write_bytes(data)
        return str(path)

    def wait(self, process):
        """The status; None where it takes too long."""
        signal.alarm(SECONDS)
        try:
            return os.waitstatus_to_exitcode(os.waitpid(process, 0)[1])
        except TimeoutError:
            os.kill(process, signal.SIGKILL)
            os.waitpid(process, 0)
            return None
        finally:
            signal.alarm(0)

    def ended(self, words, known):
        """The status, the output and the standard error of a run."""
        for file in self.written:
            os.ftruncate(file, 0)
            os.lseek(file, 0, os.SEEK_SET)
        files = [self.null, *self.written]
        moved = [(os.POSIX_SPAWN_DUP2, file, to) for to, file in enumerate(files)]
        status = self.wait(os.posix_spawn(words[0], words, known, file_actions=moved))
        return status, *(os.pread(file, os.fstat(file).st_size, 0) for file in self.written)

    def run(self, words, refused=None, is_marked=True):
        """A run of a program; `refused` is what the library reads, and None runs the program without it."""
        if refused is None:
            return Output(*self.ended(words, {}))
        library = str(self.folder / "refused_growths.so")
        known = {"LD_PRELOAD": library, "GROWTHS_REFUSED": str(refused), "GROWTHS_MARKED": str(int(is_marked))}
        status, out, err = self.ended(words, known)
        return Output(status, out, *split_growths(err))


class Row:
    """A program's words. Each growth is refused in turn, alone and with all behind it, until a run meets no refusal."""

    is_marked = True

    # Whether files are parsed, of whose tables some are made by std's `collect`: that asks for room by a hint, and where
    # one growth is refused, for less.
    may_do_without = False

    # What stands behind the number of the growth, for the library.
    endings = ("", "-")

    def __init__(self, name, *words):
        self.name, self.given = name, words

    def words(self, runner):
        return [runner.path(word) if isinstance(word, bytes) else str(word) for word in self.given]

    def ample_fault(self, ample):
        """What is wrong with the run without the library."""
        raise NotImplementedError

    def refused_fault(self, ample, run):
        """What is wrong with a run that was refused memory."""
        raise NotImplementedError

    def plain_fault(self, ample, run):
        """What is wrong with a run with the library that was refused nothing."""
        if not run.is_counted:
            return "no count of growths"
        if (run.status, run.out, run.err) != (ample.status, ample.out, ample.err):
            return "another answer than without the library"
        return None

    def fault(self, ample, run, number, met, ending):
        """What is wrong with the run that the growth of a number was refused to, where `met` are met with memory."""
        if number > met:
            return "refused past the last growth" if run.refused else self.plain_fault(ample, run)
        if not run.is_counted or not run.refused:
            return f"nothing was refused: {run.status} {run.err[-200:]!r}"
        if self.may_do_without and not ending and self.plain_fault(ample, run) is None:
            return None
        return self.refused_fault(ample, run)

    def counted_fault(self, _counted):
        """What is wrong with the number of growths that the run met which counts them, or None."""
        return None

    def missing(self, runner, words):
        """Why the program can't be run, or None."""
        return None if os.access(words[0], os.X_OK) else f"{words[0]} is not built"

    def judge(self, runner):
        """Runs all, and counts."""
        tally, words = Tally(self.name), self.words(runner)
        missing = self.missing(runner, words)
        if missing:
            tally.count("the program", missing)
            return tally
        ample = runner.run(words)
        counted = runner.run(words, 0, self.is_marked)
        tally.count("with memory", self.ample_fault(ample) or self.plain_fault(ample, counted) or self.counted_fault(counted))
        for ending in self.endings:
            for number in range(1, counted.met + 2):
                run = runner.run(words, f"{number}{ending}", self.is_marked)
                what = f"growth {number}{' and all behind it' if ending else ''} of {counted.met}"
                tally.count(what, self.fault(ample, run, number, counted.met, ending))
        return tally
