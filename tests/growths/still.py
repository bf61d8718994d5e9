"""Calls that take no memory: with every growth refused they answer what they answer with memory, and meet none."""
from growths import inputs
from growths.driver import DriverRow
from growths.run import Tally


class StillRow(DriverRow):
    def __init__(self, name, object_file, types, *calls):
        super().__init__(name, (object_file, types, b""), *calls)

    def ample_fault(self, ample):
        if ample.status != 0 or ample.err or b"\nanswer: " not in ample.out:
            return f"status {ample.status}, {ample.err[:200]!r}, {ample.out[:200]!r}"
        return None

    def judge(self, runner):
        runner.row = self
        tally, words = Tally(self.name), self.words(runner)
        missing = self.missing(runner, words)
        if missing:
            tally.count("the program", missing)
            return tally
        ample = runner.run(words)
        run = runner.run(words, "1-")
        fault = self.ample_fault(ample) or self.plain_fault(ample, run)
        if fault is None and run.met:
            fault = f"takes memory {run.met} times"
        tally.count("with every growth refused", fault)
        return tally


def rows():
    data = inputs.section(inputs.REFERENCES.read_bytes(), ".BTF")
    found = [
        StillRow("accessors of maps, keys, queries, registers", inputs.COUNTER, b"", "object", "kept_still"),
        StillRow("the same, all kinds of references", inputs.REFERENCES, b"", "object", "kept_still"),
        StillRow("sanitize_functions", inputs.COUNTER, b"", "object", "sanitize_functions"),
        StillRow("an ELF file", inputs.REFERENCES, b"", "file", "elf"),
        StillRow("no ELF file", b"foo", b"", "file", "elf"),
        StillRow("types", b"", data, "types", "still"),
        StillRow("candidates", b"", data, "types", "candidates=rq"),
    ]
    return found + [StillRow(f"the number {n}", b"", b"", "file", f"numbers={n}") for n in (0, 1, 2, 34, 35)]
