"""Rows of one call between two marks."""
from growths.answers import ANSWERS
from growths.driver import DriverRow

# Subjects and calls that allocate in each of their rows that ends in Ok.
ALLOCATING = ("parse", "prepare", "inspect", "clone", "relocate_btf", "relocate_calls", "parse_types")


class Parts:
    """What a run of test_alloc_failures printed: what stood before the call, its answer, and what stood behind it."""

    def __init__(self, out):
        text = out.decode("utf-8", "replace")
        self.front, _, rest = text.partition("== begin\n")
        rest, has_end, rest_behind = rest.partition("== end\n")
        self.is_whole = has_end != "" and rest == "" and rest_behind.startswith("answer: ")
        said = rest_behind[len("answer: ") :]
        self.answer, has_after, after = said.partition("\nafter:\n")
        self.answer = self.answer if has_after else said.removesuffix("\n")
        _, has_before, before = self.front.partition("before:\n")
        self.before = before if has_before else None
        self.after = after if has_after else None


class CallRow(DriverRow):
    """A call on three files: an object, a kernel's types and its symbols. `subject` and `calls` are the words behind
    them. With memory the answer begins with `starts`; None: whatever it is, and then each growth is refused alone."""

    def __init__(self, name, files, subject, *calls, starts="Ok"):
        super().__init__(name, files, subject, *calls)
        key = subject if subject in ANSWERS else f"{subject} {calls[-1].partition('=')[0]}"
        self.memory_answers = ANSWERS[key]
        self.starts = starts
        self.allocates = starts == "Ok" and (subject in ALLOCATING or calls and calls[-1] in ALLOCATING)
        self.may_do_without = subject in ("parse", "prepare", "inspect")
        if starts is None:
            self.endings = ("",)

    def counted_fault(self, counted):
        return "no allocation was met" if self.allocates and counted.met == 0 else None

    def ample_fault(self, ample):
        parts = Parts(ample.out)
        if ample.status != 0 or ample.err or not parts.is_whole:
            return f"status {ample.status}, {ample.err[:200]!r}, {ample.out[:300]!r}"
        if parts.answer in self.memory_answers or not parts.answer.startswith(self.starts or ""):
            return f"answers {parts.answer[:300]!r}"
        return None

    def refused_fault(self, ample, run):
        parts, with_memory = Parts(run.out), Parts(ample.out)
        if run.status != 0 or run.err or not parts.is_whole:
            return f"status {run.status}, {run.err[:200]!r}, {run.out[-300:]!r}"
        allowed = list(self.memory_answers)
        if not with_memory.answer.startswith(("Ok", "Some")):
            allowed.append(with_memory.answer)
        if parts.answer not in allowed:
            return f"answers {parts.answer[:300]!r}"
        if parts.front != with_memory.front:
            return "another object before the call"
        if parts.after != parts.before:
            return "another object behind the call"
        return None
