#!/usr/bin/env python3
"""Tries mutants: wrong bodies of functions, which the prover has to refuse. Ends with 'N passed, M failed'.

A mutant is tried where its checksum (mutant_checksums.py) is not the one at which it was last refused: where the
mutant, its crate, a crate below that or the toolchain's logic changed. After each crate, tests/mutants.tsv has the
checksums of the mutants that were refused. A mutant that is not refused loses its row. Nothing else writes that file.
Mutants that are not tried count neither as passed nor as failed.

A mutant is a file of crates/NAME/gate-edits, which `.ci/run` tries, or of crates/NAME/more-edits. It has a line
'file: src/lib.rt' (or another file of src/, specs/ or proofs/), and then pairs of lines 'old: TEXT' and 'new: TEXT'.
Each TEXT of 'old:' is in that file exactly once. The first line of one of gate-edits is 'what: ' and what the wrong body
does; `--list` prints these lines.

Mutants of different functions are tried together, in one check of these functions and what they call. A function is
proved from its own body and the contracts of what it calls: it is refused for its own mutant alone, and the check names
each function that isn't proved and why. The others are tried one by one: a mutant of a function that calls another
mutated one, a mutant outside functions, one that shows in another function. Such a check is of the mutant's functions,
and where these are proved, of the whole crate. A mutant is applied to a copy of the crate, over the libraries below it
as they are built. Where one isn't, `rt check` builds it.
"""
import argparse
import re
import shutil
import subprocess
import sys
import tempfile
from collections import Counter
from concurrent.futures import ThreadPoolExecutor
from dataclasses import dataclass
from pathlib import Path

import over_libraries
from mutant_checksums import KINDS, Checksums, logic, mutants_of, record, refusals, table_faults

TOP = Path(__file__).parents[1]
NEVER, CHANGED, UNCHANGED = "never refused", "changed", "unchanged"
HEAD = re.compile(r"(?m)^( *)(?:pub(?:\([^)]*\))? )?(?:const )?(?:unsafe )?(?:extern \"C\" )?fn (\w+)")


@dataclass(frozen=True)
class Pair:
    """A text that is once in a file, and the text that replaces it."""

    file: str
    old: str
    new: str


@dataclass(frozen=True)
class Body:
    """The function around a place of a file: its module's path; of a method the type, and the trait where it is one's; its
    name."""

    module: str
    owner: str
    of_trait: str
    name: str

    def path(self, crate):
        """The name by which a check tells of it."""
        return "::".join(it for it in (crate, self.module, self.owner + self.of_trait, self.name) if it)


def pairs_of(mutant):
    """The texts that a mutant exchanges."""
    file = old = None
    pairs = []
    for line in mutant.file(TOP).read_text().split("\n"):
        if line.startswith("file: "):
            file = line.removeprefix("file: ").strip()
        elif line.startswith("old: "):
            old = line.removeprefix("old: ")
        elif line.startswith("new:"):
            pairs.append(Pair(file, old, line.removeprefix("new:").removeprefix(" ")))
    return pairs


def bare(text):
    """A type without its parameters."""
    while "<" in text:
        shorter = re.sub(r"<[^<>]*>", "", text.replace("->", ""))
        if shorter == text:
            break
        text = shorter
    return text


def owner_of(text, at):
    """The type that the `impl` around a place is for, and the trait, each as its name alone; a trait's parameters follow it."""
    heads = re.findall(r"(?m)^impl\b(.*)", text[:at])
    if not heads:
        return "", ""
    of_trait, _, owner = re.sub(r"^<[^<>]*(?:<[^<>]*>[^<>]*)*>", "", heads[-1]).split(" where ")[0].rpartition(" for ")
    owners = re.findall(r"\w+", bare(owner))
    return owners[-1] if owners else "", "".join(re.findall(r"\w+", of_trait))


def body_around(file, text, at):
    """The function around a place, or None."""
    if not file.startswith("src/"):
        return None
    heads = [head for head in HEAD.finditer(text) if head.start() <= at]
    if not heads:
        return None
    head = heads[-1]
    end = re.compile(rf"(?m)^{head[1]}\}}$").search(text, head.end())
    if not end or end.start() < at:
        return None
    module = file.removeprefix("src/").removesuffix(".rt").removesuffix("/mod").replace("/", "::")
    owner = owner_of(text, head.start()) if head[1] else ("", "")
    return Body("" if module in ("lib", "main") else module, *owner, head[2])


def apply(crate, pairs, texts):
    """The texts with these pairs exchanged, and the bodies that change; no bodies where some of it lies in none."""
    texts, bodies, is_inside = dict(texts), set(), True
    for pair in pairs:
        text = texts.get(pair.file) or (crate / pair.file).read_text()
        if text.count(pair.old) != 1:
            raise ValueError(f"an 'old:' text is {text.count(pair.old)} times in {pair.file}")
        body = body_around(pair.file, text, text.index(pair.old))
        is_inside = is_inside and body is not None
        bodies.add(body)
        texts[pair.file] = text.replace(pair.old, pair.new)
    return texts, bodies if is_inside else set()


class Copy:
    """A copy of a crate, to which mutants are applied. Each check begins with what the last one kept."""

    def __init__(self, name, jobs):
        self.name, self.jobs = name, jobs
        self.crate = TOP / "crates" / name
        self.named = over_libraries.libraries()
        self.folder = Path(tempfile.mkdtemp(prefix=f"{name}-mutants-"))

    def __enter__(self):
        if over_libraries.unbuilt(self.name, self.named):
            subprocess.run(["rt", "check", "--only", ""], cwd=self.crate, stdin=subprocess.DEVNULL, capture_output=True)
        for part in ("src", "specs", "proofs"):
            if (self.crate / part).is_dir():
                shutil.copytree(self.crate / part, self.folder / part)
        self.work = over_libraries.kept_work(self.name, self.named)
        return self

    def __exit__(self, *_):
        shutil.rmtree(self.folder, ignore_errors=True)

    def check(self, texts, bodies=()):
        """What a check says of the crate with these texts: of these functions and what they call, or of all."""
        before = {file: (self.folder / file).read_text() for file in texts}
        only = [word for body in sorted(body.path(self.name) for body in bodies) for word in ("--only", body)]
        flags = ["--jobs", str(self.jobs), "--incremental", str(self.work), *only]
        try:
            for file, text in texts.items():
                (self.folder / file).write_text(text)
            command = [over_libraries.RATTLE, "check", *over_libraries.words(self.name, self.named), *flags]
            ran = subprocess.run(command, cwd=self.folder, stdin=subprocess.DEVNULL, capture_output=True, text=True, errors="replace")
        finally:
            for file, text in before.items():
                (self.folder / file).write_text(text)
        said = ran.stdout + ran.stderr
        return self.check(texts) if only and "has no function" in said else said


def unproved(said):
    """The functions that a check didn't prove for their own sake: not those alone that call one that isn't proved."""
    lines = re.findall(r"(?m)^fn (\S+): (not proved|no proof)(.*)", said)
    return [name for name, _, why in lines if not re.match(r": it (calls|passes|reaches) ", why)]


def is_refused(crate, bodies, names):
    """Whether one of the bodies is among the functions that weren't proved."""
    for body in bodies:
        path = "::".join(part for part in (crate, body.module) if part)
        if any(re.match(rf"{path}::(?:\S*::)?{body.owner}\w*::(?:\S*::)?{body.name}\b|{path}::(?:fn::)?{body.name}\b", name) for name in names):
            return True
    return False


def try_together(copy, mutants):
    """Tries mutants of different functions in one check. Gives those that it refuses, those that another check may
    refuse, and those that are to be tried one by one."""
    texts, taken, tried, later, alone = {}, set(), [], [], []
    for mutant in mutants:
        try:
            changed, bodies = apply(copy.crate, pairs_of(mutant), texts)
        except ValueError:
            later.append(mutant)
            continue
        if not bodies:
            alone.append(mutant)
        elif bodies & taken:
            later.append(mutant)
        else:
            texts, taken = changed, taken | bodies
            tried.append((mutant, bodies))
    names = unproved(copy.check(texts, taken)) if tried else []
    well = [mutant for mutant, bodies in tried if is_refused(copy.name, bodies, names)]
    return well, later, alone + [mutant for mutant, _ in tried if mutant not in well]


def try_alone(copy, mutant):
    """None where the prover refuses the crate with this mutant alone, else why not. Checks its functions, then all."""
    try:
        texts, bodies = apply(copy.crate, pairs_of(mutant), {})
    except ValueError as error:
        return f"BAD MUTANT: {error}"
    if bodies and is_refused(copy.name, bodies, unproved(copy.check(texts, bodies))):
        return None
    said = copy.check(texts)
    if re.search(r"(?m)^logic=not-proved", said):
        return None
    return "NOT REFUSED: the crate is still proved" if re.search(r"(?m)^logic=proved", said) else f"BAD MUTANT: {said[:400]}"


def try_mutants(name, mutants, jobs):
    """Tries mutants of a crate. Gives those that were refused, and why the others weren't."""
    left, alone, refused, failures = list(mutants), [], [], []
    with Copy(name, jobs) as copy:
        while left:
            well, later, single = try_together(copy, left)
            print(f"{name}: {len(well)} refused together, {len(later) + len(single)} left", flush=True)
            refused += well
            alone += single if well or single else later
            left = later if well or single else []
        for mutant in alone:
            why = try_alone(copy, mutant)
            print(f"{mutant}: {why or 'refused'}", flush=True)
            if why:
                failures.append(f"{mutant}: {why}")
            else:
                refused.append(mutant)
    return refused, failures


def what_of(mutant):
    """What a mutant's wrong body does, as its first line says; empty where it doesn't."""
    first = mutant.read_text().partition("\n")[0]
    return first.removeprefix("what: ") if first.startswith("what: ") else ""


def misfits():
    """How many mutants all crates have, of both kinds, and those that can't be applied to the files as they are."""
    found, failures = mutants_of(TOP), []
    for mutant in found:
        try:
            apply(TOP / "crates" / mutant.crate, pairs_of(mutant), {})
        except (ValueError, OSError) as error:
            failures.append(f"{mutant}: {error}")
        if mutant.kind == "gate" and not what_of(mutant.file(TOP)):
            failures.append(f"{mutant}: its first line is not 'what: ' and what it does")
    return len(found), failures


def row_misfits():
    """One, as a count of tables, and what is wrong with the rows of tests/mutants.tsv."""
    return 1, table_faults(TOP)


def doubt(name, checksums, tried):
    """Why a refusal in a crate may not hold for the checksums, or None: something changed since they were taken, or a
    library below is older than its sources."""
    now = Checksums(TOP, checksums.logic)
    if any(not it.file(TOP).is_file() or now.of(it) != checksums.of(it) for it in tried):
        return "files changed while they were tried"
    old = over_libraries.outdated(name, over_libraries.libraries())
    return f"a library is older than its sources: {' '.join(old)}" if old else None


def try_crate(name, tried, checksums, jobs):
    """Tries mutants of a crate, and writes which were refused. Gives how many were, and why the others weren't."""
    refused, failures = try_mutants(name, tried, jobs)
    why = doubt(name, checksums, tried)
    if why:
        print(f"{name}: no row is kept of what was refused: {why}", flush=True)
    record(TOP, tried, {} if why else {it: checksums.of(it) for it in refused})
    return len(refused), failures


def size_of(name):
    """How long a crate's text is, which tells how long its checks take."""
    return sum(it.stat().st_size for part in ("src", "specs", "proofs") for it in (TOP / "crates" / name / part).rglob("*.*"))


def reason(mutant, kept, checksums):
    """How a mutant's checksum compares with the one at which it was last refused."""
    if mutant not in kept:
        return NEVER
    return UNCHANGED if kept[mutant] == checksums.of(mutant) else CHANGED


def plan(chosen, checksums, is_all):
    """The mutants to try, by crate, the longest crates first. Prints for each crate how many there are and why."""
    kept = refusals(TOP)
    reasons = {it: reason(it, kept, checksums) for it in chosen}
    tried = {}
    for mutant, why in reasons.items():
        if is_all or why != UNCHANGED:
            tried.setdefault(mutant.crate, []).append(mutant)
    tried = dict(sorted(tried.items(), key=lambda it: size_of(it[0]), reverse=True))
    for name, those in tried.items():
        counts = Counter(reasons[it] for it in those)
        why = ", ".join(f"{counts[it]} {it}" for it in (CHANGED, NEVER, UNCHANGED) if counts[it])
        print(f"{name}: {len(those)} mutant{'s' * (len(those) != 1)} to try ({why})", flush=True)
    return tried


def read_words():
    """The words that the tool is called with, and the mutants that they choose."""
    words = argparse.ArgumentParser(description="Tries the mutants that changed since the prover last refused them.")
    words.add_argument("--gate", action="store_true", help="only the mutants of gate-edits, not those of more-edits")
    words.add_argument("--all", action="store_true", help="the unchanged ones too")
    words.add_argument("--list", action="store_true", help="prints what each mutant does, and tries none")
    words.add_argument("--plan", action="store_true", help="prints how many it would try of each crate, and tries none")
    words.add_argument("--jobs", type=int, default=1, help="processes of a check (1)")
    words.add_argument("--crates", type=int, default=1, help="crates that are tried at the same time (1)")
    words.add_argument("names", metavar="NAME", nargs="*", help="a crate; none: each that has mutants")
    given = words.parse_args()
    found = mutants_of(TOP, KINDS[:1] if given.gate else KINDS)
    for name in given.names:
        if not any(it.crate == name for it in found):
            words.error(f"crates/{name} has no such mutants")
    return given, [it for it in found if not given.names or it.crate in given.names]


def main():
    given, chosen = read_words()
    if given.list:
        print("".join(f"{it.crate}/{it.name}: {what_of(it.file(TOP))}\n" for it in chosen), end="")
        return 0
    checksums = Checksums(TOP, logic())
    tried = plan(chosen, checksums, given.all)
    if given.plan:
        print(f"{sum(map(len, tried.values()))} of {len(chosen)} mutants would be tried")
        return 0
    passed, failures = 0, []
    with ThreadPoolExecutor(given.crates) as pool:
        for well, why in pool.map(lambda it: try_crate(*it, checksums, given.jobs), tried.items()):
            passed, failures = passed + well, failures + why
    for failure in failures:
        print(failure)
    unchanged = len(chosen) - sum(map(len, tried.values()))
    if not tried:
        print(f"no mutant was tried: {unchanged} are unchanged since their last refusal")
    elif unchanged:
        print(f"{unchanged} mutants were not tried: they are unchanged since their last refusal")
    print(f"{passed} passed, {len(failures)} failed")
    return 1 if failures else 0


if __name__ == "__main__":
    sys.exit(main())
