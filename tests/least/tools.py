"""Objects of a distribution over the types of its kernels, and what libbpf, bpftool and the running kernel make of the least types."""
import json
import shutil
import statistics
import subprocess
import tempfile
import time
from concurrent.futures import ThreadPoolExecutor
from dataclasses import dataclass, field
from pathlib import Path

from least.embedded import objects_in
from least import loading
from least.runs import needs_ids, outcome, run, write_least
from rows.btf import btf, integer

# The size of a file without types, which the kernel doesn't load.
EMPTY = 25

# The kernel version for objects that read it as a kconfig extern.
OPTIONS = ("--kernel", "6.12", "--kconfig", "/dev/null")


@dataclass
class Seen:
    """What was seen of an object over a kernel: sizes in bytes and times in seconds by the writer, how many checks passed,
    the failures, and what bpftool's types change."""

    sizes: dict = field(default_factory=dict)
    times: dict = field(default_factory=dict)
    passed: int = 0
    failures: list = field(default_factory=list)
    changed: list = field(default_factory=list)

    def check(self, is_right, words):
        self.passed += is_right
        if not is_right:
            self.failures.append(words)


def debian_files():
    """Returns the programs of Debian's libbpf-tools."""
    listed = subprocess.run(["dpkg", "-L", "libbpf-tools"], capture_output=True, text=True).stdout.splitlines()
    return [path for path in map(Path, listed) if "/sbin/" in str(path) and path.is_file() and not path.is_symlink()]


def write_objects(files, folder):
    """Writes the objects in files, each under the name of its file, and returns their paths."""
    paths = []
    for file in files:
        for number, data in enumerate(objects_in(file.read_bytes())):
            path = folder / (file.name + (f".{number + 1}" if number else ""))
            path.write_bytes(data)
            paths.append(path)
    return sorted(paths)


def timed(seen, writer, action):
    start = time.monotonic()
    made = action()
    seen.times[writer] = time.monotonic() - start
    return made


class Comparison:
    """Comparisons of one object over one kernel at a time, in a folder for files."""

    def __init__(self, given, folder):
        self.given, self.folder = given, folder

    def over(self, held, kernel):
        seen, name = Seen(), f"{held.name} over {kernel.name}"
        least = self.folder / f"{held.name}-{kernel.name}.least"
        made = timed(seen, "ebpf", lambda: write_least(self.given.ebpf, [held], kernel, least, "--allow-ids"))
        seen.check(made.status == 0, f"{name}: {made}")
        if made.status:
            return seen
        seen.sizes["ebpf"] = least.stat().st_size
        self.compare(seen, name, held, kernel, least)
        self.judge(seen, name, least)
        if self.given.bpftool:
            self.compare_bpftool(seen, name, held, kernel)
        least.unlink()
        return seen

    def readers(self):
        """Yields what gives the slots of an object over types, with a name for each."""
        yield "ebpf link", lambda held, types: outcome(self.given.ebpf, held, types, *OPTIONS)
        for dump in self.given.dump:
            yield f"{dump.parent.name}/{dump.name}", lambda held, types, dump=dump: run(dump, held, "--btf", types)

    def compare(self, seen, name, held, kernel, least):
        for reader, slots in self.readers():
            wanted, found = slots(held, kernel), slots(held, least)
            is_right = (wanted.status, wanted.out) == (found.status, found.out)
            seen.check(is_right, f"{name}: {reader} gives other slots: {found.said.decode('utf-8', 'replace')[:300]}")

    def judge(self, seen, name, least):
        if self.given.bpftool:
            dumped = run("bpftool", "btf", "dump", "file", least)
            seen.check(dumped.status == 0, f"{name}: bpftool btf dump: {dumped.said}")
        if self.given.load and least.stat().st_size > EMPTY:
            fault = loading.load(least.read_bytes())
            seen.check(fault is None, f"{name}: BPF_BTF_LOAD: {fault}")

    def compare_bpftool(self, seen, name, held, kernel):
        """Compares the slots over bpftool's types with those over the kernel's. Differences are no failure of ours."""
        theirs = self.folder / f"{held.name}-{kernel.name}.bpftool"
        made = timed(seen, "bpftool", lambda: run("bpftool", "gen", "min_core_btf", kernel, theirs, held))
        if made.status:
            seen.changed.append(f"{name}: bpftool gen min_core_btf: {made.said.decode('utf-8', 'replace').strip()[-200:]}")
            return
        seen.sizes["bpftool"] = theirs.stat().st_size
        for reader, slots in self.readers():
            wanted, found = slots(held, kernel), slots(held, theirs)
            if (wanted.status, wanted.out) != (found.status, found.out):
                seen.changed.append(f"{name}: {reader} gives other slots over bpftool's types")
        theirs.unlink()


def needed(given, held, folder):
    """Returns what an object needs of the kernel's ids, and the failures: without `--allow-ids` such an object is refused.
    The kernel doesn't count."""
    output, kernel = folder / f"{held.name}.ids", folder / "small"
    plain = write_least(given.ebpf, [held], kernel, output)
    is_written = output.exists()
    made = write_least(given.ebpf, [held], kernel, output, "--allow-ids", "--json")
    found = json.loads(made.out)["not_kept"] if made.status == 0 else []
    failures = []
    if needs_ids(plain) != bool(found) or is_written == bool(found):
        failures.append(f"{held.name}: {plain} where {len(found)} ids are needed")
    return found, failures


def put_totals(kernel, held):
    """Prints the sums over the objects of one kernel."""
    for writer in ("ebpf", "bpftool"):
        sizes = [seen.sizes[writer] for seen in held if writer in seen.sizes]
        times = [seen.times[writer] for seen in held if writer in seen.times]
        if sizes:
            spread = f"{min(sizes)} to {max(sizes)}, median {statistics.median(sizes):.0f}"
            print(f"{kernel.name} ({kernel.stat().st_size} bytes): {writer}: {len(sizes)} files of {spread} bytes, all "
                  f"{sum(sizes)}; median {1000 * statistics.median(times):.0f} ms")


def put_table(path, objects, kernels, found):
    """Writes a line for each object: the sizes over each kernel, ours and bpftool's."""
    with open(path, "w") as out:
        out.write("object\t" + "\t".join(f"{kernel.name}\tbpftool" for kernel in kernels) + "\n")
        for held in objects:
            sizes = [found[held, kernel].sizes for kernel in kernels]
            cells = [str(each.get(writer, "-")) for each in sizes for writer in ("ebpf", "bpftool")]
            out.write("\t".join([held.name, *cells]) + "\n")


def put_skipped(given):
    """Prints which readers are not asked, and leaves out those that can't be."""
    if given.bpftool and not shutil.which("bpftool"):
        given.bpftool = False
        print("skipped: bpftool: it is not installed")
    elif not given.bpftool:
        print("skipped: bpftool (--bpftool)")
    if not given.dump:
        print("skipped: libbpf (--dump)")
    if given.load and not loading.is_allowed():
        given.load = False
        print("skipped: BPF_BTF_LOAD: it is not allowed here")
    elif not given.load:
        print("skipped: BPF_BTF_LOAD (--load)")


def compare(given):
    """Compares the objects over the kernels. Returns how many checks passed, and the failures."""
    files = sorted(path for path in given.files.iterdir() if path.is_file()) if given.files else debian_files()
    kernels = sorted(path for path in given.kernels.iterdir() if path.is_file())
    with tempfile.TemporaryDirectory() as made:
        (folder := Path(made) / "objects").mkdir()
        objects = write_objects(files, folder)
        print(f"{len(objects)} objects of {len(files)} files, {len(kernels)} kernels")
        (Path(made) / "small").write_bytes(btf(integer("int", 4)))
        comparison = Comparison(given, Path(made))
        pairs = [(held, kernel) for held in objects for kernel in kernels]
        with ThreadPoolExecutor(given.jobs) as pool:
            found = dict(zip(pairs, pool.map(lambda pair: comparison.over(*pair), pairs)))
            ids = list(pool.map(lambda held: needed(given, held, Path(made)), objects))
    for kernel in kernels:
        put_totals(kernel, [found[held, kernel] for held in objects])
    for held, (uses, _) in zip(objects, ids):
        if uses:
            print(f"{held.name} needs ids: " + ", ".join(f"{use['name']} <{use['kind']}>" for use in uses))
    for seen in found.values():
        for words in seen.changed:
            print(f"bpftool: {words}")
    if given.table:
        put_table(given.table, objects, kernels, found)
    failures = [words for seen in found.values() for words in seen.failures]
    failures += [words for _, held in ids for words in held]
    passed = sum(seen.passed for seen in found.values()) + sum(not held for _, held in ids)
    return passed, failures
