#!/usr/bin/env python3
"""The maps of struct_ops that `struct_ops_maps` makes, compared with those of libbpf.

    beside_libbpf.py LIBBPF PROGRAM KERNEL OBJECT ..

LIBBPF has src/tools, the sources of libbpf with those of the kernel around them, and build/staticobjs, its objects. PROGRAM is
test_struct_ops, as `bench/build.sh FOLDER test_struct_ops` builds it. KERNEL has the types of a kernel, of little-endian
numbers, and OBJECT is an object with maps of struct_ops, as those of the kernel's self-tests and of sched_ext.

Of each object the same are: the variables, their maps with their values, the programs at their members, with the offset, the
attach type and the type id of each, or that the object is refused. Variables are compared by name, since libbpf orders them by
offset. Ends with 'N the same, M differ', and with status 1 where one differs.
"""
import subprocess
import sys
import tempfile
from pathlib import Path

HERE = Path(__file__).resolve().parent


def libbpf_program(libbpf, folder):
    tools, program = libbpf / "src/tools", folder / "libbpf_maps"
    flags = [f"-I{tools / part}" for part in ("lib/bpf", "include", "include/uapi")]
    flags.append(f"-I{libbpf / 'build'}")
    held = sorted((libbpf / "build/staticobjs").glob("*.o"))
    objects = [path for path in held if path.name not in ("libbpf.o", "libbpf-in.o")]
    words = ["gcc", "-O1", "-w", *flags, "-o", program, HERE / "libbpf_maps.c", *objects, "-lelf", "-lz"]
    subprocess.run(list(map(str, words)), check=True)
    return program


def outcomes(text):
    """What is printed of each object, by its path: its blocks by their first lines, in an order of their own."""
    found = {}
    for part in text.split("object ")[1:]:
        path, _, rest = part.partition("\n")
        blocks = []
        for line in rest.splitlines():
            if line.startswith("  "):
                blocks[-1] += "\n" + line
            else:
                blocks.append("refused" if line.startswith(("refused:", "no ")) else line)
        found[path] = sorted(set(blocks))
    return found


def answers(program, kernel, objects):
    ran = subprocess.run([program, kernel, *objects], capture_output=True, text=True)
    if ran.returncode:
        sys.exit(f"{program} ended with status {ran.returncode}: {ran.stderr[-300:]}")
    return outcomes(ran.stdout)


def main():
    libbpf, program, *given = [Path(word).resolve() for word in sys.argv[1:]]
    kernel, *objects = map(str, given)
    with tempfile.TemporaryDirectory() as name:
        theirs = answers(libbpf_program(libbpf, Path(name)), kernel, objects)
    ours = answers(program, kernel, objects)
    differ = [path for path in objects if ours[path] != theirs[path]]
    for path in differ:
        print(f"differ: {path}")
        print("\n".join(f"  libbpf {line}" for line in theirs[path] if line not in ours[path]))
        print("\n".join(f"  ours   {line}" for line in ours[path] if line not in theirs[path]))
    print(f"{len(objects) - len(differ)} the same, {len(differ)} differ")
    return 1 if differ else 0


if __name__ == "__main__":
    sys.exit(main())
