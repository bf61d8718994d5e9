#!/usr/bin/env python3
"""The types that `kernel_types` makes, beside those of libbpf 1.5 after bpf_object__load, bpf(2) answered by a stub.

    beside_libbpf.py LIBBPF PROGRAM [OBJECT ..]

LIBBPF has root/usr/include and root/usr/lib64 of libbpf 1.5, PROGRAM is test_kernel_types, as `bench/build.sh FOLDER test_kernel_types` builds it. The
objects are those given, those of crates/*/data and tests/objects, those of the rows (make_rows.py), and those that clang
makes of the sources in objects/, with each version of clang that is there (clang, clang-19).

The bytes have to be equal, but for names that are appended: libbpf calls the variable that stands in for functions
dummy_ksym, and appends no name that is there already. So where the bytes differ, types are compared by the names at their
offsets, and the strings by the names that they have. Types that can't be read libbpf does without, and PROGRAM refuses them:
that is the same. Where libbpf refuses an object, nothing is compared; how many these are is told. Hidden functions it makes
static in a load that finds each strong extern, and the kernel's configuration where externs want it. Ends with 'N the same, M
differ, K not compared', and with status 1 where one differs.
"""

import pathlib
import shutil
import struct
import subprocess
import sys
import tempfile

HERE = pathlib.Path(__file__).resolve().parent
TOP = HERE.parent.parent
STAND_INS = (b"dummy_ksym", b"ksym_func_placeholder")

# Rows that aren't asked, since libbpf does otherwise: of two sections .BTF it takes the last, it takes types of another byte
# order than the file's, and none that stand behind their strings. Without an INT of 4 bytes it gives variables the type void,
# which a kernel refuses. Of an extern of 2^31 bytes it ends by a signal.
UNASKED = {"btf_twice", "btf_of_another_order", "header_of_32_bytes"}
UNASKED |= {"ksyms_function_without_an_int_of_4_bytes", "ksyms_variable_without_an_int_of_4_bytes"}
UNASKED |= {"kconfig_of_4_gib", "kconfig_struct_then_of_4_gib", "kconfig_of_4_gib_less_1"}

# how many words follow the first three: of the kind alone, or for each member, variant, parameter or entry
FURTHER = {1: 1, 2: 0, 3: 3, 7: 0, 8: 0, 9: 0, 10: 0, 11: 0, 12: 0, 14: 1, 16: 0, 17: 1, 18: 0}
FOR_EACH = {4: 3, 5: 3, 6: 2, 13: 2, 15: 3, 19: 3}


def named(name):
    return b"the stand-in" if name in STAND_INS else name


def name_at(strings, offset):
    return named(strings[offset:strings.index(b"\0", offset)])


def named_types(digits):
    """The header's first words, each type as its words, with names in place of their offsets, and all names."""
    data = bytes.fromhex(digits)
    magic, length, types, types_length, strings, strings_length = struct.unpack_from("<6I", data)
    part = data[length + types:length + types + types_length]
    strings = data[length + strings:length + strings + strings_length]
    found, offset = [], 0
    while offset < len(part):
        info = struct.unpack_from("<I", part, offset + 4)[0]
        kind, count = info >> 24 & 31, info & 0xFFFF
        further = FURTHER[kind] if kind in FURTHER else FOR_EACH[kind] * count
        words = list(struct.unpack_from(f"<{3 + further}I", part, offset))
        words[0] = name_at(strings, words[0])
        if kind == 13:
            words[3::2] = [name_at(strings, word) for word in words[3::2]]
        found.append(words)
        offset += 4 * len(words)
    return [magic, length, types, found, set(map(named, strings.split(b"\0")))]


def compiled(folder):
    objects = []
    for clang in ("clang", "clang-19"):
        if not shutil.which(clang):
            continue
        for source in sorted((HERE / "objects").glob("*.c")):
            target = folder / f"{source.stem}_{clang}.o"
            flags = ["-target", "bpf", "-O2", "-g", "-w", "-fdebug-compilation-dir=."]
            subprocess.run([clang, *flags, "-c", source, "-o", target], check=True)
            objects.append(target)
    return objects


def libbpf_program(libbpf, folder):
    program = folder / "libbpf_types"
    lib = libbpf / "root/usr/lib64"
    flags = ["-O1", "-w", "-I", libbpf / "root/usr/include", "-L", lib, f"-Wl,-rpath,{lib}"]
    subprocess.run(["gcc", *flags, "-o", program, HERE / "libbpf_types.c", "-lbpf", "-lelf"], check=True)
    return program


def answers(program, objects):
    """The lines of a program over objects, some at a time."""
    lines = []
    for start in range(0, len(objects), 200):
        some = [str(path) for path in objects[start:start + 200]]
        ran = subprocess.run([program, *some], capture_output=True, text=True)
        told = ran.stdout.splitlines()
        if ran.returncode or len(told) != len(some):
            sys.exit(f"{program} ended with status {ran.returncode} behind {some[max(len(told) - 1, 0)]}: {ran.stderr[-300:]}")
        lines += told
    return lines


def compared(ours, theirs):
    """True where equal, False where not, None where there is nothing to compare."""
    if theirs.startswith("refused"):
        return None
    if ours.startswith("refused"):
        return theirs == "none"
    if ours == theirs or "none" in (ours, theirs):
        return ours == theirs
    return named_types(ours) == named_types(theirs)


def main():
    libbpf, program, *given = [pathlib.Path(word).resolve() for word in sys.argv[1:]]
    with tempfile.TemporaryDirectory() as name:
        folder = pathlib.Path(name)
        own = {*TOP.glob("crates/*/data/*.o"), *TOP.glob("tests/drivers/*/data/*.o"), *(TOP / "tests/objects").glob("*.o")}
        own |= {path for path in (TOP / "tests/drivers/test_kernel_types/data").iterdir() if path.name not in UNASKED}
        objects = compiled(folder) + sorted(own) + given
        ours = answers(program, objects)
        theirs = answers(libbpf_program(libbpf, folder), objects)
        results = [compared(*each) for each in zip(ours, theirs, strict=True)]
    for path, result in zip(objects, results):
        if result is False:
            print(f"differ: {path}")
    print(f"{results.count(True)} the same, {results.count(False)} differ, {results.count(None)} not compared")
    return 1 if False in results else 0


if __name__ == "__main__":
    sys.exit(main())
