#!/usr/bin/env python3
"""Writes the smallest object of interest: a kprobe program that calls a function in .text.

616 bytes, little endian. usage: make_call_object.py FILE
"""
import struct
import sys

CALL = bytes.fromhex("85100000ffffffff")
EXIT = bytes.fromhex("9500000000000000")
NAMES = b"\0p\0f\0kprobe/p\0.text\0.symtab\0.strtab\0.relkprobe/p\0"


def symbol(name, info, section, size):
    return struct.pack("<IBBHQQ", name, info, 0, section, 0, size)


def section(name, kind, flags, offset, size, link, info):
    return struct.pack("<IIQQQQIIQQ", name, kind, flags, 0, offset, size, link, info, 0, 0)


def call_object():
    header = b"\x7fELF\x02\x01\x01".ljust(16, b"\0")
    header += struct.pack("<HHIQQQIHHHHHH", 1, 247, 1, 0, 0, 232, 0, 64, 0, 0, 64, 6, 4)
    symbols = bytes(24) + symbol(1, 0x12, 1, 16) + symbol(3, 0x12, 2, 8)
    relocation = struct.pack("<QII", 0, 10, 2)
    sections = [
        section(0, 0, 0, 0, 0, 0, 0),
        section(5, 1, 6, 64, 16, 0, 0),
        section(14, 1, 6, 80, 8, 0, 0),
        section(20, 2, 0, 88, 72, 4, 1),
        section(28, 3, 0, 176, 49, 0, 0),
        section(36, 9, 0, 160, 16, 3, 1),
    ]
    start = header + CALL + EXIT + EXIT + symbols + relocation + NAMES
    return start.ljust(232, b"\0") + b"".join(sections)


if __name__ == "__main__":
    with open(sys.argv[1], "wb") as file:
        file.write(call_object())
