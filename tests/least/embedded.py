"""The eBPF objects in a file: little-endian ELF64 files, relocatable, for machine 247."""
import struct

START = b"\x7fELF\x02\x01"
RELOCATABLE, BPF, NOBITS = 1, 247, 8


def end_of(data, at):
    """Returns where the object that begins at a place ends: behind its section headers and its sections."""
    (table,) = struct.unpack_from("<Q", data, at + 40)
    (count,) = struct.unpack_from("<H", data, at + 60)
    end = at + table + 64 * count
    for number in range(count):
        row = struct.unpack_from("<IIQQQQIIQQ", data, at + table + 64 * number)
        if row[1] != NOBITS:
            end = max(end, at + row[4] + row[5])
    return end


def objects_in(data):
    """Returns the bytes of each object."""
    found, at = [], data.find(START)
    while at >= 0:
        end = at + len(START)
        if len(data) - at >= 64 and struct.unpack_from("<HH", data, at + 16) == (RELOCATABLE, BPF):
            end = end_of(data, at)
            found.append(data[at:end])
        at = data.find(START, end)
    return found
