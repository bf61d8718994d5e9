"""Object files with eBPF programs in a folder, alone or in executables that hold them, as those with a skeleton do."""
import struct

HEAD = b"\x7fELF\x02\x01\x01"
BPF = 247


def objects_in(raw):
    """The bytes of each object, little endian, in a file."""
    at = raw.find(HEAD)
    while at >= 0:
        if len(raw) >= at + 64 and struct.unpack_from("<H", raw, at + 18)[0] == BPF:
            (sections,) = struct.unpack_from("<Q", raw, at + 40)
            each, count = struct.unpack_from("<HH", raw, at + 58)
            yield raw[at : at + sections + each * count]
        at = raw.find(HEAD, at + 1)


def real_objects(folder):
    """The name and the bytes of each object of a folder's files, in order. A link is passed over: its file counts."""
    for path in sorted(folder.iterdir()):
        if path.is_symlink() or not path.is_file():
            continue
        for number, data in enumerate(objects_in(path.read_bytes())):
            yield path.stem if number == 0 else f"{path.stem}-{number}", data
