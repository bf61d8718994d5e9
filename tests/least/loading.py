"""BPF_BTF_LOAD of the running kernel (bpf(2))."""
import ctypes
import errno
import os
import struct

BPF, BTF_LOAD = 321, 18
LOG_SIZE = 1 << 24


def call(data, log=None):
    """Returns 0 where the kernel takes types, else the number of the error. A log gets what its verifier says."""
    libc = ctypes.CDLL(None, use_errno=True)
    held = ctypes.create_string_buffer(data, len(data))
    where, size, level = (ctypes.addressof(log), LOG_SIZE, 1) if log else (0, 0, 0)
    # btf, btf_log_buf, btf_size, btf_log_size, btf_log_level
    words = struct.pack("<QQIII", ctypes.addressof(held), where, len(data), size, level)
    attributes = ctypes.create_string_buffer(words, len(words))
    descriptor = libc.syscall(BPF, BTF_LOAD, attributes, len(words))
    if descriptor < 0:
        return ctypes.get_errno()
    os.close(descriptor)
    return 0


def is_allowed():
    """Returns whether this process may load types: an empty list of types gives another error than EPERM."""
    return call(b"") not in (errno.EPERM, errno.ENOSYS)


def load(data):
    """Returns None where the kernel takes types, else the error and the last lines of its log."""
    error = call(data)
    if not error:
        return None
    log = ctypes.create_string_buffer(LOG_SIZE)
    call(data, log)
    said = log.value.decode("utf-8", "replace").strip().splitlines()
    return f"{os.strerror(error)}: {' | '.join(said[-2:])}"
