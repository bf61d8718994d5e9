"""What the running kernel's configuration and version say, read here and not by the library."""
import gzip
import os
import re
import struct
from pathlib import Path

# Of a configuration that a test writes itself.
OWN = 'CONFIG_HZ=77\n# CONFIG_NO_SUCH_OPTION is not set\nCONFIG_BPF_SYSCALL=n\nCONFIG_NET=m\nCONFIG_LOCALVERSION="xyz"\n'

TRISTATE = {None: 0, "n": 0, "y": 1, "m": 2}


def text():
    """The kernel's configuration; None where the kernel doesn't tell it."""
    stated = Path(f"/boot/config-{os.uname().release}")
    packed = Path("/proc/config.gz")
    if stated.exists():
        return stated.read_text()
    return gzip.decompress(packed.read_bytes()).decode() if packed.exists() else None


def version():
    """The version as (major, minor, last)."""
    major, minor, last = re.match(r"(\d+)\.(\d+)(?:\.(\d+))?", os.uname().release).groups()
    return int(major), int(minor), int(last or 0)


def values(config):
    """The bytes that objects/configuration.c writes of a configuration on the running kernel."""
    settings = dict(re.findall(r"^(CONFIG_\w+)=(.*)$", config, re.MULTILINE))
    major, minor, last = version()
    local = settings.get("CONFIG_LOCALVERSION", '""').strip('"')
    return struct.pack(
        "<2IQI4B",
        int(settings["CONFIG_HZ"]),
        major << 16 | minor << 8 | min(last, 255),
        0,
        TRISTATE[settings.get("CONFIG_NET")],
        settings["CONFIG_BPF_SYSCALL"] == "y",
        (major, minor) >= (5, 15),
        (major, minor) >= (4, 17),
        ord(local[0]) if local else 0,
    )
