"""What `rattle` is told of a crate, over libraries below it that stand built, as `rt ci` leaves them too.

`rt check` and `rt lib` take no library that `rt ci` left, since it keeps no stamp of it, and would prove all of them again."""
import shutil
import subprocess
from pathlib import Path

TOP = Path(__file__).parents[1]
KIT = Path(subprocess.run(["rt", "doc"], capture_output=True, text=True, check=True).stdout.strip()).parent
RATTLE = KIT / "bin/rattle"


def libraries():
    """The libraries that each crate names."""
    lines = (line.partition("#")[0] for line in (TOP / "crates.txt").read_text().splitlines())
    rows = (line.partition(":") for line in lines if line.strip())
    return {head.split()[0]: named.split() for head, _, named in rows}


def below(crate, named):
    """The repository's own libraries below a crate, each once."""
    found = {}
    for it in named[crate]:
        if it in named:
            found |= dict.fromkeys([*below(it, named), it])
    return list(found)


def built(crate):
    return TOP / "crates" / crate / "out/rlib" / f"{crate}.rlib"


def stamped(crate):
    return (TOP / "crates" / crate / "out/rlib/stamp").exists()


def is_later(crate):
    """Whether a crate's library is later than each of its sources."""
    sources = (it for part in ("src", "specs", "proofs") for it in (TOP / "crates" / crate / part).rglob("*"))
    return built(crate).is_dir() and all(it.stat().st_mtime <= built(crate).stat().st_mtime for it in sources)


def unbuilt(crate, named):
    """The libraries below a crate that `rt check` has to build, or to look at, before they are used."""
    return [it for it in below(crate, named) if not built(it).is_dir() or (stamped(it) and not is_later(it))]


def outdated(crate, named):
    """The libraries below a crate that may be of other sources than those here. `rt check` knows of one with a stamp."""
    return [it for it in below(crate, named) if not stamped(it) and not is_later(it)]


def kept_work(crate, named):
    """The folder in which checks over these libraries keep what they prove of a crate; emptied where it is older than one."""
    folder = TOP / "crates" / crate / "out/mutants"
    if not folder.is_dir() or any(folder.stat().st_mtime <= built(it).stat().st_mtime for it in below(crate, named)):
        shutil.rmtree(folder, ignore_errors=True)
        folder.mkdir(parents=True)
    return folder


def words(crate, named):
    """The crate's name and file, and the libraries by their paths."""
    own = below(crate, named)
    paths = {it: built(it) if it in named else KIT / "rlibs" / f"{it}.rlib" for it in ["std", *named[crate]]}
    folders = [KIT / "rlibs", *(built(it).parent for it in own)]
    return [
        *["--crate-name", crate, "src/lib.rt"],
        *(word for it, path in paths.items() for word in ("--extern", f"{it}={path}")),
        *(word for it in folders for word in ("-L", f"dependency={it}")),
        *["--antt-project", KIT / "rattle/logic/antt-project.json", "--logic-built", KIT / "logic_built", "--links", f"{crate}="],
    ]
