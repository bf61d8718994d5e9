"""Several crates or drivers as one crate, so that `rt try` builds them once for all: the sources of each are a module of its
name. The program reads the name of the one that it runs from its standard input.
"""
import re

from driver_crates import listed, make_repository

MAIN = """//! The programs that are run together.
#![tactic(auto)]

{modules}
use std::io::{{self, Read}};
use std::process::ExitCode;

/// The status of a program that gives none.
fn status(done: io::Result<()>) -> ExitCode {{
    match done {{
        Ok(()) => ExitCode::from(0),
        Err(_) => ExitCode::from(1),
    }}
}}

/// The name of the program that is run.
fn wanted(rt: &HostRuntime) -> io::Result<String> {{
    let mut name = String::new(rt.alloc());
    rt.stdin().read_to_string(&mut name)?;
    Ok(name)
}}

fn main(rt: HostRuntime) -> ExitCode {{
    let Ok(name) = wanted(&rt) else {{
        return ExitCode::from(2);
    }};
    match name.as_str() {{
{arms}
        _ => ExitCode::from(2),
    }}
}}
"""
LIBRARY = """//! The crates whose tests are run together.
#![tactic(auto)]

{modules}
"""


def libraries_of(crates):
    """The libraries of these crates, each once."""
    return list(dict.fromkeys(name for crate in crates for name in crate.libraries))


def put_module(crate, to):
    """Puts the sources of a crate into a module of its name; returns the type of its `main`'s result, None for a library."""
    name, sources = crate.name, crate.folder / "src"
    returns = None
    for source in sorted([*sources.rglob("*.rt"), *sources.rglob("*.rs")]):
        place = source.relative_to(sources).with_suffix(".rt")
        text = re.sub(r"\bcrate::", f"crate::{name}::", source.read_text())
        target = to / name / place
        if str(place) in ("main.rt", "lib.rt"):
            target = to / f"{name}.rt"
            text = text.replace("#![tactic(auto)]\n", "", 1)
            main = re.search(r"^fn main\(rt: HostRuntime\) -> (\S+) \{", text, re.MULTILINE)
            if main:
                returns = main[1]
                text = text.replace("fn main(rt: HostRuntime)", "pub fn main(rt: HostRuntime)", 1)
        target.parent.mkdir(parents=True, exist_ok=True)
        target.write_text(text)
    return returns


def one_crate(folder, name, names):
    """Makes a repository in a folder with one crate of this name, made of the crates of these names, and with all that they
    stand on; returns the crate's folder. It is a program where these are programs, else a library."""
    known = listed()
    crates = [known[it] for it in names]
    libraries = libraries_of(crates)
    make_repository(folder, libraries)
    made = folder / "crates" / name
    returned = {crate.name: put_module(crate, made / "src") for crate in crates}
    modules = "\n".join(f"mod {it};" for it in sorted(names))
    if None in returned.values():
        (made / "src/lib.rt").write_text(LIBRARY.format(modules=modules))
    else:
        calls = {"ExitCode": "{0}::main(rt)"}
        arms = [f'        "{it}" => {calls.get(kind, "status({0}::main(rt))").format(it)},' for it, kind in returned.items()]
        (made / "src/main.rt").write_text(MAIN.format(modules=modules + "\n", arms="\n".join(arms)))
    with (folder / "crates.txt").open("a") as lines:
        lines.write(f"{name}: {' '.join(libraries)}\n")
    return made
