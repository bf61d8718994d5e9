"""The examples of docs/CLI.md."""
from pathlib import Path

PAGE = Path(__file__).parents[2] / "docs" / "CLI.md"


def shown_output(command):
    """The lines that the page shows below a command, without their indentation."""
    lines = PAGE.read_text().split(f"    $ {command}\n")[1].split("\n")
    end = next(at for at, line in enumerate(lines) if line and not line.startswith("    "))
    return "".join(line.removeprefix("    ") + "\n" for line in lines[:end]).rstrip("\n") + "\n"
