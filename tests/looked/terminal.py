"""What `ebpf` prints on a terminal: colours, and the line that shows the progress; and that it prints neither elsewhere."""
import os
import pty
import re
import subprocess
import time

ESCAPES = re.compile("\x1b\\[[0-9;?]*[a-zA-Z]")


def environment(**more):
    """The environment without NO_COLOR."""
    return {**{name: value for name, value in os.environ.items() if name != "NO_COLOR"}, **more}


def read_all(end):
    """What is written to a terminal until all of its writers have ended."""
    said = b""
    while True:
        try:
            part = os.read(end, 4096)
        except OSError:
            return said.decode().replace("\r\n", "\n")
        if not part:
            return said.decode().replace("\r\n", "\n")
        said += part


def on_terminal(rows, *words, **more):
    """The output of a run whose standard output is a terminal."""
    reader, writer = pty.openpty()
    kept = {"cwd": rows.folder, "stdin": subprocess.DEVNULL, "stderr": subprocess.DEVNULL, "env": environment(**more)}
    with subprocess.Popen([rows.program, *words], stdout=writer, **kept):
        os.close(writer)
        said = read_all(reader)
    os.close(reader)
    return said


def colours(rows):
    """Colours are there on a terminal or if they are asked for, and they alone are added."""
    for name, words in [
        ("check", ["check", "memdrop.o", "btf"]),
        ("check of what is unread", ["check", "memdrop.o", "btf", "memdrop.o"]),
        ("list", ["list", "memdrop.o"]),
        ("inspect", ["inspect", "memdrop.o"]),
        ("link", ["link", "memdrop.o", "--btf", "btf/5.18"]),
    ]:
        plain = rows.run(*words).stdout
        always = rows.run(*words, "--color=always").stdout
        rows.expect(f"{name}: plain", "\x1b" in plain, False)
        rows.expect(f"{name}: coloured", "\x1b[" in always, True)
        rows.expect(f"{name}: the same text", ESCAPES.sub("", always), plain)
        rows.expect(f"{name}: a terminal", on_terminal(rows, *words), always)
        rows.expect(f"{name}: an empty NO_COLOR", on_terminal(rows, *words, NO_COLOR=""), always)
        rows.expect(f"{name}: NO_COLOR", on_terminal(rows, *words, NO_COLOR="1"), plain)
        rows.expect(f"{name}: never", on_terminal(rows, *words, "--color", "never"), plain)
        rows.expect(f"{name}: always wins", on_terminal(rows, *words, "--color", "always", NO_COLOR="1"), always)
    always = rows.run("check", "memdrop.o", "btf", "--color=always").stdout
    lines = ["\x1b[32mok\x1b[0m      2/2 programs  btf/5.18", "\x1b[31mbreaks\x1b[0m  1/2 programs  btf/6.18", "", "\x1b[31mBREAKS\x1b[0m"]
    rows.expect("check: its colours", always.split("\n")[:4], lines)
    json = ["check", "memdrop.o", "btf", "--json"]
    rows.expect("JSON has no colours", rows.run(*json, "--color=always").stdout, rows.run(*json).stdout)
    usage = "ebpf: --color takes auto, always or never, and not red"
    rows.row("another colour", ["list", "memdrop.o", "--color", "red"], 2, "", usage)


def slow_run(rows, writer, *words):
    """A run over two kernels, the first of which takes more than a second; `writer` is its standard error, which it closes.
    Returns its output."""
    fifo = rows.folder / "slow"
    os.mkfifo(fifo)
    kept = {"cwd": rows.folder, "stdin": subprocess.DEVNULL, "encoding": "utf-8", "env": environment()}
    command = [rows.program, "check", "memdrop.o", "slow", "btf/6.18", *words]
    with subprocess.Popen(command, stdout=subprocess.PIPE, stderr=writer, **kept) as run:
        os.close(writer)
        with open(fifo, "wb") as first:
            time.sleep(1.2)
            first.write((rows.folder / "btf" / "5.18").read_bytes())
        out = run.stdout.read()
    fifo.unlink()
    return out


def progress(rows):
    """The progress is shown on a terminal after a second, and elsewhere if it is asked for; the output is the same."""
    plain = rows.run("check", "memdrop.o", "btf/5.18", "btf/6.18").stdout.replace("btf/5.18", "slow")
    for name, words, wanted in [("no terminal", [], ""), ("--progress", ["--progress"], "ebpf: 1 of 2 kernels, 0 break; now btf/6.18\n")]:
        reader, writer = os.pipe()
        rows.expect(f"{name}: output", slow_run(rows, writer, *words), plain)
        with open(reader, encoding="utf-8") as said:
            rows.expect(f"{name}: standard error", said.read(), wanted)
    reader, writer = pty.openpty()
    out = slow_run(rows, writer)
    said = read_all(reader)
    os.close(reader)
    rows.expect("a terminal: output", out, plain)
    rows.expect("a terminal: standard error", said, "\r\x1b[?7l1 of 2 kernels, 0 break; now 6.18\x1b[K\x1b[?7h\r\x1b[K")
    rows.row("progress of list", ["list", "memdrop.o", "--progress"], 2, "", "ebpf: no option --progress")
