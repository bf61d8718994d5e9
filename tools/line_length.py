#!/usr/bin/env python3
"""Checks that clauses and definitions keep to 100 columns: the lines of crates/*/specs/*.antt, and in crates/*/src/*.rt the
lines of `ensures`, `requires` and ghost fields. Ends with 'N passed, M failed', and with status 1 where one failed.

With --wrap it breaks such lines first. It changes only spaces and line ends, and compares the words of each file before it
writes it. A term breaks at its operators, then at its arguments, and each inner level is indented by four columns.

usage: line_length.py [--wrap] [CRATE ..]      CRATE: only these; none: all
"""
import re
import sys
from dataclasses import dataclass
from pathlib import Path

TOP = Path(__file__).parents[1]
COLUMNS = 100
# Operators of terms by their strength, the weakest first; a term breaks before the weakest that it has.
OPERATORS = [{"→"}, {"↔"}, {"then", "else"}, {"×"}, {"||"}, {"&&"}, {"≡", "≤", "<", "∈", "=="}, {"++", "∷"}, {"+", "-"}]
# At these operators short parts share lines.
FILLED = {"→", "∷", "++"}
SHORT = 40
OPENING, CLOSING = "({⟨", ")}⟩"
# Files with lines that are broken once their crates change: breaking one proves each crate above anew.
AWAITED = {
    "crates/ebpf_btf_ext/specs/ExtReading.antt",
    "crates/ebpf_core_candidates/specs/TypeMatches.antt",
    "crates/ebpf_core_candidates/src/type_match.rt",
    "crates/ebpf_core_relo/specs/PrivateContracts.antt",
    "crates/ebpf_exceptions/specs/Callbacks.antt",
    "crates/ebpf_exceptions/src/tags.rt",
    "crates/ebpf_load_info/specs/PrivateContracts.antt",
    "crates/ebpf_outcomes/specs/PassOutcomes.antt",
    "crates/ebpf_reloc/specs/References.antt",
}
CLAUSE = re.compile(r"( *)((?:ensures|requires|ghost)\*?(?: [\w*]+:?)?(?: =)?) \{ (.*) \}(;|,|)$")


@dataclass
class Group:
    """A bracketed part of a term."""

    opening: str
    words: list
    closing: str = ""


def read_words(text, place=0, closing=None):
    """The words of a term up to a closing bracket: each is a list of texts and groups without a space between them. Returns
    them and the place behind; a bracket without a partner raises ValueError."""
    words, word = [], []
    while place < len(text):
        char = text[place]
        if char in OPENING:
            inner, place = read_words(text, place + 1, CLOSING[OPENING.index(char)])
            word.append(Group(char, inner, text[place]))
        elif char in CLOSING:
            if char != closing:
                raise ValueError(f"{char} at {place}")
            return words + [word] * bool(word), place
        elif char == " ":
            words, word = words + [word] * bool(word), []
        elif word and isinstance(word[-1], str):
            word[-1] += char
        else:
            word.append(char)
        place += 1
    if closing:
        raise ValueError(f"{closing} is missing")
    return words + [word] * bool(word), place


def spaced(group):
    """The space inside a group's brackets: records have one."""
    return " " if group.opening == "{" and len(group.words) > 1 else ""


def flat_word(word):
    """A word on one line."""
    return "".join(
        it if isinstance(it, str) else f"{it.opening}{spaced(it)}{flat(it.words)}{spaced(it)}{it.closing}" for it in word
    )


def flat(words):
    """A term on one line."""
    return " ".join(flat_word(word) for word in words)


def operands(words):
    """A term's parts at its weakest operators: each part's operator ("" for the first) and words; None where it has none. What
    is behind a λ belongs to the λ."""
    end = next((place for place, word in enumerate(words) if word[0] == "λ"), len(words))
    for strength in OPERATORS:
        places = [place for place in range(1, end) if flat_word(words[place]) in strength]
        if places:
            starts = [0, *(place + 1 for place in places)]
            names = ["", *(flat_word(words[place]) for place in places)]
            return [(name, words[start:stop]) for name, start, stop in zip(names, starts, [*places, len(words)])]
    return None


def fields_of(words):
    """The fields of a record, each up to its `;`; none where there is one."""
    ends = [place + 1 for place, word in enumerate(words) if isinstance(word[-1], str) and word[-1].endswith(";")]
    starts = [0, *ends]
    parts = [words[start:stop] for start, stop in zip(starts, [*ends, len(words)]) if words[start:stop]]
    return parts if len(parts) > 1 else None


def joined(lines, others):
    """Lines, the last of which goes on with the first of the others."""
    return lines[:-1] + [lines[-1] + others[0]] + others[1:]


def broken_word(word, indent, start):
    """A word over several lines; the first begins at a column and has no indent."""
    lines = [""]
    for it in word:
        if isinstance(it, str):
            lines[-1] += it
        else:
            column = start if len(lines) == 1 else 0
            opening = it.opening + spaced(it)
            is_lambda = it.words[:1] and it.words[0][0] == "λ"
            inner = broken(it.words, indent + (0 if is_lambda else len(opening)), column + len(lines[-1]) + len(opening))
            lines = joined(lines, [opening + inner[0], *inner[1:]])
            lines[-1] += spaced(it) + it.closing
    return lines


def filled(words, indent, lines, start=0):
    """Puts words behind the last of these lines, of which the first begins at a column, or on lines of their own."""
    for place, word in enumerate(words):
        text = flat_word(word)
        column = len(lines[-1]) + (start if len(lines) == 1 else 0)
        space = " " * bool(lines[-1].strip())
        is_last_lambda = place == len(words) - 1 and isinstance(word[0], Group) and word[0].words[:1] and word[0].words[0][0] == "λ"
        if column + len(space) + len(text) <= COLUMNS:
            lines[-1] += space + text
        elif is_last_lambda and column + len(space) + len(text.partition(". ")[0]) < COLUMNS:
            made = broken_word(word, indent - 4, column + len(space))
            lines = joined(lines, [space + made[0], *made[1:]])
        elif indent + len(text) <= COLUMNS:
            lines.append(" " * indent + text)
        else:
            made = broken_word(word, indent, indent)
            lines = [*lines, " " * indent + made[0], *made[1:]]
    return lines


def broken(words, indent, start=None):
    """A term over as many lines as it needs. The first begins at a column, by default the indent, and has no indent."""
    start = indent if start is None else start
    if start + len(flat(words)) <= COLUMNS:
        return [flat(words)]
    fields = fields_of(words)
    if fields:
        lines = broken(fields[0], indent, start)
        for field in fields[1:]:
            lines += [" " * indent + (inner := broken(field, indent + 4, indent))[0], *inner[1:]]
        return lines
    parts = operands(words)
    if parts and {name for name, _ in parts} <= {"", *FILLED} and all(len(flat(part)) <= SHORT for _, part in parts):
        return filled([[f"{name} {flat(part)}".lstrip()] for name, part in parts], indent, [""], start)
    if parts:
        lines = broken(parts[0][1], indent, start)
        for name, part in parts[1:]:
            inner = broken(part, indent + 4, indent + len(name) + 1)
            lines += [" " * indent + f"{name} {inner[0]}", *inner[1:]]
        return lines
    if words[0][0] == "λ":
        end = next(place for place, word in enumerate(words) if flat_word(word).endswith("."))
        inner = broken(words[end + 1 :], indent + 4)
        return [flat(words[: end + 1]), " " * (indent + 4) + inner[0], *inner[1:]]
    if len(words) == 1:
        return broken_word(words[0], indent, start)
    end = next((place for place, word in enumerate(words) if word[0] == "λ"), len(words))
    lines = filled(words[1:end], indent + 4, broken_word(words[0], indent, start), start)
    if end < len(words):
        inner = broken(words[end:], indent + 4)
        lines += [" " * (indent + 4) + inner[0], *inner[1:]]
    return lines


def term_lines(text, indent, prefix, end=""):
    """A term as lines behind a prefix, and at an indent, with an end; words with brackets that don't match are filled."""
    try:
        words, _ = read_words(text)
    except ValueError:
        return filled([[word] for word in text.split(" ")], indent, [prefix])
    words[-1] = [*words[-1], "\0" * len(end)]
    lines = broken(words, indent, len(prefix))
    lines[-1] = lines[-1].replace("\0" * len(end), end)
    return [prefix + lines[0], *lines[1:]]


def clause_lines(line):
    """A clause on a line of its own, over several."""
    found = CLAUSE.match(line)
    if not found:
        return [line]
    return term_lines(found[3], len(found[1]) + 4, f"{found[1]}{found[2]} {{ ", f" }}{found[4]}")


def comment_lines(line):
    """A comment over several lines."""
    indent = re.match(r" *", line)[0]
    lines = [indent + "--"]
    for word in line.split()[1:]:
        if len(lines[-1]) + 1 + len(word) > COLUMNS:
            lines.append(indent + "--")
        lines[-1] += " " + word
    return lines


def import_lines(line):
    """A `use` as several, each with some of its names."""
    found = re.match(r"(.*\.\{)(.*)\}$", line)
    if not found:
        return [line]
    made = [[]]
    for name in found[2].split(", "):
        if made[-1] and len(found[1]) + len(", ".join([*made[-1], name])) + 1 > COLUMNS:
            made.append([])
        made[-1].append(name)
    return [f"{found[1]}{', '.join(names)}}}" for names in made]


def definition_lines(line):
    """A line of a definition over several: its type goes on behind the `:`, its body begins behind the `=`."""
    indent = len(line) - len(line.lstrip())
    text = line.strip()
    head, rest = split_outside(text, " : ")
    if rest and len(head) < COLUMNS - 30:
        return term_lines(rest, indent + 4, " " * indent + f"{head} : ")
    if rest:
        return [*term_lines(head, indent + 4, " " * indent), *term_lines(rest, indent + 4, " " * (indent + 4) + ": ")]
    head, rest = split_outside(text, " = ")
    if rest:
        return [" " * indent + f"{head} =", *term_lines(rest, indent + 4, " " * (indent + 4))]
    operator, _, rest = text.partition(" ")
    if any(operator in strength for strength in OPERATORS):
        return term_lines(rest, indent + 4, " " * indent + f"{operator} ")
    return term_lines(text, indent, " " * indent)


def split_outside(text, mark):
    """What is before and behind the first mark outside brackets; nothing is behind where there is none."""
    depth = 0
    for place, char in enumerate(text):
        depth += (char in OPENING) - (char in CLOSING)
        if not depth and text.startswith(mark, place):
            return text[:place], text[place + len(mark) :]
    return text, ""


def wrapped(line, is_spec):
    """A line that is too long, as lines; what closes brackets behind a term may need a narrower page."""
    global COLUMNS
    widest = COLUMNS
    for COLUMNS in range(widest, widest - 12, -2):
        made = broken_line(line, is_spec)
        if max(map(len, made)) <= widest:
            break
    COLUMNS = widest
    return made


def broken_line(line, is_spec):
    """A line as lines of at most COLUMNS, but for what closes brackets."""
    text = line.strip()
    if not is_spec:
        return clause_lines(line)
    if text.startswith("--"):
        return comment_lines(line)
    return import_lines(line) if text.startswith("use ") else definition_lines(line)


def is_limited(line, is_spec):
    """Whether the limit holds for a line: of code, only for terms, but not for imports, attributes and a ghost field's code."""
    if is_spec:
        # an import of one name can't be broken
        return not re.match(r"use \S+( as \w+)?\}?$", line)
    if re.match(r" *(//|#\[|(pub )?(ghost )?use )", line) or "} by {" in line:
        return False
    return re.match(r" *(ensures|requires|ghost [a-z_]+:|ghost [a-z_]+ =)", line) is not None or set(line) & set("≡→λ×∷≤") != set()


def words_of(text):
    """The words of a file, without the marks of comments, and with an import for each name."""
    text = re.sub(r"(?m)^(use .*\.\{)(.*)\}$", lambda m: "\n".join(m[1] + name + "}" for name in m[2].split(", ")), text)
    return re.sub(r"\s", "", re.sub(r"(?m)^\s*--", "", text))


def goes_on(line, after):
    """Whether a comment's sentence goes on in the line behind it."""
    indent = line[: len(line) - len(line.lstrip())]
    return line.strip().startswith("-- ") and re.match(rf"{indent}-- [a-z(`]", after) is not None


def wrap(path, is_spec):
    """Breaks the long lines of a file."""
    text = path.read_text()
    made, waiting = [], text.split("\n")
    while waiting:
        line = waiting.pop(0)
        if len(line) <= COLUMNS or not is_limited(line, is_spec):
            made.append(line)
            continue
        new = wrapped(line, is_spec)
        if is_spec and waiting and goes_on(line, waiting[0]):
            # the comment's next line takes what is left of this one
            rest = waiting.pop(0)
            waiting.insert(0, f"{new.pop()} {rest.strip().removeprefix('--').strip()}")
        made += new
    new = "\n".join(made)
    assert words_of(new) == words_of(text), path
    if new != text:
        path.write_text(new)


def files(names):
    """The files in which the limit holds, each with whether it is one of specs."""
    for crate in sorted((TOP / "crates").iterdir()):
        if not names or crate.name in names:
            yield from ((path, False) for path in sorted(crate.glob("src/**/*.rt")))
            yield from ((path, True) for path in sorted(crate.glob("specs/**/*.antt")))


def main():
    words = sys.argv[1:]
    if {"--help", "-h"} & set(words):
        sys.exit(__doc__[__doc__.index("usage:") :].rstrip())
    held = list(files([word for word in words if word != "--wrap"]))
    if "--wrap" in words:
        for path, is_spec in held:
            wrap(path, is_spec)
    passed = failed = 0
    for path, is_spec in held:
        for number, line in enumerate(path.read_text().split("\n"), 1):
            if is_limited(line, is_spec):
                is_long = len(line) > COLUMNS and str(path.relative_to(TOP)) not in AWAITED
                failed, passed = failed + is_long, passed + (not is_long)
                if is_long and failed <= 20:
                    print(f"{path.relative_to(TOP)}:{number}: {len(line)} columns")
    print(f"{passed} passed, {failed} failed")
    sys.exit(failed > 0)


if __name__ == "__main__":
    main()
