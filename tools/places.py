"""Counts the places in crates/*/src that a design pass looks at, point by point (docs/DESIGN-PASS.md).

    python3 tools/places.py [POINT]      without a point the counts alone; with one its places
"""
import re
import subprocess
import sys
import tempfile
from pathlib import Path

ROOT = Path(__file__).resolve().parent.parent
SOURCES = sorted(ROOT.glob("crates/*/src/**/*.rt"))
FAILING = {"Fail", "Failed", "Shut", "Bad", "Malformed", "Misfit", "Error", "Err", "Refused"}


def items(pattern):
    """Each match of a pattern with its place."""
    for path in SOURCES:
        text = path.read_text()
        for found in re.finditer(pattern, text, re.M | re.S):
            line = text.count("\n", 0, found.start()) + 1
            yield f"{path.relative_to(ROOT)}:{line}", found


def variants(body):
    """The variants of an enum, by name, with whether each carries a value."""
    body = re.sub(r"//[^\n]*", "", body)
    depth, part, parts = 0, "", []
    for c in body:
        depth += (c in "({<") - (c in ")}>")
        if c == "," and depth == 0:
            parts.append(part.strip())
            part = ""
        else:
            part += c
    parts.append(part.strip())
    return {p.split("(")[0].split("{")[0].strip(): bool(re.search(r"[({]", p)) for p in parts if p}


def option_like():
    """Enums with one variant that carries a value beside an empty one, or beside one that fails."""
    for place, found in items(r"^(?:pub )?enum (\w+)[^{]*\{(.*?)^\}"):
        shape = variants(found[2])
        carrying = [name for name, carries in shape.items() if carries and name not in FAILING]
        empty = [name for name, carries in shape.items() if not carries or name in FAILING]
        if len(carrying) == 1 and 1 <= len(empty) <= 2:
            yield f"{place}: {found[1]} {{{', '.join(shape)}}}"


def numbers_for_kinds():
    """Matches over a number's values, and constants that say that there is none."""
    for place, found in items(r"^\s*match [^\n]*\{\s*\n\s*0 =>"):
        yield f"{place}: {found[0].split(chr(10))[0].strip()}"
    for place, found in items(r"^(?:pub )?const (NO_\w+|SPENT|DONE|DATA|BUS_ERROR): u8"):
        yield f"{place}: {found[1]}"
    for place, found in items(r"^\s*return [01];$"):
        yield f"{place}: {found[0].strip()}"


def flags():
    """Fields that are a flag beside values."""
    for place, found in items(r"^    pub (\w+): bool,"):
        yield f"{place}: {found[1]}"


def twins():
    """The pairs of duplicates --min-lines 6 over the sources, and the functions of one name in two crates of the two drivers."""
    with tempfile.TemporaryDirectory() as folder:
        for path in SOURCES:
            copy = Path(folder, path.relative_to(ROOT)).with_suffix(".rs")
            copy.parent.mkdir(parents=True, exist_ok=True)
            copy.write_text(path.read_text())
        said = subprocess.run(
            ["duplicates", "--repo", folder, "--most", "200", "--seconds", "120"], capture_output=True, text=True
        ).stdout
    yield from (line for line in said.splitlines() if re.match(r"D\d+ ", line))


def counted_loops():
    """Loops that are no `for`, and those over a range of numbers."""
    for place, found in items(r"^\s*(?:while\b|loop\b|for [a-z]\w* in [^\n]*\.\.)[^\n]*"):
        yield f"{place}: {found[0].strip()}"


def by_hand():
    """Equality, order, copying, conversion and printing in functions of their own."""
    names = "same|wide|flag|from_byte|byte|from_bytes|default|decimal|hex|digit|number|kind|none_left|saturating_mul|id_of"
    for place, found in items(rf"^\s*(?:pub )?fn ({names})\("):
        yield f"{place}: {found[1]}"


def travelling():
    """Functions that take one of the groups of parameters that three functions or more take."""
    groups = {
        "scratch, buffer, data": (r"scratch: &", r"buffer: &", r"data: &"),
        "out, at": (r"out: &mut \[u8\]", r"at: usize"),
        "settings, place": (r"settings: Settings", r"place: Place"),
        "offset, len, done": (r"offset: u(?:32|size)", r"len: usize", r"done: usize"),
        "tape, at": (r"tape: &\[u8\]", r"at: usize"),
        "flash, job": (r"flash: (?:Spi\w+Flash|FlashOf|Flash<)", r"job: Job"),
        "setup, built, delivered": (r"setup: S", r"built: bool", r"delivered: usize"),
        "scratch, buffer and data lengths": (r"scratch_len: usize", r"buffer_len: usize", r"data_len: usize"),
        "room, reply": (r"room: &", r"reply: &mut"),
    }
    for place, found in items(r"^\s*(?:pub )?(?:extern \"C\" )?fn (\w+)[^(]*\((.*?)\)(?: ->|\s*\n)"):
        for group, parts in groups.items():
            if all(re.search(rf"\b{part}", found[2]) for part in parts):
                yield f"{place}: {found[1]} ({group})"


def buffers():
    """A place and a length, a table in one row, memory with a length beside it."""
    for place, found in items(r"(from|at): usize,\s*(len): usize"):
        yield f"{place}: {found[1]}, {found[2]}"
    for place, found in items(r"^(?:pub )?const (\w+): \[[^=]*= \["):
        yield f"{place}: {found[1]}"
    for place, found in items(r"let mut (\w+) = \[0u8; [^\]]*[1-9A-Z][^\]]*\]"):
        yield f"{place}: {found[1]}"


def switches():
    """Enums that say which step is next."""
    for place, found in items(r"^pub enum (Stage|Mode|\w+Step|Phase|Task|\w+For|Ask|Hears|Opening|Next)(?:<[^>]*>)? \{"):
        yield f"{place}: {found[1]}"


def proofs():
    for name in ("Answers", "Invariants", "Proof"):
        files = sorted(ROOT.glob(f"crates/*/proofs/**/{name}.antt"))
        lines = sum(len(path.read_text().splitlines()) for path in files)
        yield f"{name}.antt: {len(files)} files, {lines} lines"


POINTS = {
    "1": [option_like, numbers_for_kinds, flags],
    "2": [twins],
    "3": [counted_loops],
    "4": [by_hand],
    "5": [travelling],
    "6": [buffers],
    "7": [switches],
    "8": [proofs],
}


def main():
    wanted = sys.argv[1:]
    for point, counters in POINTS.items():
        if wanted and point not in wanted:
            continue
        for counter in counters:
            found = list(counter())
            if wanted or counter is proofs:
                print("\n".join(found))
            if counter is not proofs:
                print(f"point {point}, {counter.__name__}: {len(found)}")


main()
