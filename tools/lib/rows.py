"""The rows of crates/worked_rows/data and the calls that the documents show, for the scripts beside this one."""
import dataclasses
import functools
import os
import pathlib
import re
import subprocess
import sys
import tempfile

import command_table

TOP = pathlib.Path(__file__).resolve().parent.parent.parent
TABLES = TOP / "crates/worked_rows/data"
# The texts that show calls of the tool with what they write.
PAGES = ["*.md", "docs/*.md", "docs/data/*.md", "editors/*.md", "examples/**/*.md", "page/*.md"]
MOST_SECONDS = 60
USAGE_STATUS = 4
USAGE = command_table.usage("mitigate")
LAB_USAGE = command_table.usage("lab")


@dataclasses.dataclass
class Row:
    """A call with the answer that is wanted. `read` and `write` are the numbers of what fails, `room` what may be written."""

    shows: str
    program: str = "mitigate"
    words: list = dataclasses.field(default_factory=list)
    files: dict = dataclasses.field(default_factory=dict)
    wanted: bytes = b""
    status: int = 0
    is_end: bool = False
    read: int = 0
    write: int = 0
    room: int | None = None

    def needs_fault(self):
        return bool(self.read or self.write or self.room is not None)

    def is_answered(self, status, text):
        return status == self.status and (text.endswith(self.wanted) if self.is_end else text == self.wanted)


def text_of(line):
    """The bytes of a line of a row, with its escapes read."""

    def byte(match):
        word = match.group(1)
        if word.startswith("x"):
            return chr(int(word[1:], 16))
        return {"n": "\n", "t": "\t", "r": "\r"}.get(word, word)

    return re.sub(r"\\(x[0-9a-f]{2}|.)", byte, line).encode("latin-1")


def units(rest):
    first, end, unit = rest.split(" ", 2)
    unit = text_of(unit)
    return b"".join(unit.replace(b"#", b"%d" % n).replace(b"$", b"%d" % (n + 1)) for n in range(int(first), int(end)))


def rows_of(table):
    """The rows of a table's text."""
    rows, name = [], ""
    for line in table.split("\n"):
        mark, _, rest = line.partition(" ")
        if mark == "=":
            rows.append(Row(rest))
        elif mark == "$":
            rows[-1].words = rest.split()
        elif mark == "-":
            rows[-1].files[name:=rest] = b""
        elif mark == "+":
            rows[-1].files[name] += text_of(rest)
        elif mark == "*":
            rows[-1].files[name] += units(rest)
        elif mark == ">":
            rows[-1].wanted += text_of(rest)
        elif mark == "lab":
            rows[-1].program = mark
        elif mark == "usage":
            usage = LAB_USAGE if rows[-1].program == "lab" else USAGE
            rows[-1].wanted += usage.encode() + b"\n"
            rows[-1].status = USAGE_STATUS
        elif mark == "end":
            rows[-1].is_end = True
        elif mark:
            setattr(rows[-1], mark, int(rest))
    return rows


def read_rows(table):
    """The rows of a file, or of a table of worked_rows by its name."""
    path = pathlib.Path(table)
    if not path.is_file():
        path = TOP / "crates/worked_rows/data" / f"{table}.txt"
    return rows_of(path.read_text(encoding="ascii"))


def tables():
    """The names of all tables, each with its rows."""
    return [(path.name, read_rows(path)) for path in sorted(TABLES.iterdir())]


def called(program, words, folder):
    """The status and the text of a call in a folder; None for the status of one that took too long."""
    try:
        done = subprocess.run([program, *words], cwd=folder, stdin=subprocess.DEVNULL, capture_output=True, timeout=MOST_SECONDS)
    except subprocess.TimeoutExpired:
        return None, b""
    return done.returncode, done.stdout


def called_with_files(program, row):
    """The status and the text of a row's call, in a folder with the row's files."""
    with tempfile.TemporaryDirectory() as folder:
        for name, content in row.files.items():
            path = pathlib.Path(folder, name)
            path.parent.mkdir(parents=True, exist_ok=True)
            path.write_bytes(content)
        return called(program, row.words, folder)


def without_faults(programs=("mitigate",)):
    """The rows of these programs that need no injected fault, each with its table's name."""
    return [(name, row) for name, found in tables() for row in found if row.program in programs and not row.needs_fault()]


def pages():
    return [path for pattern in PAGES for path in sorted(TOP.glob(pattern))]


def shown(page, name="mitigate"):
    """The words of each call of a program that a page shows, with the text below it."""
    found, is_open, call = [], False, f"    $ ./{name} "
    for line in page.read_text(encoding="utf-8").splitlines():
        if line.startswith(call):
            found.append([line[len(call) :], ""])
            is_open = True
        elif is_open and line.startswith("    ") and not line.startswith("    $ "):
            found[-1][1] += line[4:] + "\n"
        else:
            is_open = False
    return found


@functools.cache
def program(name="mitigate"):
    """The path of the program that ./mitigate or ./lab runs, which is built first where it has to be."""
    told = subprocess.run([TOP / name], env={**os.environ, "MITIGATE_WHICH": "1"}, stdout=subprocess.PIPE, text=True)
    if told.returncode:
        sys.exit(told.returncode)
    return told.stdout.rstrip("\n")
