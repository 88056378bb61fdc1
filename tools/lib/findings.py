"""What `lab check --json` tells of a program, from what `lab why` tells of it: a second reading of docs/FORMATS.md."""

import json
import re

from text_faults import place_of, word_at

LABELS = re.compile(r"refused (?P<rule>\S+) at (?P<place>[0-9:]+): (?P<have>\w+) does not flow to (?P<allowed>\w+)")
LINE = re.compile(r"(?:(?P<place>[0-9]+:[0-9]+) )?(?P<text>.*)")
SIGN = re.compile(rb":=|==|!=|<=|>=|[:;,(){}\[\]@+*/%<>-]?")


def size_at(text, line, column):
    """How many bytes the token, or the word, has that begins at a place."""
    at = place_of(text, line, column)
    return len(word_at(text, at)) or SIGN.match(text, at).end() - at


def there(text, place, size=None):
    """The members that tell where something stands."""
    line, column = map(int, place.split(":"))
    end = column + (size_at(text, line, column) if size is None else size)
    return {"place": {"line": line, "column": column}, "end": {"line": line, "column": end}}


def one_line(status, line, **more):
    return json.dumps({"status": status, "message": line, **more}, separators=(",", ":")).replace("\x7f", "\\u007f") + "\n"


def unread(line):
    """The object of a file that is not read."""
    return one_line(line.partition(":")[0], line)


def faulty(line, text, lines):
    """The object of a text that is no program, on whose fault these are the lines."""
    found = re.fullmatch(r"syntax: (.*) at ([0-9]+:[0-9]+)", line)
    is_met = found and found[1] in ("bad byte", "unexpected")
    expected = [row.split()[1:] for row in lines.splitlines() if row.startswith("expected ")] if is_met else []
    where = there(text, found[2], 1 if found[1] == "bad byte" else None) if found else {}
    return one_line("syntax", line, **where, expected=expected[0] if expected else [], explained=lines)


def typed(told, text):
    """The object of a program of which `why` tells this."""
    line, *chain = told.splitlines()
    if line.startswith("accepted"):
        commands, mitigates = map(int, re.findall("[0-9]+", line))
        return one_line("accepted", line, commands=commands, mitigates=mitigates)
    broken = LABELS.fullmatch(line)
    steps = [LINE.fullmatch(row) for row in chain]
    return one_line(
        "refused",
        line,
        **there(text, broken["place"]),
        rule=broken["rule"],
        labels={"have": broken["have"], "allowed": broken["allowed"]},
        chain=[{**(there(text, step["place"]) if step["place"] else {}), "text": step["text"]} for step in steps],
    )
