"""What `lab why` tells of a start file that is refused, behind the line of `mitigate`: a second reading of docs/LAB.md."""

import re

import documents
from text_faults import distance

FORM = "expected a TOML document: [[run]] begins each run, and memory.NAME = NUMBER gives a variable its value\n"
NUMBER = "an integer from -9223372036854775808 to 9223372036854775807"
RUN = ["memory", "touch"]
TOUCH = ["place", "label", "address"]


def word(text):
    """A word of the file: at most 40 of its bytes, with `?` for one that can't be shown."""
    code = text.encode()
    shown = "".join({9: "\t", 13: " "}.get(byte, chr(byte) if 32 <= byte <= 126 else "?") for byte in code[:40])
    return shown + (".." if len(code) > 40 else "")


def value(one):
    if one is None:
        return "nothing"
    if isinstance(one, bool):
        return "true" if one else "false"
    if isinstance(one, str):
        return f'"{word(one)}"'
    if isinstance(one, int):
        return str(one)
    if isinstance(one, list):
        return f"an array of {len(one)}"
    return "a table" if isinstance(one, dict) else "a float" if isinstance(one, float) else "a date"


def place(where, one, wanted):
    return f"at {where}\nfound {value(one)}\nexpected {wanted}\n"


def unknown(front, table, keys):
    """The lines on the first key of a table, by its bytes, that is none of these; nothing where each is."""
    for key in sorted(set(table) - set(keys), key=str.encode):
        return f"at {front}{word(key)}\nexpected {' '.join(keys)}\n"
    return ""


def is_number(one):
    return isinstance(one, int) and not isinstance(one, bool)


def of_keys(number, run, program, version):
    """A run with an unknown key, or a run that is no table."""
    if not isinstance(run, dict):
        return place(f"run {number}", run, "a table")
    lines = unknown("", run, RUN)
    if lines:
        return lines
    names = [name for name, length in program.lengths.items() if length is None or version == 2]
    key = min(set(run["memory"]) - set(names), key=str.encode)
    if key in program.lengths:
        return f"at memory.{word(key)}\nit is an array: the file has to begin with version = 2\n"
    near = [name for name in program.lengths if distance(name.lower(), key.lower()) <= 1]
    return f"at memory.{word(key)}\n" + (f"nearest {' '.join(near)}\n" if near else "no variable has such a name\n")


def of_numbers(memory, program):
    if not isinstance(memory, dict):
        return place("memory", memory, "a table")
    for name in sorted(memory, key=str.encode):
        length, one = program.lengths[name], memory[name]
        if length is None:
            if not is_number(one):
                return place(f"memory.{name}", one, NUMBER)
        elif not isinstance(one, list) or len(one) > length:
            return place(f"memory.{name}", one, f"an array of at most {length} integers")
        else:
            for i, element in enumerate(one):
                if not is_number(element):
                    return place(f"memory.{name}[{i}]", element, NUMBER)
    return None


def of_touches(touches, program, version):
    if not isinstance(touches, list):
        return place("touch", touches, "an array of tables")
    places = ["page", "code", "data"] + (["second"] if version == 2 else [])
    labels = program.lattice.names
    for i, touch in enumerate(touches):
        where = f"touch[{i}]"
        if not isinstance(touch, dict):
            return place(where, touch, "a table")
        lines = unknown(where + ".", touch, TOUCH)
        if lines:
            return lines
        place_of, label, address = (touch.get(key) for key in TOUCH)
        if not isinstance(place_of, str) or place_of not in places:
            return place(where + ".place", place_of, " ".join(places) + ("" if version == 2 else "; second from version = 2 on"))
        if not isinstance(label, str) or label not in labels:
            return place(where + ".label", label, "a label: " + " ".join(labels))
        if not is_number(address) or not 0 <= address < 2**32:
            return place(where + ".address", address, "an integer from 0 to 4294967295")
    return None


def lines_on(line, content, program):
    """The lines behind a line of `mitigate` that refuses a start file."""
    document = documents.document(content)
    if document is None:
        return FORM
    version = document.get("version", 1)
    what = line.removeprefix("starts: ")
    if what == "version":
        return place("version", document["version"], "1 or 2")
    if what == "no runs":
        return place("run", document.get("run"), "[[run]]")
    if what.startswith("too many runs"):
        return "expected at most 4096 runs\n"
    number, what = re.fullmatch("run ([0-9]+): (.*)", what).groups()
    if number == "0":
        return unknown("", document, ["run", "version"])
    run = document["run"][int(number) - 1]
    if what == "unknown key":
        return of_keys(number, run, program, version)
    return of_numbers(run["memory"], program) if what == "not a number" else of_touches(run["touch"], program, version)
