"""Spaces of starts, as start files of version 3 tell them, for `second-reading`."""

import dataclasses
import itertools
import math
import re
import tomllib

from refusals import Stop

MOST = 2**40
ITEM = re.compile(r"(-?[0-9]+)(?:\.\.(-?[0-9]+))?", re.ASCII)
COMMA = re.compile(" *, *")
MOST_LISTED = 4096


def fault(what):
    return Stop("starts", f"space: {what}")


def is_number(value):
    return isinstance(value, int) and not isinstance(value, bool)


class Values:
    """What one place of the memory may have: ranges from left to right, each ascending."""

    def __init__(self, ranges):
        self.ranges = ranges
        self.count = sum(last - first + 1 for first, last in ranges)

    def at(self, number):
        """The value with a number, from 0."""
        for first, last in self.ranges:
            if number <= last - first:
                return first + number
            number -= last - first + 1
        raise IndexError(number)

    def has_one_twice(self):
        ends = sorted(self.ranges)
        return any(second[0] <= first[1] for first, second in itertools.pairwise(ends))


ZERO = Values([(0, 0)])


def item(text):
    """The first and the last number of an item."""
    found = ITEM.fullmatch(text)
    if not found:
        raise fault("not a range")
    first, last = int(found[1]), int(found[2] or found[1])
    if not -(2**63) <= first <= last < 2**63:
        raise fault("not a range")
    return first, last


def values(given):
    """The values that one place of the memory may have."""
    if is_number(given):
        return Values([(given, given)])
    if not isinstance(given, str):
        raise fault("not a range")
    return Values([item(text) for text in COMMA.split(given)])


def values_of(memory, name, length):
    """Those of a scalar, or of each element of an array; those that are left out are 0."""
    if name not in memory:
        return [ZERO] * (length or 1)
    given = memory[name]
    if length is None:
        return [values(given)]
    if not isinstance(given, list) or len(given) > length:
        raise fault("not a range")
    return [values(one) for one in given] + [ZERO] * (length - len(given))


def is_touch(touch, labels):
    return (
        isinstance(touch, dict)
        and set(touch) == {"place", "label", "address"}
        and touch["place"] in ("page", "code", "data", "second")
        and touch["label"] in labels
        and is_number(touch["address"])
        and 0 <= touch["address"] < 2**32
    )


@dataclasses.dataclass
class Space:
    """All starts: each choice of one value for each place of the memory, and one list of touches."""

    places: list
    touches: list

    def size(self):
        return math.prod(place.count for place in self.places)

    def start(self, number):
        """The start with a number, from 0: the last place goes round first."""
        memory = []
        for place in reversed(self.places):
            number, digit = divmod(number, place.count)
            memory.append(place.at(digit))
        return memory[::-1], self.touches

    def listed(self):
        """All starts, for a question that takes a list of them."""
        if self.size() > MOST_LISTED:
            raise fault(f"too many starts: {self.size()}, at most {MOST_LISTED}")
        return [self.start(number) for number in range(self.size())]


def space_in(document, program):
    """The space of a document of version 3."""
    if set(document) - {"version", "space"}:
        raise fault("unknown key")
    table = document.get("space")
    if not isinstance(table, dict):
        raise Stop("starts", "starts: no space")
    memory, touches = table.get("memory", {}), table.get("touch", [])
    if set(table) - {"memory", "touch"} or isinstance(memory, dict) and set(memory) - set(program.lengths):
        raise fault("unknown key")
    if not isinstance(memory, dict):
        raise fault("not a range")
    places = [one for name, length in program.lengths.items() for one in values_of(memory, name, length)]
    if any(place.has_one_twice() for place in places):
        raise fault("a value twice")
    if not isinstance(touches, list) or not all(is_touch(touch, program.lattice.names) for touch in touches):
        raise fault("bad touch")
    space = Space(places, [(touch["place"], touch["label"], touch["address"]) for touch in touches])
    if space.size() > MOST:
        raise fault("too many starts")
    return space


def space_of(content, program):
    """The space of a start file of version 3 without runs; None for any other content."""
    try:
        document = tomllib.loads(content.decode("utf-8"))
    except (tomllib.TOMLDecodeError, UnicodeDecodeError):
        return None
    version = document.get("version", 1)
    return space_in(document, program) if is_number(version) and version == 3 and "run" not in document else None
