"""Machines as files tell them, and what accesses cost on them, for `second-reading`."""
import documents
from refusals import Stop

PLACES = ("page", "code", "data", "second")
NUMBERS = {"sets", "ways", "bytes", "hit", "miss"}
RULES = ("lru", "fifo")
MOST_SETS, MOST_WAYS, MOST_NUMBER, MOST_COST = 4_096, 8, 2**32 - 1, 1_000
NO_BOUND = "no bound: all labels share the banks, and the law on the write label does not hold\n"


def fault(what):
    return Stop("starts", f"machine: {what}")


def is_number(value):
    return isinstance(value, int) and not isinstance(value, bool)


def is_bank(table):
    """Whether it is a table of the five numbers, beside which at most a rule stands."""
    if not isinstance(table, dict) or set(table) - {"replace"} != NUMBERS:
        return False
    return all(is_number(table[name]) and 0 <= table[name] <= MOST_NUMBER for name in NUMBERS)


class Machine:
    """A machine: its banks by their places, and whether all labels share them."""

    def __init__(self, content):
        document = self.document(content)
        self.is_shared = document["sharing"] == "shared"
        self.banks = {place: document[place] for place in PLACES if place in document}
        for place, bank in self.banks.items():
            if not is_bank(bank):
                raise fault(f"{place}: not a bank")
            if bank.get("replace", "lru") not in RULES:
                raise fault(f"{place}: replace")
        self.demand_limits()

    @staticmethod
    def document(content):
        """The document of a file, whose version, keys and rule of sharing are right."""
        document = documents.document(content)
        if document is None:
            raise fault("not TOML")
        if not is_number(document.get("version")) or document["version"] != 1:
            raise fault("version")
        if set(document) - {"version", "sharing", *PLACES}:
            raise fault("unknown key")
        if document.get("sharing") not in ("partitioned", "shared"):
            raise fault("sharing")
        return document

    def demand_limits(self):
        for place, bank in self.banks.items():
            for name, most in (("sets", MOST_SETS), ("ways", MOST_WAYS), ("bytes", MOST_NUMBER)):
                if not 1 <= bank[name] <= most:
                    raise fault(f"{place}: {name}")
        dearest = {place: max(bank["hit"], bank["miss"]) for place, bank in self.banks.items()}
        whole = dearest.get("page", 0) + max(dearest.get("code", 0), dearest.get("data", 0)) + dearest.get("second", 0)
        if whole > MOST_COST:
            raise fault(f"costs {whole}")

    def head(self):
        """The line that tells which kind of machine was used."""
        return "machine shared\n" if self.is_shared else "machine partitioned\n"


class MachineEnvironment:
    """A machine with what its banks hold: for each place, label and set the tags, that which goes first at the end."""

    def __init__(self, machine, lattice, touches):
        self.banks, self.is_shared, self.lattice = machine.banks, machine.is_shared, lattice
        self.held = {}
        for place, label, address in touches:
            if place in self.banks:
                self.touch(place, address, self.home(lattice.names.index(label)))

    def home(self, label):
        """The label whose partition serves a label."""
        return self.lattice.bottom if self.is_shared else label

    def holds(self, place, address, read):
        """Whether a partition holds the address whose label flows to the read label."""
        bank = self.banks[place]
        tag = address // bank["bytes"]
        of_set = [self.held.get((place, label, tag % bank["sets"]), []) for label in self.lattice.all if self.lattice.flows[label][read]]
        return any(tag in tags for tags in of_set)

    def touch(self, place, address, label):
        bank = self.banks[place]
        tag = address // bank["bytes"]
        key = (place, label, tag % bank["sets"])
        tags = self.held.get(key, [])
        if bank.get("replace") == "fifo" and tag in tags:
            return
        self.held[key] = [tag, *(other for other in tags if other != tag)][: bank["ways"]]

    def look_up(self, place, address, read, write):
        """Whether an address is held at a place, and what it costs to look; the partition of the write label is touched."""
        if place not in self.banks:
            return False, 0
        is_held = self.holds(place, address, read)
        self.touch(place, address, write)
        return is_held, self.banks[place]["hit" if is_held else "miss"]

    def access(self, place, address, read, write):
        read, write = self.home(read), self.home(write)
        _, of_page = self.look_up("page", address, read, write)
        is_near, of_line = self.look_up(place, address, read, write)
        _, of_second = self.look_up("second", address, read, write)
        return of_page + of_line + (0 if is_near else of_second)

    def part(self, place, label):
        sets = self.banks[place]["sets"] if place in self.banks else 0
        return [self.held.get((place, label, number), []) for number in range(sets)]
