"""Random machine files, within the limits of docs/MACHINE.md and broken ones, for try-random and try-steady."""

PLACES = ("page", "code", "data", "second")
MOST_COST = 1_000
SETS = [1, 1, 2, 3, 5, 7, 8, 16, 31, 32, 63, 64, 65, 1000, 1024, 4095, 4096]
RULES = ['"lru"', '"fifo"', '"fifo"']
BYTES = [1, 2, 3, 4, 7, 8, 12, 24, 32, 33, 64, 1000, 1024, 4096, 2**20, 2**31, 2**32 - 1]
# What stands in place of a right value, in TOML.
WRONG_VERSIONS = ["0", "2", "-1", "1.0", '"1"', "true", "[1]", "2026-11-28", "{ number = 1 }"]
WRONG_SHARING = ['"both"', '"Shared"', '"partition"', '""', "1", "true", '["shared"]']
WRONG_RULES = ['"LRU"', '"Fifo"', '"fifo "', '"random"', '""', "0", "true", '["fifo"]', "{}"]
WRONG_KEYS = ["pages", "Page", "third", "cost", "run", '""', '"page "']
WRONG_BANKS = ["1", "true", '"none"', "[]", "{}", "[[]]", "8.5"]
WRONG_NUMBERS = ["-1", "4294967296", "9223372036854775807", "9223372036854775808", "1.0", '"1"', "true", "[1]", "{}", "inf", "07:32:00"]
NO_TOML = ["=", "page", "page = ", "[page", "x = 01", 'x = "', "x = 1 2", "x = \xff", "x = { a = 1", "x = 9223372036854775808", "\x00"]


class MachineMaker:
    """Makes files of machines, in the forms that TOML has."""

    def __init__(self, dice):
        self.dice = dice

    def bank(self, most):
        """The numbers of a bank whose look-ups cost at most so many cycles."""

        def cost():
            return min(most, self.dice.choice([0, 0, 1, self.dice.randint(0, 30), self.dice.randint(0, most), most]))

        return {
            "sets": self.dice.choice([*SETS, self.dice.randint(1, 64)]),
            "ways": self.dice.randint(1, 8),
            "bytes": self.dice.choice([*BYTES, self.dice.randint(1, 100), self.dice.randint(1, 5_000)]),
            "hit": cost(),
            "miss": cost(),
        }

    def banks(self):
        """Banks at some places, whose costs of an access come to the limit at most."""
        whole = self.dice.choice([20, 100, 300, MOST_COST])
        first, last = sorted(self.dice.randint(0, whole) for _ in range(2))
        most = {"page": first, "code": last - first, "data": last - first, "second": whole - last}
        return {place: self.bank(most[place]) for place in PLACES if self.dice.random() < 0.8}

    def number(self, value):
        """A number as TOML has it."""
        kind = self.dice.random()
        if kind < 0.8 or value < 10:
            return str(value)
        return self.dice.choice([f"+{value}", f"{value:#x}", f"{value:#o}", f"{value:#b}", f"{value:_}"])

    def document(self, sharing=None):
        """The keys of a file with what stands behind them: a text of TOML, or of a bank the texts of its numbers."""
        sharing = sharing or self.dice.choice(["partitioned", "partitioned", "shared"])
        banks = {place: {name: self.number(value) for name, value in bank.items()} for place, bank in self.banks().items()}
        for bank in banks.values():
            if self.dice.random() < 0.6:
                bank["replace"] = self.dice.choice(RULES)
        return {"version": "1", "sharing": f'"{sharing}"', **banks}

    def machine(self, sharing=None):
        """A file of a machine within the limits."""
        return self.text(self.document(sharing))

    def key(self, name):
        is_quoted = name[:1] not in "\"'" and self.dice.random() < 0.1
        return f'"{name}"' if is_quoted else name

    def shuffled(self, table):
        items = list(table.items())
        if self.dice.random() < 0.5:
            self.dice.shuffle(items)
        return items

    def text(self, document):
        """The text of a document: each bank on a line of its own, as lines of its numbers, or below a head."""
        lines, below = [], []
        for key, value in self.shuffled(document):
            key, form = self.key(key), self.dice.random()
            if isinstance(value, str):
                lines.append(f"{key} = {value}")
                continue
            numbers = [f"{self.key(name)} = {number}" for name, number in self.shuffled(value)]
            if form < 0.6 or not numbers:
                lines.append(f"{key} = {{ {', '.join(numbers)} }}")
            elif form < 0.8:
                lines += [f"{key}.{number}" for number in numbers]
            else:
                below += [f"[{key}]", *numbers]
        lines = [line + "  # a comment" * (self.dice.random() < 0.05) for line in lines + below]
        if self.dice.random() < 0.1:
            lines.insert(self.dice.randrange(len(lines) + 1), "")
        return self.dice.choice(["\n"] * 9 + ["\r\n"]).join([*lines, ""])

    # Each of these breaks a document in one way.

    def some_bank(self, document):
        """One of its banks that is one, or a made one where there is none."""
        places = [place for place in PLACES if isinstance(document.get(place), dict)]
        place = self.dice.choice(places or PLACES)
        if not places:
            document[place] = {name: str(value) for name, value in self.bank(10).items()}
        return place, document[place]

    def break_version(self, document):
        document["version"] = self.dice.choice(WRONG_VERSIONS)
        if self.dice.random() < 0.3:
            del document["version"]

    def break_sharing(self, document):
        document["sharing"] = self.dice.choice(WRONG_SHARING)
        if self.dice.random() < 0.3:
            del document["sharing"]

    def break_keys(self, document):
        document[self.dice.choice(WRONG_KEYS)] = "1"

    def break_bank(self, document):
        place, bank = self.some_bank(document)
        kind = self.dice.random()
        if kind < 0.25:
            document[place] = self.dice.choice(WRONG_BANKS)
        elif kind < 0.5:
            del bank[self.dice.choice(list(bank))]
        elif kind < 0.7:
            bank[self.dice.choice(["cost", "Sets", "way"])] = "1"
        else:
            bank[self.dice.choice(list(bank))] = self.dice.choice(WRONG_NUMBERS)

    def break_sets(self, document):
        self.some_bank(document)[1]["sets"] = self.dice.choice(["0", "4097", "8192", "4294967295"])

    def break_rule(self, document):
        self.some_bank(document)[1]["replace"] = self.dice.choice(WRONG_RULES)

    def break_ways(self, document):
        self.some_bank(document)[1]["ways"] = self.dice.choice(["0", "9", "16", "4294967295"])

    def break_bytes(self, document):
        self.some_bank(document)[1]["bytes"] = "0"

    def break_costs(self, document):
        self.some_bank(document)[1][self.dice.choice(["hit", "miss"])] = str(MOST_COST + self.dice.choice([1, 1, 30, 2**31]))

    def broken(self, number):
        """A file that is refused, by the refusal of this number, and every other one in another way too."""
        document, breaks = self.document(), [self.break_version, self.break_keys, self.break_sharing, self.break_bank, self.break_rule]
        breaks += [self.break_sets, self.break_ways, self.break_bytes, self.break_costs]
        number %= len(breaks) + 1
        if number < len(breaks):
            breaks[number](document)
        if self.dice.random() < 0.5:
            self.dice.choice(breaks)(document)
        text = self.text(document)
        if number < len(breaks):
            return text
        at = self.dice.randrange(text.count("\n") + 1)
        lines = text.split("\n")
        return "\n".join([*lines[:at], self.dice.choice([*NO_TOML, lines[0]]), *lines[at:]])
