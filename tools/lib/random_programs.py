"""Random programs with their starts and calls, for try-random and try-steady."""

LATTICES = [
    ("", "L H"),
    ("labels P, A, B, T; order P < A, P < B, A < T, B < T;\n", "P A B T"),
    ("labels H, M, L; order L < M, M < H;\n", "H M L"),
]
NUMBERS = "0 1 2 3 7 40".split()
OPERATORS = "+ - * % < ==".split()


class Maker:
    """Makes a program of random parts, with its starts and the calls that are made of it."""

    def __init__(self, dice):
        self.dice = dice
        self.head, labels = dice.choice(LATTICES)
        self.labels = labels.split()
        self.variables = [(f"v{k}", dice.random() < 0.25) for k in range(dice.randint(2, 5))]

    def label(self):
        return self.dice.choice(self.labels)

    def program(self):
        declared = ""
        for name, is_array in self.variables:
            length = f"[{self.dice.randint(1, 4)}]" if is_array else ""
            label = f" : {self.label()}" if is_array or self.dice.random() < 0.7 else ""
            declared += f"var {name}{length}{label};\n"
        return self.head + declared + self.commands(0) + "\n"

    def starts(self):
        runs = "version = 2\n"
        for _ in range(self.dice.randint(1, 4)):
            given = [(name, is_array) for name, is_array in self.variables if self.dice.random() < 0.6]
            values = [
                f"{name} = [{self.dice.randint(-1, 9)}]" if is_array else f"{name} = {self.dice.randint(-1, 30)}"
                for name, is_array in given
            ]
            runs += f"[[run]]\nmemory = {{ {', '.join(values)} }}\n"
        return runs

    def place(self, depth=0):
        name, is_array = self.dice.choice(self.variables)
        return f"{name}[{self.expression(depth + 1)}]" if is_array else name

    def expression(self, depth=0):
        kind = self.dice.random()
        if kind < 0.4 or depth > 2:
            return self.dice.choice(NUMBERS)
        if kind < 0.8:
            return self.place(depth)
        return f"({self.expression(depth + 1)} {self.dice.choice(OPERATORS)} {self.expression(depth + 1)})"

    def marks(self):
        return f" @[{self.label()}, {self.label()}]" if self.dice.random() < 0.08 else ""

    def commands(self, depth):
        return "; ".join(self.command(depth) for _ in range(self.dice.randint(1, 3)))

    def command(self, depth):
        kind = self.dice.random()
        if depth > 2 or kind < 0.45:
            return f"{self.place()} := {self.expression()}{self.marks()}"
        if kind < 0.55:
            return f"skip{self.marks()}"
        if kind < 0.65:
            return f"sleep {self.expression()}{self.marks()}"
        if kind < 0.75:
            guard = f"if {self.expression()}{self.marks()}"
            return f"{guard} then {{ {self.commands(depth + 1)} }} else {{ {self.commands(depth + 1)} }}"
        if kind < 0.82:
            name, is_array = self.dice.choice(self.variables)
            counted = f"{name}[0]" if is_array else name
            turn = f"{self.commands(depth + 1)}; {counted} := {counted} - {self.dice.randint(1, 3)}"
            return f"while {counted} > 0 do {{ {turn} }}"
        level = f", {self.label()}" if self.dice.random() < 0.7 else ""
        return f"mitigate ({self.expression()}{level}){self.marks()} {{ {self.commands(depth + 1)} }}"

    def reasons(self):
        """The calls of `why`: of the program, of each variable, of each mitigate up to the second, and of a name that there is not."""
        yield "lab", ["why", "p"]
        yield from (("lab", ["why", "p", "--of", name]) for name in [*(name for name, _ in self.variables), "#0", "#1", "zz"])

    def verdicts(self):
        """Two calls of `steady`."""
        for _ in range(2):
            parts = self.dice.choice([["--parts", self.label()], []])
            yield "lab", ["steady", "p", "--observer", self.label(), *parts, *self.dice.choice([["--whole"], []])]

    def misnamed(self, setting):
        """Calls in which a word names nothing: a label, maybe a word that is one with another letter, or an operator."""
        wrong = self.dice.choice(["zz", "l", "LH", self.label() + "x", self.label().lower()])
        starts = self.dice.choice(["why", "seen", "timeline", "bound", "leak", "tune"])
        yield "lab", [starts, "p", "s", "--observer", wrong, *setting]
        given = self.dice.choice([["--observer", wrong], ["--observer", self.label(), "--parts", wrong]])
        yield "lab", ["steady", "p", *given]
        names = self.dice.choice(["add,none", "add,,compare", "mul", "compare,add", "none"])
        yield "lab", ["steady", "p", "--observer", self.label(), "--constant", names]
        yield "mitigate", ["audit", "p", "s", "--observer", wrong, *setting]

    def mark(self):
        """Which mitigate `tune` is asked about, and how many bits it may tell."""
        of = self.dice.choice([[], ["--of", "#0"], ["--of", "#1"], ["--of", "#2"]])
        return [*of, *self.dice.choice([[], [], ["--bits", "0"], ["--bits", "1"], ["--bits", "2"]])]

    def calls(self):
        """Each call's program with its words."""
        setting = ["--env", self.dice.choice(["flat", "part", "part2"]), "--budget", self.dice.choice(["200", "3000", "20000"])]
        observer = ["--observer", self.label()]
        yield from (("mitigate", [word, "p"]) for word in ("check", "infer", "compile", "certify"))
        yield "mitigate", ["meaning", "p", "s", "--steps", "1000"]
        yield "mitigate", ["run", "p", "s", *setting, *self.dice.choice([observer, []])]
        yield from (("mitigate", [word, "p", "s", *observer, *setting]) for word in ("audit", "cut"))
        yield from self.reasons()
        yield from self.verdicts()
        yield from self.misnamed(setting)
        yield from (("lab", [word, "p", "s", *observer, *setting]) for word in ("why", "seen", "bound", "leak"))
        yield "lab", ["timeline", "p", "s", *setting, *self.dice.choice([observer, []])]
        yield "lab", ["tune", "p", "s", *observer, *setting, *self.mark()]
        on_machine = ["--machine", "m", *setting[2:]]
        yield from (("lab", [word, "p", "s", *observer, *on_machine]) for word in ("why", "seen", "bound", "leak"))
        yield "lab", ["timeline", "p", "s", *on_machine]
        yield "lab", ["tune", "p", "s", *observer, *on_machine, *self.mark()]

    def changed(self, certificate):
        """A certificate, mostly with one of its words changed."""
        if self.dice.random() < 0.3:
            return certificate
        lines = certificate.split("\n")
        line = self.dice.randrange(len(lines) - 1)
        words = lines[line].split(" ")
        word = self.dice.randrange(len(words))
        words[word] = self.dice.choice([self.label(), words[word] + "x", "0"])
        lines[line] = " ".join(words)
        return "\n".join(lines)


# A text of labels, with a label that is seen and one that is not, for an observer at the first.
SEEN_AND_HIDDEN = [
    ("", "L", "H"),
    ("", "L", "H"),
    ("labels P, A, B, T; order P < A, P < B, A < T, B < T;\n", "P", "T"),
    ("labels P, A, B, T; order P < A, P < B, A < T, B < T;\n", "A", "B"),
    ("labels H, M, L; order L < M, M < H;\n", "M", "H"),
]
WIDE_NUMBERS = "0 1 2 3 7 32767 32768 100000".split()


class ConstantTimeMaker(Maker):
    """Makes programs as one writes them to be constant in time: counted loops, tables that are scanned, values that are chosen by
    products. A share of slips lets a secret come where the style has none."""

    def __init__(self, dice):
        self.dice = dice
        self.head, self.seen, self.hidden = dice.choice(SEEN_AND_HIDDEN)
        self.labels = [self.seen, self.hidden]
        self.slips = dice.choice([0.0, 0.0, 0.1, 0.3])
        self.public = [f"l{k}" for k in range(dice.randint(1, 3))]
        self.secret = [f"h{k}" for k in range(dice.randint(1, 3))]
        self.counters, self.free = ["i0", "i1"], ["i0", "i1"]
        self.tables = {"a": (False, dice.choice([1, 2, 4, 8])), "b": (True, dice.choice([1, 3, 8]))}
        self.variables = [(name, False) for name in self.public + self.secret] + [("a", True), ("b", True)]

    def program(self):
        declared = "".join(f"var {name} : {self.seen};\n" for name in self.public + self.counters)
        declared += "".join(f"var {name} : {self.hidden};\n" for name in self.secret)
        for name, (is_public, length) in self.tables.items():
            declared += f"var {name}[{length}] : {self.seen if is_public else self.hidden};\n"
        return self.head + declared + self.commands(0) + "\n"

    def marks(self):
        if self.dice.random() < 0.9:
            return ""
        return f" @[{self.dice.choice([self.seen, self.seen, self.label()])}, {self.label()}]"

    def slip(self, share):
        return self.dice.random() < self.slips * share

    def value(self, is_public, depth):
        """An expression, of public parts alone if so asked, but for slips."""
        is_public = is_public and not self.slip(0.3)
        kind = self.dice.random()
        if depth and kind < 0.55:
            left, right = self.value(is_public, depth - 1), self.value(is_public, depth - 1)
            if self.dice.random() >= 0.12 + self.slips:
                return f"({left} {self.dice.choice(['+', '-', '==', '<', '!=', '/', '%'])} {right})"
            if not is_public and self.dice.random() < 0.6:
                left, right = self.value(True, depth - 1), f"({right} == {self.value(False, 0)})"
            return f"({left} * {right})"
        if kind < 0.8:
            return self.dice.choice(self.public + self.counters + ([] if is_public else self.secret * 2))
        if kind < 0.92:
            return f"{'b' if is_public else self.dice.choice('ab')}[{self.value(not self.slip(0.3), min(depth, 1))}]"
        return self.dice.choice(WIDE_NUMBERS)

    def commands(self, depth):
        return "; ".join(self.command(depth) for _ in range(self.dice.randint(1, 5 - depth)))

    def command(self, depth):
        kind, is_public = self.dice.random(), not self.slip(0.25)
        if depth < 3 and kind < 0.12:
            guard = f"if {self.value(is_public, 1)}{self.marks()}"
            return f"{guard} then {{ {self.commands(depth + 1)} }} else {{ {self.commands(depth + 1)} }}"
        if depth < 3 and kind < 0.3 and self.free:
            counter = self.free.pop()
            most = self.dice.choice(["2", "3", "5", f"{self.public[0]} % 4"])
            turn = f"{self.commands(depth + 1)}; {counter} := {counter} + 1"
            self.free.append(counter)
            return f"{counter} := 0; while {counter} < {most} do {{ {turn} }}"
        if depth < 3 and kind < 0.37:
            return f"mitigate ({self.value(is_public, 0)}, {self.hidden}) {{ {self.commands(depth + 1)} }}"
        if kind < 0.42:
            return f"sleep ({self.value(is_public, 1)}) % 9{self.marks()}"
        if kind < 0.45:
            return f"skip{self.marks()}"
        if kind < 0.59:
            name = self.dice.choice("ab")
            value = self.value(self.tables[name][0] and is_public, 2)
            return f"{name}[{self.value(is_public, 1)}] := {value}{self.marks()}"
        name = self.dice.choice(self.public + self.secret)
        return f"{name} := {self.value(name in self.public and is_public, 2)}{self.marks()}"


# Values of variables, and the places where starts touch addresses.
VALUES = [0, 1, 2, 3, 5, 7, -1, -3, 40, 255, 1000, 32767, 32768, -32768, -32769, 40000, 10**12, 2**63 - 1, -(2**63)]
PLACES = ["page", "code", "data", "second"]


class Starts:
    """Starts of a program that agree for an observer, and below a label of the environments."""

    def __init__(self, program, labelling, observer, parts, dice):
        self.program, self.dice = program, dice
        flows, self.names = program.lattice.flows, program.lattice.names
        self.is_seen = [flows[labelling.of[program.name_of(x)]][observer] for x in range(len(program.names))]
        self.is_felt = {name: flows[label][parts] for label, name in enumerate(self.names)}
        self.memory, self.touched = self.values(), self.touches()

    def values(self):
        return [self.dice.choice(VALUES) if self.dice.random() < 0.5 else self.dice.randint(0, 9) for _ in self.program.names]

    def touches(self):
        """Touches of lines that the code and the variables of a small program use, and of others that stand in their way."""
        made = []
        for _ in range(self.dice.randint(0, 14)):
            address = self.dice.randrange(1024) if self.dice.random() < 0.5 else 2**20 + self.dice.randrange(600)
            made.append((self.dice.choice(PLACES), self.dice.choice(self.names), address))
        return made

    def another(self):
        """A memory and touches: what is seen stays, and of the touches those in the parts that agree."""
        fresh = self.values()
        memory = [old if is_seen or self.dice.random() < 0.3 else new for old, new, is_seen in zip(self.memory, fresh, self.is_seen)]
        kept = [touch for touch in self.touched if self.is_felt[touch[1]]]
        return memory, kept + [touch for touch in self.touches() if not self.is_felt[touch[1]]]


def start_file(program, starts):
    """A start file of these memories and touches."""
    text = "version = 2\n"
    for memory, touches in starts:
        given = []
        for name, length in program.lengths.items():
            values = memory[program.first[name] :][: length or 1]
            given.append(f"{name} = {values[0] if length is None else values}")
        made = "".join(f'  {{ place = "{place}", label = "{label}", address = {address} }},\n' for place, label, address in touches)
        text += f"[[run]]\nmemory = {{ {', '.join(given)} }}\ntouch = [\n{made}]\n"
    return text
