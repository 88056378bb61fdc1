"""Chains of reasons for a label, and the lines that tell them, for tools/second-reading.

It is written from the definitions alone: crates/flow_path/specs says what the steps of a program are and which chains
are reasons, and crates/flow_print/specs how a chain is told. A chain is a list of steps (rule, place, how, part's place,
part, right side, number of the condition in the walk). A part and a right side are spots: ("variable", name),
("label", number) or ("level", mark, number).
"""
NOUNS = {"skip", "if", "while", "mitigate", "sleep"}
BOUNDS = {"reads": "from it", "reads in index": "with it", "has read label": "with it", "under guard": "under it"}
FAINT = {"after computing", "after read label", "after assigning"}


def written(program, spot):
    """The label that a program writes at a spot, or None."""
    if spot[0] == "variable":
        return program.written[spot[1]]
    return spot[-1]


class Steps:
    """The steps of a program: those of a command's conditions, then those of its parts, then those of what follows."""

    def __init__(self, program, rules):
        self.program, self.rules, self.found, self.conditions = program, rules, [], 0
        self.walk(program.body, [], [])
        self.found = list(dict.fromkeys(self.found))

    @staticmethod
    def reads(how, command, expression):
        """What an expression reads, as parts (how, place, spot)."""
        if expression[0] == "number":
            return []
        if expression[0] == "apply":
            return Steps.reads(how, command, expression[2]) + Steps.reads(how, command, expression[3])
        one = [(how, command["place"], ("variable", expression[1]))]
        return one + (Steps.reads(how, command, expression[3]) if expression[0] == "element" else [])

    @staticmethod
    def index_reads(command, expression):
        """What stands in an index of an expression."""
        if expression[0] == "apply":
            return Steps.index_reads(command, expression[2]) + Steps.index_reads(command, expression[3])
        return Steps.reads("reads in index", command, expression[3]) if expression[0] == "element" else []

    @staticmethod
    def read_label(how, command):
        return [(how, command["place"], ("label", command["marks"][0]))] if command["marks"] else []

    def after(self, command, time):
        """The time after a command's own reading, where this was the time before it."""
        reads = "after computing" if command["form"] in ("assign", "put") else "after reading"
        parts = self.reads(reads, command, command["value"]) if "value" in command else []
        parts += self.read_label("after read label", command)
        if command["form"] in ("assign", "put"):
            parts.append(("after assigning", command["place"], ("variable", command["name"][1])))
        if "index" in command:
            parts += self.reads(reads, command, command["index"])
        return list(dict.fromkeys(time + parts))

    def ends(self, commands, time):
        """The time after a list of commands."""
        for command in commands:
            time = self.end(command, self.after(command, time))
        return time

    def end(self, command, after):
        if command["form"] == "if":
            then, other = (self.ends(part, after) for part in command["parts"])
            return list(dict.fromkeys(then + other))
        return self.ends(command["parts"][0], after) if command["form"] == "while" else after

    def to(self, command, side, parts):
        self.found += [(self.rules[command["form"]], command["place"], *part, side, self.conditions) for part in parts]
        self.conditions += 1

    def walk(self, commands, guards, time):
        for command in commands:
            form, after = command["form"], self.after(command, time)
            indices = self.reads("reads in index", command, command["index"]) if "index" in command else []
            own = indices + (self.index_reads(command, command["value"]) if "value" in command else [])
            if form in ("assign", "put"):
                reads = self.reads("reads", command, command["value"]) + indices
                label = self.read_label("has read label", command)
                self.to(command, ("variable", command["name"][1]), reads + guards + label + time)
            # Without marks the condition on the write label holds anyway.
            self.to(command, ("label", command["marks"] and command["marks"][-1]), guards + own if command["marks"] else [])
            inner, end = guards, self.end(command, after)
            if form in ("if", "while"):
                inner = guards + self.reads("under guard", command, command["value"])
            for part in command["parts"]:
                self.walk(part, inner, end if form == "while" else after)
            if form == "mitigate":
                self.to(command, ("level", command["mark"], command["level"]), self.ends(command["parts"][0], after))
            time = end


def cost(step):
    return (int(step[2] in FAINT), 1)


def plus(one, other):
    return (one[0] + other[0], one[1] + other[1])


def told(program, steps, is_first, is_last):
    """Of all cheapest chains from a step that is_first to one that is_last the one that is told: seen from its end, each of
    its steps is the first among the steps of the program by which a cheapest one can go."""
    best = {}

    def whole(step):
        """What a chain costs at least that ends by the step; None where there is none."""
        if is_first(step):
            return cost(step)
        before = best.get(step[4]) if written(program, step[4]) is None else None
        return plus(before, cost(step)) if before else None

    def first(among):
        found = [(whole(step), k) for k, step in enumerate(steps) if among(step) and whole(step)]
        return steps[min(found)[1]] if found else None

    while True:
        before = dict(best)
        for step in steps:
            found, side = whole(step), step[5]
            if found and written(program, side) is None and (side not in best or found < best[side]):
                best[side] = found
        if before == best:
            break
    step = first(is_last)
    chain = []
    while step:
        chain.insert(0, step)
        spot = step[4]
        step = None if is_first(step) else first(lambda other: other[5] == spot)
    return chain


class Lines:
    """The lines of chains over a text with these tokens (kind, value, place)."""

    def __init__(self, program, found):
        self.program, self.found, self.names = program, found, program.lattice.names

    def next_place(self, place, name):
        return next((t[2] for t in self.found if t[2] > place and t[:2] == ("name", name)), place)

    def noun(self, place):
        kind, value = next(t[:2] for t in self.found if t[2] == place)
        return value if kind == "key" and value in NOUNS else "assignment"

    def reader(self, place):
        return "guard" if self.noun(place) in ("if", "while") else self.noun(place)

    def spot(self, spot):
        """What stands at a spot that is a part."""
        return spot[1] if spot[0] == "variable" else self.names[spot[1]]

    @staticmethod
    def line(place, words):
        return f"{place[0]}:{place[1]} {words}\n"

    def part(self, how, place, spot, label):
        name, noun = self.spot(spot), self.noun(place)
        at = self.next_place(place, name)
        takes = self.line(place, f"so how long this {noun} takes is {label}")
        has = self.line(place, f"this {noun} has the read label {name}")
        return {
            "reads": self.line(at, f"this value reads {name}"),
            "reads in index": self.line(at, f"this index reads {name}"),
            "has read label": has,
            "under guard": self.line(at, f"this guard reads {name}"),
            "after reading": self.line(at, f"this {self.reader(place)} reads {name}") + takes,
            "after computing": self.line(at, f"this {self.reader(place)} reads {name}")
            + self.line(place, f"so how long this assignment takes counts as {label}"),
            "after read label": has + takes,
            "after assigning": self.line(place, f"this assigns to {name}") + self.line(place, f"so when it is done is {label}"),
        }[how]

    def side(self, how, place, spot, label):
        bound, allowed = BOUNDS.get(how, "after it"), written(self.program, spot)
        told = None if allowed is None else self.names[allowed]
        if spot[0] == "variable" and told:
            return self.line(place, f"{spot[1]}, which is {told}, gets its value {bound}")
        if spot[0] == "variable":
            return self.line(place, f"so {spot[1]}, which gets its value {bound}, is at least {label}")
        if spot[0] == "label":
            return self.line(place, f"this {self.noun(place)}, whose write label is {told}, runs {bound}")
        if told:
            return self.line(place, f"this mitigate, whose level is {told}, ends {bound}")
        return self.line(place, f"so the level of this mitigate, which ends {bound}, is at least {label}")

    def chain(self, chain):
        spot, text = chain[0][4], ""
        label = self.names[written(self.program, spot)]
        if spot[0] == "variable":
            pairs = zip(self.found, self.found[1:])
            at = next(t[2] for before, t in pairs if before[:2] == ("key", "var") and t[:2] == ("name", spot[1]))
            text = self.line(at, f"{spot[1]} is declared {label}")
        for _, place, how, part_place, part, side, _ in chain:
            text += self.part(how, part_place, part, label) + self.side(how, place, side, label)
        return text


def refusal(program, found, rules, number, allowed):
    """The text of the chain that is told of the broken condition with this number in the walk."""
    steps, flows = Steps(program, rules).found, program.lattice.flows

    def is_first(step):
        label = written(program, step[4])
        return label is not None and not flows[label][allowed]

    def is_last(step):
        return step[6] == number

    return Lines(program, found).chain(told(program, steps, is_first, is_last))


def origins(program, found, rules, spot):
    """The text that tells where an omitted label comes from: the chain that is told from each written label from which one
    leads there, the cheapest first, of those that cost as much the one to whose label more labels flow, and then the one
    whose label is named first. From the last one on each is left out whose label flows to the join of those that are left."""
    lattice, lines = program.lattice, Lines(program, found)
    steps, every = Steps(program, rules).found, []
    for label in lattice.all:
        chain = told(program, steps, lambda step: written(program, step[4]) == label, lambda step: step[5] == spot)
        if chain:
            price = tuple(sum(part) for part in zip(*map(cost, chain)))
            every.append((price, -sum(lattice.flows[other][label] for other in lattice.all), label, chain))
    every.sort(key=lambda one: one[:3])
    needed = list(every)
    for one in reversed(every):
        rest = [other for other in needed if other is not one]
        if lattice.flows[one[2]][lattice.join(*(other[2] for other in rest))]:
            needed = rest
    return "".join(lines.chain(one[3]) for one in needed)
