"""What `lab steady` says of a program, by its commands: each instruction with what it asks, for `second-reading`."""
import dataclasses
import math

COMPARISONS = ("==", "!=", "<", "<=", ">", ">=")

# The names of `--constant`, in the order in which they are told, each with its operators.
NAMES = {"add": "+", "subtract": "-", "multiply": "*", "divide": "/", "remainder": "%", "compare": COMPARISONS}

# The forms of mends that multiply by secrets: none where costs are not those of the table.
BY_TABLE = ("if", "index", "operand")

# The form of a mend, by the reason, and for a guard by its command.
MENDS = {
    "if": "choose by arithmetic: x := (c != 0) * a + (c == 0) * b",
    "while": "loop over a public number of turns: i := 0; while i < n do { ..; i := i + 1 }",
    "index": "go through all places and choose: i := 0; while i < n do { x := x + (i == j) * a[i]; i := i + 1 }",
    "operand": "multiply by what is short, as c == 0, 1 - c or h % 8, or choose by x := a / (c != 0) + b / (c == 0)",
    "sleep": "sleep for a public time: sleep n",
    "estimate": "give a public estimate: mitigate (n, H) { .. }",
}


# A value no further from 0 than SHORT is short; of a limit past MOST, where values may wrap, none is known.
SHORT, MOST = 2**15 - 1, 2**62


@dataclasses.dataclass(frozen=True)
class Known:
    """What is known of the values of an expression in two runs: that they are the same, that neither is 0, and a limit to how far from 0 both are."""

    same: bool
    is_nonzero: bool = False
    limit: int | None = None

    def is_level(self):
        """Whether both are equal, or both short."""
        return self.same or (self.limit is not None and self.limit <= SHORT)


@dataclasses.dataclass
class Step:
    """An instruction: its command, its read label, why it asks for more than is known and of which expression."""

    command: dict
    label: int
    reason: str = ""
    blamed: tuple = ()
    shows: bool = False
    target: int | None = None


def reads(expression):
    """The names that an expression reads, in the order of its code."""
    if expression[0] == "number":
        return []
    if expression[0] == "variable":
        return [expression[1]]
    if expression[0] == "element":
        return reads(expression[3]) + [expression[1]]
    return reads(expression[2]) + reads(expression[3])


def operators(name):
    """The signs of the operators with a name."""
    return NAMES[name] if name == "compare" else (NAMES[name],)


def constant_of(word):
    """The names of a word of `--constant`; none where it names something else."""
    names = [] if word == "none" else word.split(",")
    return names if all(name in NAMES for name in names) else None


def limit_of(operator, left, right):
    """A limit to how far from 0 is what an operator makes, where one is known."""
    if operator in COMPARISONS:
        return 1
    if operator == "%":
        # By 0 the dividend remains; by another number what remains is nearer to 0 than that.
        by_divisor = right.limit - 1 if right.is_nonzero and right.limit is not None else None
        return min((limit for limit in (left.limit, by_divisor) if limit is not None), default=None)
    needed = (left.limit,) if operator == "/" else (left.limit, right.limit)
    if None in needed:
        return None
    limit = {"/": min, "*": math.prod}.get(operator, sum)(needed)
    return limit if limit <= MOST else None


class Judgement:
    """The instructions of a program for an observer, and its first fault; by the table's costs of operators, or by names of constant ones."""

    def __init__(self, program, labelling, observer, constant=None):
        self.program, self.labelling, self.observer, self.constant = program, labelling, observer, constant
        self.sees = {name: program.lattice.flows[label][observer] for name, label in labelling.of.items()}
        self.steps = []
        self.list(program.body)
        self.steps.append(Step(None, program.lattice.bottom))

    def enough(self, operator, known):
        """Whether enough is known of an operand, so that two runs pay the same for the operator."""
        if self.constant is None:
            return operator != "*" or known.is_level()
        return known.same or any(operator in operators(name) for name in self.constant)

    def value(self, command, expression, label):
        """What is known of a value."""
        step = Step(command, label)
        if expression[0] == "number":
            far = abs(expression[1])
            known = Known(True, far > 0, far if far <= MOST else None)
        elif expression[0] == "variable":
            known = Known(self.sees[expression[1]])
        elif expression[0] == "element":
            if not self.value(command, expression[3], label).same:
                step.reason, step.blamed = "index", expression[3]
            known = Known(self.sees[expression[1]])
        else:
            left = self.value(command, expression[2], label)
            right = self.value(command, expression[3], label)
            if not self.enough(expression[1], right):
                step.reason, step.blamed = "operand", expression[3]
            elif not self.enough(expression[1], left):
                step.reason, step.blamed = "operand", expression[2]
            known = Known(left.same and right.same, limit=limit_of(expression[1], left, right))
        self.steps.append(step)
        return known

    def needs(self, command, label, reason):
        """The code of a command's value, and an instruction that needs it to be the same."""
        same = self.value(command, command["value"], label).same
        self.steps.append(Step(command, label, "" if same else reason, command["value"]))
        return self.steps[-1]

    def list(self, commands):
        for command in commands:
            self.one(command)

    def one(self, command):
        form, label = command["form"], self.labelling.marks[command["number"]][0]
        if form == "skip":
            self.steps.append(Step(command, label))
        elif form in ("assign", "put"):
            is_seen = self.sees[command["name"][1]]
            index = form == "assign" or self.value(command, command["index"], label).same
            step = self.needs(command, label, "assigned" if is_seen else "")
            step.shows = is_seen
            if not index:
                step.reason, step.blamed = "index", command["index"]
        elif form == "sleep":
            self.needs(command, label, "sleep")
        elif form == "mitigate":
            self.needs(command, label, "estimate")
            self.list(command["parts"][0])
            self.steps.append(Step(command, label))
        else:
            raised = self.program.lattice.join(label, self.labelling.guard(command))
            test = self.needs(command, label, "guard")
            top = len(self.steps)
            self.list(command["parts"][0])
            if form == "if":
                jump = Step(command, raised)
                self.steps.append(jump)
                test.target = len(self.steps)
                self.list(command["parts"][1])
                jump.target = len(self.steps)
            else:
                self.needs(command, raised, "guard").target = top
                test.target = len(self.steps)

    def end(self, whole):
        """Up to where something is asked: past the image, or the least place from which on nothing is seen and none leads back."""
        if whole:
            return len(self.steps) + 1
        end = least = len(self.steps)
        for place in range(len(self.steps) - 1, -1, -1):
            step = self.steps[place]
            if step.shows:
                break
            least = least if step.target is None else min(least, step.target)
            end = place if place <= least else end
        return end

    def first(self, whole, is_felt):
        """The first instruction with a fault, and why."""
        for step in self.steps[: self.end(whole)]:
            if not is_felt(step.label):
                return step, "read label"
            if step.reason:
                return step, step.reason
        return None

    def fault(self, whole, parts):
        """The fault that is told: of its command one that is there though all is felt, if there is one."""
        found = self.first(whole, lambda label: self.program.lattice.flows[label][parts])
        plain = self.first(whole, lambda label: True)
        if found and plain and plain[0].command is found[0].command and found[0].command is not None:
            return plain
        return found

    def mend(self, step, reason):
        """The line that shows the form of a mend, where one is known."""
        kind = step.command["form"] if reason == "guard" else reason
        is_known = kind in MENDS and (self.constant is None or kind not in BY_TABLE)
        return f"mend: {MENDS[kind]}\n" if is_known else ""

    def refusal(self, step, reason, parts, why):
        names = self.program.lattice.names
        place = "end" if step.command is None else "{}:{}".format(*step.command["place"])
        text = f"unsteady {reason} at {place}: "
        if reason == "read label":
            kept = names[step.label]
            return text + f"{kept} does not flow to {names[parts]}\nwhat environments keep for {kept} need not agree\n"
        name = [name for name in reads(step.blamed) if not self.sees[name]][-1]
        label = names[self.labelling.of[name]]
        text += f"{label} does not flow to {names[self.observer]}\n"
        told = why(name) if self.program.written[name] is None else f"{name} is declared {label}\n"
        return text + told + self.mend(step, reason)


def told(program, labelling, observer, parts, constant, whole, why):
    """The status of `steady`, and what it writes, where `why` tells the lines of `why --of` on a name."""
    judgement = Judgement(program, labelling, observer, constant)
    found = judgement.fault(whole, parts)
    if found:
        return 1, judgement.refusal(*found, parts, why)
    names = program.lattice.names
    seen = sum(judgement.sees[program.name_of(x)] for x in range(len(program.names)))
    asked = "end asked" if whole else "end not asked"
    if constant is not None:
        asked = " ".join(["constant", *([name for name in NAMES if name in constant] or ["none"])]) + "\n" + asked
    return 0, (f"steady\nobserver {names[observer]}\nparts {names[parts]}\n{asked}\nsees {seen} of {len(program.names)} variables\n")
