"""The commands of mitigate and the questions of lab, as docs/data/commands.toml has them, for the scripts beside this one."""
import collections
import dataclasses
import functools
import pathlib
import re
import tomllib

TOP = pathlib.Path(__file__).resolve().parent.parent.parent
TABLE = TOP / "docs/data/commands.toml"
PROGRAMS = ("mitigate", "lab")
PART = re.compile(r"(?P<open>\[?)(?:--(?P<option>[a-z]+)(?: (?P<value>#?[A-Z]+))?|(?P<word>[A-Z]+))(?P<close>\]?)")


@dataclasses.dataclass
class Part:
    """A part of a form: a word, or an option with its value, which is empty where it takes none."""

    word: str
    option: str
    value: str
    needed: bool

    @property
    def key(self):
        """The name under which the table tells of the option, or the word."""
        return key_of(self.option, self.value) if self.option else self.word


@dataclasses.dataclass
class Command:
    """A command with its row in the table."""

    program: str
    name: str
    form: str
    ends: list
    says: str
    tells: str
    without: dict = dataclasses.field(default_factory=dict)
    # Another form.
    also: str = ""

    def forms(self):
        return [self.form, *([self.also] if self.also else [])]

    def parts_of(self, form):
        """The parts of a form, in its order."""
        found = list(PART.finditer(form))
        if " ".join(part[0] for part in found) != form or any(bool(part["open"]) != bool(part["close"]) for part in found):
            raise ValueError(f"{TABLE.name}: {self.name}: no form: {form}")
        return [Part(part["word"] or "", part["option"] or "", part["value"] or "", not part["open"]) for part in found]

    def parts(self):
        """The parts of all forms, each once, in their order: one is needed where each form needs it."""
        every = [part for form in self.forms() for part in self.parts_of(form)]
        needed = collections.Counter(part.key for part in every if part.needed)
        return [dataclasses.replace(part, needed=needed[key] == len(self.forms())) for key, part in {one.key: one for one in every}.items()]

    def words(self):
        return [part for part in self.parts() if part.word]

    def options(self):
        return [part for part in self.parts() if part.option]


@functools.cache
def table():
    return tomllib.loads(TABLE.read_text(encoding="utf-8"))


@functools.cache
def commands(program=None):
    """The commands of a program, or of both, in the order of the usage texts."""
    found = [Command(**row) for row in table()["command"]]
    return [command for command in found if program in (None, command.program)]


def key_of(option, value):
    """The name under which the table tells of an option with a value: its own, but where several commands have other values for it."""
    found = [key for key, row in table()["option"].items() if row.get("long", key) == option]
    return next((key for key in found if table()["option"][key].get("value", "") == value), option)


def choices(option):
    """The names that an option's value is one of; none where it is no choice."""
    return [choice["name"] for choice in table()["option"][option].get("choice", [])]


def usage(program):
    """The usage text of a program, without the line feed at its end: the first form of each command."""
    return usage_of([dataclasses.replace(command, also="") for command in commands(program)])


def usage_of(found):
    """The forms of commands as a usage text has them."""
    return "usage: " + "\n       ".join(form for command in found for form in forms_of(command))


def forms_of(command):
    """A command's forms as usage texts have them, each with its program and its name."""

    def told(part):
        key = key_of(part["option"], part["value"] or "")
        option = table()["option"][key] if part["option"] else {}
        value = "|".join(choices(key)) if option.get("choice") else option.get("in_usage", part["value"])
        return part[0] if not part["value"] else f"{part['open']}--{part['option']} {value}{part['close']}"

    return [f"{command.program} {command.name} {PART.sub(told, form)}".rstrip() for form in command.forms()]


def line_of(command, part):
    """What `lab help` tells of a word or an option."""
    option = table()["option"].get(part.key, {})
    if part.word:
        return f"  {part.word:<11} {table()['word'][part.word]['is']}"
    told = f"{option['is']}: {option['says']}" if part.value else option["says"]
    without = command.without.get(part.key, option.get("default"))
    return f"  --{part.option:<9} {told}" + (f"; {without} where it is left out" if without is not None else "")


def help_text(name=""):
    """What `lab help`, or `lab help NAME`, writes."""
    if not name:
        return "".join(f"lab {command.name:<9} {command.says}\n" for command in commands("lab"))
    command = next(command for command in commands("lab") if command.name == name)
    return "".join(line + "\n" for line in [usage_of([command]), command.says, *(line_of(command, part) for part in command.parts())])
