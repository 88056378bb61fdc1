"""What `lab why` tells of an audit that is refused, behind the line of `mitigate audit`: a second reading of docs/LAB.md."""
import dataclasses
import re

from refusals import STATUS, Stop

IMAGE = "expected at most 200000\n"
EVENTS = "expected at most 16777216\n"
GREATEST = 2**40


def of_variable(number, name, study, starts):
    """The lines on a variable or an element that differs in a run from the first one."""
    variable = study.program.names.index(name)
    whole = study.program.name_of(variable)
    at = f"at {name}\n" if name != whole else ""
    found, first = starts[number - 1][0][variable], starts[0][0][variable]
    told = f"{whole} is {study.program.lattice.names[study.labelling.of[whole]]}, which the observer sees"
    return f"{at}found {found} in run {number}\nfound {first} in run 1\n{told}: all runs begin with the same value\n"


def of_budget(study, starts):
    """The line on the first budget with which no run is unfinished: twice the last one, four times at most."""
    budget = study.limit
    for times in (2, 4, 8, 16):
        if study.limit * times > GREATEST:
            break
        budget = study.limit * times
        try:
            dataclasses.replace(study, limit=budget).audit(starts)
            return f"a budget of {budget} is enough\n"
        except Stop as stop:
            if stop.status != STATUS["unfinished"]:
                break
    return f"a budget of {budget} is not enough\n"


def lines_on(line, study, starts):
    """The lines behind a line of `mitigate audit` that refuses starts, or their runs."""
    if variable := re.fullmatch(r"disagree: run ([0-9]+): variable (.*)", line):
        return of_variable(int(variable[1]), variable[2], study, starts)
    if line.startswith("disagree"):
        return f"what is held for labels that flow to {study.program.lattice.names[study.observer]} is the same in all runs\n"
    return of_budget(study, starts) if line.startswith("unfinished") else EVENTS
