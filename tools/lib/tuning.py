"""Which first prediction of one mitigate is best for runs, for `second-reading`.

A mitigate with a number for its estimate may have any other number from 1 to 2^40. What a run does, and what its steps cost without
the waits of its mitigations, is the same with each of them. So of each run of the program as it is written its moments are read once,
and its clocks become sums A + B * first: from one first prediction on, the next one with which a miss count is another one is where
the first of all comparisons turns that settle a count. With the first prediction of each such interval the program's code runs anew.
"""
import dataclasses

from refusals import Stop

MOST, LATEST = 2**40, 2**64 - 1


@dataclasses.dataclass
class Interval:
    """All first predictions with the same miss counts, how many lists the relevant ones make, and the ends with the least of them."""

    first: int
    last: int
    told: int
    cost: int
    latest: int

    def beats(self, other):
        """It tells as little and costs as little, and less of either or is less."""
        no_more = self.told <= other.told and self.cost <= other.cost
        return no_more and (self.told < other.told or self.cost < other.cost or self.first < other.first)


def turn(fixed, times, first):
    """The least number above `first` with which fixed + times * number is no longer negative, or is now; None where there is none."""
    if fixed + times * first >= 0:
        return fixed // -times + 1 if times < 0 else None
    return -(fixed // times) if times > 0 else None


class Walk:
    """The miss counts of a run by its moments, with a first prediction of one mitigate, and where one of them is another one."""

    def __init__(self, moments, levels, mark, first):
        self.counts, self.turns, self.first = [], [], first
        clock, then, opened, misses = (0, 0), 0, [], {}
        for what, *told in moments:
            if what == "assigned":
                clock, then = (clock[0] + told[-1] - then, clock[1]), told[-1]
            elif what == "begins":
                begun, value, *_, at = told
                clock, then = (clock[0] + at - then, clock[1]), at
                opened.append(((0, 1) if begun == mark else (max(value, 1), 0), clock, levels[begun]))
            else:
                _, worked, lasts, _, _, at = told
                clock, then = (clock[0] + at - lasts + worked - then, clock[1]), at
                estimate, since, level = opened.pop()
                count = misses.get(level, 0)
                while self.is_reached(clock, since, estimate, count):
                    count += 1
                misses[level] = count
                self.counts.append((told[0], count))
                clock = tuple(a + 2**count * b for a, b in zip(since, estimate))

    def told(self, marks):
        """The miss counts of the mitigates with these marks."""
        return tuple(count for mark, count in self.counts if mark in marks)

    def is_reached(self, clock, since, estimate, count):
        """Whether what was worked has reached the prediction after so many misses."""
        fixed, times = (a - b - 2**count * c for a, b, c in zip(clock, since, estimate))
        if (at := turn(fixed, times, self.first)) is not None:
            self.turns.append(at)
        return fixed + times * self.first >= 0


def intervals(runs, levels, relevant, mark, run_with):
    """All intervals, in their order. `runs` are those of the program as it is written, `relevant` the marks of the mitigates whose miss counts
    are told apart; `run_with` runs the program from each start with another first prediction of the mitigate."""
    first = 1
    while first <= MOST:
        walks = [Walk(run.moments, levels, mark, first) for run in runs]
        last = min([MOST, *(at - 1 for walk in walks for at in walk.turns)])
        low, high = run_with(first), run_with(last)
        for walk, *both in zip(walks, low, high):
            if any([(told[0], told[4]) for what, *told in run.moments if what == "ends"] != walk.counts for run in both):
                raise AssertionError(f"#{mark} from {first} to {last}: a run has other miss counts")
        if max(run.clock for run in high) > LATEST:
            raise Stop("long", f"tune #{mark}: too long")
        ends = [run.clock for run in low]
        yield Interval(first, last, len({walk.told(relevant) for walk in walks}), sum(ends), max(ends))
        first = last + 1


def best(found, limit):
    """The intervals that begin with the best first predictions."""
    halting = [one for one in found if one.latest <= limit]
    return [one for one in halting if not any(other.beats(one) for other in halting)]


def enough(found, limit, most):
    """The interval that begins with the cheapest of all first predictions that tell at most so many things; none where none does."""
    few = [one for one in found if one.latest <= limit and one.told <= most]
    return sorted(few, key=lambda one: (one.cost, one.told, one.first))[:1]


def lines(told, runs):
    """The lines of intervals."""
    return "".join(f"first {one.first} to {one.last} told {one.told} mean {one.cost // runs} greatest {one.latest}\n" for one in told)
