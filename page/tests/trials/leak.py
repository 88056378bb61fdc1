"""What the listed runs tell, exactly, and whether a program is constant in time: as ./lab tells it, and drawn apart."""
import re

from driving import EXAMPLES, all_dimmed, holds, none_dimmed, same
from trials.controls import PROGRAMS, call, set_together

ROWS = "return [...document.querySelectorAll('#leak-classes tbody tr')].map((row) => [...row.cells].map((one) => one.textContent))"
WIDTHS = (
    "return [...document.querySelectorAll('#leak-classes tbody tr')].map((row) =>"
    " row.querySelector('.bar rect:last-child').getAttribute('width'))"
)
NUMBERS = "return [...document.querySelectorAll('#leak-numbers tr')].map((row) => [...row.cells].map((one) => one.innerText))"
# Whether something that can be seen has a colour of the page, by its name.
HAS_COLOUR = """
const probe = document.createElement('i');
probe.style.color = `var(--${arguments[1]})`;
document.body.append(probe);
const colour = getComputedStyle(probe).color;
probe.remove();
return [...document.querySelectorAll(arguments[0])].some((one) => one.getClientRects().length
  && getComputedStyle(one).color === colour);"""


def plain(text):
    return text.replace("\u202f", "").strip()


def compare(page, observer="L", env="part", budget="1000000"):
    """The part beside what the lab prints of the same; with how many classes there are."""
    words = f"leak program.mit starts.toml --observer {observer} --env {env} --budget {budget}"
    told = call("lab", words, page.program(), page.value("#toml"))
    holds(told.startswith("runs "), told)
    classes = re.findall(r"^class (\d+) first (\d+)\t(.*)$", told, re.MULTILINE)
    rows = page.run(ROWS)
    same(len(rows), len(classes), "classes")
    for number, (row, (size, first, field)) in enumerate(zip(rows, classes), 1):
        same([plain(row[0]), plain(row[2]).split()[0], plain(row[3])], [str(number), size, f"run {first}"], "a class")
        events = [] if field == "-" else [re.sub(r"^(.*)=(.*)@(\d+)$", r"\1 = \2 @\3", event) for event in field.split()]
        holds(all(event in row[4] for event in events[:2]), f"{row[4]}: {events}")
    greatest = max(int(size) for size, _, _ in classes)
    shares = [float(width.rstrip("%")) for width in page.run(WIDTHS)]
    holds(all(abs(share - 100 * int(size) / greatest) < 0.01 for share, (size, _, _) in zip(shares, classes)), f"bars: {shares}")
    numbers = [[plain(cell) for cell in row] for row in page.run(NUMBERS)]
    distinct, sharp, bound = (re.search(rf"^{word} (\S+)", told, re.MULTILINE)[1] for word in ("distinct", "sharp", "bound"))
    same([row[0] for row in numbers[:2]], [distinct, sharp], "exact and sharp, one below the other")
    same(numbers[2][0].replace("\n", ""), "1" if bound.startswith("1^") else bound.replace("^", ""), "the bound below them")
    before, after = re.search(r"^right at first (1 of \d+) before, (\d+ of \d+) after$", told, re.MULTILINE).groups()
    same([row[0] for row in numbers[3:5]], [before, after], "the chances of the first guess")
    for word, row in zip(("min-entropy", "shannon"), numbers[5:]):
        low, high = re.search(rf"^{word} (\S+) to (\S+)$", told, re.MULTILINE).groups()
        same(row[0], "0" if float(high) == 0 else f"{low} to {high}", word)
    holds(f"./lab {words}" in page.texts("#command-list code"), "its command line")
    return len(classes)


def exact_leak(page):
    """Of the examples, and with other settings, the part has what the lab prints of them."""
    page.choose(0)
    same(compare(page), 3, "classes")
    same(
        page.text("#leak-sentence"),
        "These nine runs show three different things. What run 1 shows, no other one does.",
        "the sentence",
    )
    colours = page.run("return [...document.querySelectorAll('#leak-classes .bar rect:last-child')].map((one) => one.getAttribute('fill'))")
    same(colours, ["var(--c0)", "var(--c1)", "var(--c2)"], "colours, as those of the lanes")
    page.choose(1)
    same(compare(page), 1, "classes")
    holds("one and the same thing" in page.text("#leak-sentence"), page.text("#leak-sentence"))
    compare(page, **set_together(page))


def looks_at_its_run(page):
    """A class leads to its first run in the timeline, on whichever page of lanes that is."""
    page.choose(4)
    page.set("#range-from", "0")
    page.set("#range-to", "130")
    page.browser.click("#range-go")
    page.idle()
    last = int(page.run("return [...document.querySelectorAll('#leak-classes [data-first]')].at(-1).dataset.first"))
    for first in (1, last):
        page.run("document.querySelector(`#leak-classes [data-first='${arguments[0]}']`).click()", first)
        same(page.count(f".lane[data-run='{first}']"), 1, f"the lane of run {first}")
        holds(page.text("#lane-says").startswith(f"Run {first}, class "), f"{page.text('#lane-says')}, and not of run {first}")
    page.choose(4)


def no_exact_leak(page):
    """Where not all runs halt, where starts disagree and where a program is refused, it says why."""
    page.choose(4)
    page.set("#budget", "150")
    page.idle()
    same(page.run("return document.getElementById('leak-shown').hidden"), True, "no numbers of other runs")
    holds("Not all of these runs have halted" in page.text("#leak-note"), page.text("#leak-note"))
    page.write("var l : L;\nl := 1", "[[run]]\nmemory = { l = 1 }\n\n[[run]]\nmemory = { l = 2 }\n")
    holds("no exact leak" in page.text("#leak-note"), page.text("#leak-note"))
    page.choose(2)
    holds("counted of accepted programs" in page.text("#leak-note"), page.text("#leak-note"))
    page.choose(0)
    none_dimmed(page, "#leak-shown tr", "what the runs tell")
    page.write((EXAMPLES / "password_open.mit").read_text())
    all_dimmed(page, "#leak-shown tr", "what the runs of the program before told")
    same(page.text("#leak-note"), "Of an earlier program.", "whose it is")


def refused_is_shown(page):
    """A refused program has its picture, by its least labels: each run as the lab tells it, and how many are told apart."""
    page.choose(2)
    seen = call("lab", "seen program.mit starts.toml --observer L --refused", page.program(), page.value("#toml")).splitlines()
    holds(seen[0].startswith("refused T-ASGN at 18:1") and len(seen) == 10, seen)
    rows, ends = page.texts("#starts-table td.seen"), [line.split("@")[1] for line in seen[1:]]
    same(page.count(".lane"), 9, "lanes")
    for row, cycle in zip(rows, ends):
        holds(row.endswith(f"done = 1 @{cycle}"), f"{row}: {cycle}")
    none_dimmed(page, ".lane", "lanes of what is there")
    distinct = {9: "nine", 8: "eight", 7: "seven"}[len(set(ends))]
    holds(f"Of nine runs an observer at L sees {distinct} timings, and no limit holds." in page.text("#sentence"), page.text("#sentence"))
    holds("no limit holds of them" in page.text("#lane-says"), page.text("#lane-says"))
    holds(page.run("return document.getElementById('sweep-go').disabled || document.getElementById('sweep').hidden"), "no sweep")
    lines = page.texts("#command-list code")
    holds("./lab timeline program.mit starts.toml --env part --budget 1000000 --refused" in lines, lines)
    page.choose(0)
    page.write((EXAMPLES / "password_open.mit").read_text())
    none_dimmed(page, ".lane", "lanes of a program that is refused after an accepted one")
    all_dimmed(page, "#audit b", "numbers of the accepted one")
    page.write(page.program() + "$")
    all_dimmed(page, ".lane", "lanes of what is no program any more")


def steady(page, program, starts="[[run]]\n"):
    page.write((EXAMPLES / program).read_text(), starts)
    return call("lab", "steady program.mit --observer L", page.program(), "").splitlines()


def steady_and_refused(page):
    """A refused program that is constant in time does not look like a leak, and what the yes is worth is told."""
    page.choose(3)
    told = steady(page, "steady/compare.mit")
    same(told[0], "steady", "what the lab says")
    holds("no leak" in page.text("#sentence") and "no limit" not in page.text("#sentence").lower(), page.text("#sentence"))
    holds("this refusal is no leak" in page.text("#verdict-steady"), page.text("#verdict-steady"))
    holds(not page.run(HAS_COLOUR, "#verdict, #verdict *, #sentence, #sentence *", "bad"), "nothing is told in red")
    holds(page.run(HAS_COLOUR, "#steady-says .judgement", "good"), "the yes has its green")
    same(page.count("#editor .wrong"), 0, "what is marked as wrong")
    same("".join(page.texts("#editor .ruled")).replace(" ", ""), "i:=0", "what is marked as refused by the rules")
    text = page.text("#steady-says")
    sees = re.match(r"sees (\d+) of (\d+) variables", told[4])
    holds(f"It sees {sees[1]} of {sees[2]} variables." in text, text)
    holds("one sequence, up to each cycle" in text and "They end at one cycle, too." in text and "no leak" in text, text)
    lines = page.texts("#command-list code")
    holds("./lab steady program.mit --observer L" in lines and "./lab steady program.mit --observer L --whole" in lines, lines)
    page.set("#observer", "H", "change")
    page.idle()
    holds("A yes that says little" in page.text("#steady-says"), "of one who sees all: " + page.text("#steady-says"))
    page.set("#observer", "L", "change")
    page.idle()
    page.browser.click("#to-steady")
    page.until(lambda: page.run("return document.getElementById('steady').getBoundingClientRect().top < innerHeight"), "the part in view")


def not_steady(page):
    """A no has its reason, its place, marked and gone to, and the variable to blame; of each reason that there is."""
    page.choose(3)
    for program in ("steady/early_compare.mit", "steady/lookup.mit", "steady/select_secret.mit", "refused/assign.mit"):
        told = steady(page, program)
        place, name = re.search(r" at (\d+:\d+):", told[0])[1], told[1].split()[0]
        text = page.text("#steady-says")
        holds(text.startswith("Not known to be, for an observer at L") and "A no is no leak" in text, text)
        holds(place in text and f"{name}, which is declared H" in text, f"{text}: {told}")
        line = int(place.split(":")[0])
        begin = page.program().splitlines()[line - 1][int(place.split(":")[1]) - 1 :]
        marked = "".join(page.texts("#editor .unsteady"))
        holds(marked and begin.startswith(marked), f"{marked!r} is marked, of {begin!r}")
        page.browser.click(f'#steady-says [data-place="{place}"]')
        page.until(lambda: begin.startswith(page.selected()) and page.selected(), f"the place {place}")
        page.browser.click(f'#steady-says [aria-label^="{name}, declared at"]')
        page.until(lambda: page.selected() == name, f"where {name} is declared")
    holds(page.run(HAS_COLOUR, "#verdict", "bad"), "a refusal that may be a leak is told in red")
    holds("no limit holds" in page.text("#sentence").lower(), page.text("#sentence"))


def asked_where_accepted(page):
    """Of an accepted program it is asked on demand, and from then on."""
    page.choose(0)
    same(page.count("#editor .unsteady"), 0, "nothing is marked before")
    page.browser.click("#steady-go")
    page.browser.wait("return document.querySelector('#steady-says .judgement')", 20, "an answer")
    holds("a side of the product at 12:3" in page.text("#steady-says"), page.text("#steady-says"))
    holds("so what its runs tell is bounded" in page.text("#steady-says"), page.text("#steady-says"))
    same("".join(page.texts("#editor .unsteady")), "while right * (place < 8) do", "what is marked")
    page.write((EXAMPLES / "steady/padded.mit").read_text(), "[[run]]\n")
    holds("✓ Yes, for an observer at L" in page.text("#steady-says"), page.text("#steady-says"))
    holds("refuse" not in page.text("#steady-says"), "it is not refused")
    page.write((EXAMPLES / "steady/tail.mit").read_text())
    holds("When they end is not known to be one cycle: how long the sleep at 5:1" in page.text("#steady-says"), "its end")
    page.choose(0)
    holds(page.text("#steady-says").startswith("The rules bound"), "another program is not asked about")


SPACE = 'version = 3\n\n[space]\nmemory = { h = "0..15" }\n'


def spaces(page):
    """A range in a cell of the only run makes a space of starts. What all of them tell is counted as `lab leak` counts it,
    the first start of each class is drawn, and can be made a run."""
    page.choose(4)
    page.set("#toml", "[[run]]\nmemory = { h = 3 }\n")
    page.idle()
    page.run("document.querySelector('#starts-table input').focus()")
    page.browser.press("Control+a")
    page.browser.type("0..15")
    page.idle()
    same(page.value("#toml"), SPACE, "the starts")
    told = call("lab", "leak program.mit starts.toml --observer L", page.program(), SPACE)
    distinct = int(re.search(r"^distinct (\d+)$", told, re.M)[1])
    holds(distinct > 1 and "starts 16\n" in told, told)
    says = f"Of all 16 starts of the space an observer at L sees {['', '', 'two', 'three', 'four', 'five'][distinct]} different timings."
    same(page.text("#sentence"), says, "what was found")
    sizes = re.findall(r"^class (\d+) first (\d+)\t", told, re.M)
    same(
        [row[2] for row in page.run(ROWS)],
        [f"{size} start{'s' if size != '1' else ''}" for size, _ in sizes],
        "how many starts each class has",
    )
    same(page.texts("#leak-classes [data-first]"), [f"h = {int(first) - 1}" for _, first in sizes], "the first ones")
    for bits in re.findall(r"^(?:min-entropy|shannon) (\S+ to \S+)$", told, re.M):
        holds(bits in page.text("#leak-numbers"), f"{bits}: {page.text('#leak-numbers')}")
    same(page.count(".lane"), distinct, "lanes")
    same(page.text("#freshness"), "", "nothing is of earlier starts")
    page.run("document.activeElement.blur(); document.getElementById('leak-list').click()")
    page.idle()
    same(page.count("#starts-table tr[data-run]"), distinct, "runs")
    holds(page.text("#sentence").endswith(" are possible."), f"limits are told of a list: {page.text('#sentence')}")
    page.browser.click("#starts-undo")
    page.idle()
    same(page.value("#toml"), SPACE, "undone")
    page.set("#toml", SPACE.replace("15", str(2**40)))
    page.idle()
    same(page.text("#sentence"), "No runs: space: too many starts.", "too many starts")
    page.set("#toml", "[[run]]\n\n[[run]]\nmemory = { h = 3 }\n")
    page.idle()
    page.set("#starts-table input", "0..15")
    holds("there are 2 runs" in page.text("#starts-fault"), page.text("#starts-fault"))


TRIALS = [exact_leak, spaces, looks_at_its_run, no_exact_leak, refused_is_shown, steady_and_refused, not_steady, asked_where_accepted]
if not PROGRAMS.exists():
    TRIALS = []
