"""Each control, changed from its default: what the page shows then is what ./mitigate and ./lab tell of it."""
import pathlib
import re
import subprocess
import tempfile
import tomllib

from driving import SWEPT, TOP, all_dimmed, holds, same
from standing_in import without_tune

PROGRAMS = TOP / "programs/x86_64-linux"
LABELS = "labels A, B, C;\norder A < B, B < C;\nvar a : A;\nvar b : B;\nvar c : C;\n"
LEVELS = LABELS + (
    "mitigate (2, C) { while c > 0 do { c := c - 1 } };\na := 2;\nmitigate (8, C) { if c > 1 then {" " sleep 9 } else { skip } };\nb := 1\n"
)
LEVEL_STARTS = "".join(f"[[run]]\nmemory = {{ c = {n} }}\n\n" for n in (0, 3, 9))
STEPS_AFTER_A_KEY = """
document.querySelector('.CodeMirror').CodeMirror.replaceRange(' ', { line: 0, ch: 0 });
return ['step-on', 'step-back'].map((name) => document.getElementById(name).disabled);"""
DATA = "[...document.querySelectorAll(arguments[0])].map((one) => one.dataset[arguments[1]])"


def call(program, words, mit, toml, **more):
    """What a proved program prints for these texts, by the words of its command line; `more` are further TOML files."""
    with tempfile.TemporaryDirectory(prefix="page-call-") as folder:
        texts = {"program.mit": mit, "starts.toml": toml, **{f"{name}.toml": text for name, text in more.items()}}
        for name, text in texts.items():
            (pathlib.Path(folder) / name).write_text(text, encoding="utf-8")
        ran = subprocess.run([PROGRAMS / program, *words.split()], cwd=folder, capture_output=True, text=True)
    return ran.stdout


def number(word, text):
    return re.search(rf"^{word} (\S+)", text, re.MULTILINE)[1]


def compare(page, observer="L", env="part", budget="1000000"):
    """All that the page shows of the present program, beside what the programs print; with how many runs differ."""
    mit, toml = page.program(), page.value("#toml")
    settings = f"--env {env} --budget {budget}"
    audit = call("mitigate", f"audit program.mit starts.toml --observer {observer} {settings}", mit, toml)
    holds(audit.startswith("runs "), audit)
    plain = page.text("#audit").replace("\u202f", "")
    distinct = number("distinct", audit)
    same(page.text("#audit .number-of b"), distinct, "the number of sequences")
    base, exponent = number("bound", audit).split("^")
    bound = page.run("return [...document.querySelectorAll('#audit .number-of b')].at(-1).innerHTML")
    same(bound, "1" if base == "1" else f"{base}<sup>{exponent}</sup>", "the bound")
    limits = call("lab", f"bound program.mit starts.toml --observer {observer} {settings}", mit, toml)
    sharp, bits = number("sharp", limits), number("bits", limits)
    holds(f"{sharp}at most, by the sharp count: {bits} bit" in plain, f"the sharp count {sharp}: {plain}")
    times = "time" if number("guess at most", limits) == "1" else "times"
    holds(f"at most {number('guess at most', limits)} {times} as often" in page.text("#audit-text").replace("\u202f", ""), "odds")
    holds(f"at {observer} up to cycle {budget}" in page.text("#audit-text").replace("\u202f", ""), page.text("#audit-text"))
    classes = re.findall(r"^run \d+ class (\d+)$", audit, re.MULTILINE)
    same(page.texts("#starts-table .class"), classes, "the classes of the table")
    compare_lanes(page, observer, settings, mit, toml)
    return int(distinct)


def compare_lanes(page, observer, settings, mit, toml, **more):
    """Each lane and each row of the table, beside what is printed of its run."""
    seen = call("lab", f"seen program.mit starts.toml --observer {observer} {settings}", mit, toml, **more).splitlines()
    lanes = page.run("return [...document.querySelectorAll('.lane')].map((one) => one.getAttribute('aria-label'))")
    rows = page.texts("#starts-table td.seen")
    same(len(lanes), len(seen), "lanes")
    for lane, row, line in zip(lanes, rows, seen):
        events = [] if line.endswith("\t-") else line.split("\t")[1].split()
        words = [re.sub(r"^(.*)=(.*)@(\d+)$", r"\1 = \2 at \3", event) for event in events]
        plain = lane.replace("\u202f", "")
        holds(all(word in plain for word in words), f"{lane}: {words}")
        same(plain.count(" = "), len(words), f"how much is told as seen in {lane}")
        holds(all(re.sub(" at ", " @", word) in row for word in words[:2]), f"{row}: {words}")
    told = call("lab", f"timeline program.mit starts.toml {settings}", mit, toml, **more)
    ends = re.findall(r"^end #\d+ (\S+) level (\S+) worked (\d+) lasts \d+ misses \d+ to \d+ @(\d+)$", told, re.MULTILINE)
    tips = " ".join(page.run("return " + DATA, ".lane [data-tip]", "tip")).replace("\u202f", "")
    for place, level, worked, end in ends:
        holds(
            re.search(rf"mitigate at {place}, level {level}: worked {worked} cycles? from \d+, waited \d+ to {end}", tips),
            f"{place} to {end}",
        )
    for end in re.findall(r"^end @(\d+)$", told, re.MULTILINE):
        holds(f"ends at {end}" in tips, f"the end at {end}")


def tries(page, what, change, **settings):
    """Compares before and after a change of one control, which makes a difference to what is shown."""
    before = page.text("#lanes") + page.text("#audit-text")
    change()
    page.idle()
    compare(page, **settings)
    holds(page.text("#lanes") + page.text("#audit-text") != before, f"{what} makes a difference")


def defaults(page):
    for number in (0, 4, 7):
        page.choose(number)
        page.set("#environment", "part", "change")
        page.idle()
        compare(page)


def environments(page):
    page.choose(7)
    for env in ("flat", "part2"):
        tries(page, env, lambda: page.set("#environment", env, "change"), env=env)


def budgets(page):
    page.choose(4)
    tries(page, "the number of cycles", lambda: page.set("#budget", "5 000"), budget="5000")


def observers(page):
    page.choose(4)
    page.write(LEVELS, LEVEL_STARTS)
    compare(page, observer="A")
    tries(page, "the observer", lambda: page.set("#observer", "B", "change"), observer="B")
    holds("seen at B" in page.text("#starts-table"), "the head of the table")


def set_together(page):
    """A program of three levels, with no control at its default; what was chosen, by the names of `compare`."""
    page.write(LEVELS, LEVEL_STARTS)
    page.set("#observer", "B", "change")
    page.set("#environment", "flat", "change")
    page.set("#budget", "70000")
    page.idle()
    return {"observer": "B", "env": "flat", "budget": "70000"}


def all_together(page):
    page.choose(4)
    compare(page, **set_together(page))


def settings_of_examples(page):
    """An example brings its settings, whatever was chosen before."""
    page.choose(9)
    same(page.value("#observer"), "bob", "the observer of two tenants")
    page.set("#environment", "part2", "change")
    page.set("#budget", "5000")
    page.idle()
    for number, env in ((4, "part"), (3, "flat")):
        page.choose(number)
        shown = (page.value("#observer"), page.value("#environment"), page.value("#budget"))
        same(shown, ("L", env, "1000000"), f"the settings of example {number}")
        compare(page, env=env)


def written(page):
    """What the text of the starts gives `h` in each run."""
    return [run.get("memory", {}).get("h") for run in tomllib.loads(page.value("#toml"))["run"]]


def cells(page):
    """Each cell and each button is of its own run, in the text too; the starts are 0 to 9."""
    page.choose(4)
    page.set('#starts-table input[data-row="3"]', "60")
    page.idle()
    compare(page)
    same(written(page), [0, 1, 2, 60, 4, 5, 6, 7, 8, 9], "the cell in the text")
    page.browser.click('[data-remove="1"]')
    page.idle()
    compare(page)
    same(written(page), [0, 2, 60, 4, 5, 6, 7, 8, 9], "the text without a run")
    page.set('#starts-table input[data-row="2"]', "")
    page.idle()
    compare(page)
    same(written(page), [0, 2, None, 4, 5, 6, 7, 8, 9], "the text without a cell")
    same(page.value('#starts-table input[data-row="1"]'), "2", "the other cells")


def swept(page):
    """The points of the sweep are those of the chosen environment, observer and budget."""
    page.choose(1)
    page.set("#environment", "flat", "change")
    page.set("#budget", "5000")
    page.idle()
    page.browser.wait(SWEPT, 60, "a sweep")
    if not page.count("#sweep-picture svg"):
        page.browser.click("#sweep-go")
    page.browser.wait(SWEPT, 120, "a sweep")
    toml = page.value("#toml")
    rows = page.run(
        "return [...document.querySelectorAll('#sweep-table tbody tr')].map((row) =>" " [...row.cells].map((one) => one.textContent))"
    )
    for row in rows[:: max(1, len(rows) // 8)]:
        prediction, sequences, shortest, longest = (cell.replace("\u202f", "") for cell in row[:4])
        mit = page.program().replace("(512, H)", f"({prediction}, H)")
        audit = call("mitigate", "audit program.mit starts.toml --observer L --env flat --budget 5000", mit, toml)
        told = call("lab", "timeline program.mit starts.toml --env flat --budget 5000", mit, toml)
        ends = [int(end) for end in re.findall(r"^end @(\d+)$", told, re.MULTILINE)]
        holds(f"distinct {sequences}\n" in audit, f"{prediction}: {audit}")
        same([int(shortest), int(longest)], [min(ends), max(ends)], f"the runs with {prediction}")


def code_of_the_program(page):
    page.choose(4)
    page.browser.click("#code-open")
    page.idle()
    wanted = call("mitigate", "compile program.mit", page.program(), "").splitlines()
    lines = page.run("return [...document.querySelectorAll('#code .line')].map((one) =>" " one.textContent.replace(/\\s+/g, ''))")
    same(lines, [re.sub(r"\s+", "", line) for line in wanted], "the code")
    page.browser.click("#code-open")


def reason(page):
    page.choose(2)
    told = call("lab", "why program.mit", page.program(), "").splitlines()
    holds(len(told) > 2, "a chain")
    same(page.texts("ol.why button"), [re.sub(r"^(\S+) ", r"\1", line) for line in told[1:]], "the chain")
    mit = page.program()
    page.browser.click("#mend-go")
    page.idle()
    holds(page.program() != mit and call("mitigate", "check program.mit", page.program(), "").startswith("accepted"), "the mended program")


def mend_at_the_level(page):
    """The level of the offered mitigate is the label that does not flow, whichever that is."""
    page.choose(4)
    page.write(LABELS + "while b > 0 do { b := b - 1 };\na := 2\n", "[[run]]\n")
    holds(page.text("#mend").startswith("Put line 6 into a mitigate"), page.text("#mend"))
    page.browser.click("#mend-go")
    page.idle()
    holds("mitigate (64, B) {" in page.program(), page.program())


def second_mitigate(page):
    """The sweep tries the mitigate that is chosen, and a taken prediction goes there."""
    page.choose(4)
    page.write(LEVELS, LEVEL_STARTS)
    page.set("#sweep-which", "1", "change")
    page.browser.wait(SWEPT, 60, "a sweep")
    page.run("document.getElementById('sweep-numbers').open = true;" " document.querySelectorAll('[data-take]')[3].click()")
    page.idle()
    holds(page.program().startswith(LABELS + "mitigate (2, C)"), "the first one stays")
    holds("mitigate (8, C)" not in page.program(), "the second one is changed")


def many_runs(page):
    """Turned pages and runs that are looked at have their own numbers."""
    page.choose(4)
    page.set("#range-from", "0")
    page.set("#range-to", "120")
    page.browser.click("#range-go")
    page.idle()
    same(page.count(".lane"), 100, "lanes")
    page.browser.click('[data-page="1"]')
    page.browser.wait("return document.querySelectorAll('.lane').length === 21", 5, "the second page")
    same(page.run("return document.querySelector('.lane').dataset.run"), "101", "its first lane")
    page.choose(4)


def stepped_through(page):
    """A run can be gone through, with its line, the clock, miss counts and values, as the lab's timeline tells them."""
    page.choose(0)
    told = call("lab", "timeline program.mit starts.toml", page.program(), page.value("#toml")).split("run 2\n")[0]
    cycles = re.findall(r" @(\d+)$", told, re.MULTILINE)
    holds(page.run("return document.getElementById('step-back').disabled"), "nothing is behind the beginning")
    for number, cycle in enumerate(cycles, 1):
        page.run("document.getElementById('step-on').click()")
        text = page.text("#step-says").replace("\u202f", "")
        holds(text.startswith(f"Run 1, step {number} of {len(cycles)}, cycle {cycle}:"), f"{text}: {cycle}")
        if number == 1:
            holds("level H, begins and predicts 16. Misses: H 0." in text, text)
            same(page.count("#editor .lit"), 1, "lines that are lit")
    misses = re.search(r"misses 0 to (\d+) ", told)[1]
    holds(f"the run ends. Misses: H {misses}." in text and "done = 1." in text, text)
    holds(page.run("return document.getElementById('step-on').disabled"), "nothing is behind the end")
    page.run("document.getElementById('step-back').click()")
    holds(": done = 1. Misses" in page.text("#step-says"), page.text("#step-says"))
    same(page.run(STEPS_AFTER_A_KEY), [True, True], "whether no step is gone of a program that is not there")
    page.idle()
    page.run("document.getElementById('step-on').click()")
    for _, seen_and_dimmed, _ in page.write_and_look(page.program() + " ", ["#step-says"]):
        same(tuple(seen_and_dimmed), (1, 1), "a step of an earlier program, seen and dimmed")
    page.idle()
    same(page.text("#step-says"), "", "another program begins anew")


def each_instruction(page):
    """A run can be gone through instruction by instruction, with what was looked up and what is held; the last one ends
    when the tool says that the run does."""
    page.choose(0)
    page.run("document.getElementById('steps-all').click()")
    page.idle()
    page.run("document.getElementById('step-on').click()")
    text = page.text("#step-says").replace("\u202f", "")
    holds(
        re.match(r"Run 1, instruction 1 of \d+, cycle 29: 0 PUSH 16 \[L, L\] cost 29 cycles: 1; page miss 20, code line miss 8\.", text),
        text,
    )
    holds("code 0–7" in page.text("#step-state") and "nothing" in page.text("#step-state"), page.text("#step-state"))
    count = int(re.search(r" of (\d+),", text)[1])
    page.run(f"for (let k = 1; k < {count}; k++) document.getElementById('step-on').click()")
    end = re.search(r"^end @(\d+)$", call("lab", "timeline program.mit starts.toml", page.program(), page.value("#toml")), re.M)[1]
    text = page.text("#step-says").replace("\u202f", "")
    holds(text.startswith(f"Run 1, instruction {count} of {count}, cycle {end}: ") and "HALT" in text, f"{text}: {end}")
    holds(page.run("return document.getElementById('step-on').disabled"), "nothing is behind the end")
    page.write_now(page.program() + " ")
    all_dimmed(page, "#step-state", "what is held in an earlier program")
    page.set("#environment", "flat", "change")
    page.idle()
    page.run("document.getElementById('step-on').click()")
    holds(" cost 1 cycle: 1." in page.text("#step-says"), page.text("#step-says"))
    holds("Without caches" in page.text("#step-state"), page.text("#step-state"))
    page.run("document.getElementById('steps-all').click()")
    holds(page.run("return document.getElementById('step-state').hidden"), "what is held is left out")


def costs_beside_lines(page):
    """Beside the lines stand the cycles of the chosen run, as the lab's timeline tells them."""
    page.choose(0)
    page.run("document.getElementById('costs-shown').click()")
    told = call("lab", "timeline program.mit starts.toml", page.program(), page.value("#toml")).split("run ")[1:]
    for number, run in ((0, told[0]), (8, told[8])):
        page.run("document.getElementById('lanes').focus()")
        page.browser.press(*["ArrowDown"] * (number + 1))
        begin, worked, end = (int(n) for n in re.search(r"^begin .* @(\d+)$[\s\S]*^end #0 .* worked (\d+) .* @(\d+)$", run, re.M).groups())
        done = re.search(r"^done = 1 @(\d+)$", run, re.M)[1]
        same(page.text("#costs-of"), f"Cycles of run {number + 1}", "whose cycles")
        tips = page.run("return [...document.querySelectorAll('#editor .cost')].map((one) => one.dataset.tip)")
        tips = [tip.replace("\u202f", "") for tip in tips]
        waited = end - begin - worked
        told_of = f"1 mitigation: worked {worked} cycles, waited {waited}, "
        holds(any(tip.startswith(told_of) for tip in tips), f"{tips}: {told_of}")
        holds(any(tip.startswith(f"assigned at cycle {done}; its code: 2 instructions, ") for tip in tips), f"{tips}: {done}")
        # the cycles of all lines, what was waited, and the 1 of HALT, whose line of the cache is there, are those of the run
        costs = [text.replace("\u202f", "") for text in page.texts("#editor .cost")]
        holds(any(text.endswith(f" +{waited}") for text in costs), f"{costs}: {waited}")
        spent = sum(int(number) for text in costs for number in re.findall(r"(?<![(\d])\d+(?![\d)])", text))
        same(spent + 1, int(re.search(r"^end @(\d+)$", run, re.M)[1]), f"the sum of {costs}")
    page.caret("done := 1")
    page.browser.type(" ")
    same(page.count("#editor .cost"), 0, "cycles of an earlier program")
    page.run("document.getElementById('costs-shown').click()")
    page.idle()


def costs_of_refused(page):
    """A refused program has costs, steps and code too, by its least labels: their sum is the end that the tool tells, and
    each step is one of the run that the tool tells."""
    page.choose(2)
    page.run("document.getElementById('costs-shown').click(); document.getElementById('steps-all').click()")
    page.browser.click("#code-open")
    page.idle()
    told = call("lab", "timeline program.mit starts.toml --refused", page.program(), page.value("#toml")).split("run ")[1:]
    holds(page.run("return document.querySelector('.verdict.no, .verdict.rules') !== null"), "it is refused")
    holds("its least labels" in page.text("#code-says"), page.text("#code-says"))
    holds("its least labels" in page.text("#costs-says"), page.text("#costs-says"))
    for number, keys in ((0, 1), (3, 3)):
        page.run("document.getElementById('lanes').focus()")
        page.browser.press(*["ArrowDown"] * keys)
        end = int(re.search(r"^end @(\d+)$", told[number], re.M)[1])
        costs = [text.replace("\u202f", "") for text in page.texts("#editor .cost")]
        spent = sum(int(number) for text in costs for number in re.findall(r"(?<![(\d])\d+(?![\d)])", text))
        same(page.text("#costs-of"), f"Cycles of run {number + 1}", "whose cycles")
        holds(end - spent in (1, 9, 29), f"{costs}, and the fetch of HALT: {end}")
        paid = [text.replace("\u202f", "") for text in page.texts("#code .paid")]
        of_each = [int(re.sub(r"^\d+× ", "", text).split(" ")[0]) for text in paid if text != "not run"]
        same(sum(of_each), end, f"the sum of {paid}")
        same(len(paid), page.count("#code .line"), "instructions with a cost")
    page.run("document.getElementById('step-on').click()")
    text = page.text("#step-says").replace("\u202f", "")
    count = int(re.match(r"Run 4, instruction 1 of (\d+), cycle 29: 0 ", text)[1])
    page.run(f"for (let k = 1; k < {count}; k++) document.getElementById('step-on').click()")
    text = page.text("#step-says").replace("\u202f", "")
    holds(f"instruction {count} of {count}, cycle {end}: " in text and "HALT" in text, f"{text}: {end}")
    holds("code 0–7" in page.text("#step-state"), page.text("#step-state"))
    page.write(page.program() + " := ")
    same(page.count("#editor .cost"), 0, "cycles of what is no program")
    page.choose(2)
    page.write("var h : H;\nvar l : L;\nwhile h do { h := h - 1 };\nl := 1\n", "[[run]]\nmemory = { h = 1 }\nx = 1\n")
    holds("refused T-ASGN" in page.text("#code"), "without a run the tool's own line: " + page.text("#code"))
    page.browser.click("#code-open")
    page.run("document.getElementById('costs-shown').click(); document.getElementById('steps-all').click()")


TRIALS = [
    costs_beside_lines,
    costs_of_refused,
    stepped_through,
    each_instruction,
    defaults,
    environments,
    budgets,
    observers,
    all_together,
    settings_of_examples,
    cells,
    without_tune(swept),
    code_of_the_program,
    reason,
    mend_at_the_level,
    without_tune(second_mitigate),
    many_runs,
]
if not PROGRAMS.exists():
    TRIALS = []
