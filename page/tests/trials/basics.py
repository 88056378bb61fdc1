"""What the page is for: verdicts, audits, starts, the timeline, the sweep, the code, the lesson."""
import xml.etree.ElementTree

from driving import ENDLESS, EXAMPLES, SWEPT, all_dimmed, holds, same
from standing_in import without_tune

# What is told of the program before, after a run that was stopped.
OLD = [".number-of b", ".lane text[font-weight]", "#starts-table td.seen", "#leak-shown tr"]
TEN_FAULTS = "var l : L;\nvar h : H;\n" + ";\n".join(f"l := h + {n}" for n in range(10)) + "\n"


def opens(page):
    page.open()
    holds("Accepted" in page.text("#verdict"), "the first example is accepted")
    same(page.count(".lane"), 9, "the number of lanes")
    loaded = "return performance.getEntriesByType('resource').filter((one) => !/^(blob|data):/.test(one.name)).length"
    same(page.run(loaded), 0, "what was loaded")


def each_example(page):
    names = page.examples()
    holds(len(names) >= 8, "eight examples")
    for number, name in enumerate(names):
        page.choose(number)
        sentence, verdict = page.text("#example-says"), page.text("#verdict")
        holds(sentence, f"{name} has its sentence")
        is_refused = sentence.startswith("Refused")
        holds(verdict.startswith("Refused" if is_refused else "Accepted"), f"{name}: {verdict}")
        holds(page.text("#sentence").startswith("Refused") == is_refused, f"{name}: {page.text('#sentence')}")
        # of a space of starts there is a lane for each class
        lanes = page.count("#starts-table tr[data-run]") or page.count("#leak-classes tbody tr")
        same(page.count(".lane"), lanes, f"{name}: lanes")
        holds(bool(page.text("#audit")) != is_refused, f"{name}: an audit, of what is accepted alone")
        same(page.text("#freshness"), "The program that is here is refused, so no limit holds of it." if is_refused else "", name)


def audit_as_documented(page):
    starts = (EXAMPLES / "password.toml").read_text()
    page.choose(0)
    for file, distinct, sentence in (
        ("password_small.mit", "3", "Of four runs an observer at L sees three different timings; at most 16 are possible."),
        ("password.mit", "1", "An observer at L cannot tell these four runs apart; with other secrets at most eleven are possible."),
    ):
        page.write((EXAMPLES / file).read_text(), starts)
        same(page.text("#audit .number-of b"), distinct, file)
        bound = page.run("return [...document.querySelectorAll('#audit .number-of b')].at(-1).innerHTML")
        same(bound, "2<sup>20</sup>", "the bound")
        same(page.text("#sentence"), sentence, "what was found")


def refused_edit(page):
    page.choose(0)
    page.caret("done := 1")
    page.browser.type(";\ndone := secret[0]")
    page.idle()
    same(page.text("#verdict"), "Refused by T-ASGN at 21:1: H does not flow to L", "the verdict")
    page.browser.click("#verdict [data-place]")
    same(page.selected(), "done := secret[0]", "what the place selects")
    same("".join(page.texts("#editor .wrong")).replace(" ", ""), "done:=secret[0]", "what is marked")
    holds("earlier program" in page.text("#freshness"), "the numbers are told as those of an earlier program")
    for _ in range(40):
        if page.program().endswith("done := 1\n"):
            break
        page.browser.press("Control+z")
    page.idle()
    holds(page.text("#verdict").startswith("Accepted"), "undone, it is accepted again")
    same(page.text("#freshness"), "", "and nothing is of an earlier program")


def mended(page):
    page.choose(2)
    holds("lines 9 to 17" in page.text("#mend"), "a mitigate is offered")
    before = page.program()
    page.browser.click("#mend-go")
    page.idle()
    holds(page.text("#verdict").startswith("Accepted"), "with it the program is accepted")
    page.browser.press("Control+z")
    page.idle()
    same(page.program(), before, "undone at once")
    holds(page.text("#verdict").startswith("Refused"), "and refused")


def cell(page, row, text):
    page.set(f'#starts-table input[data-row="{row}"]', text)
    page.idle()


def table_and_toml(page):
    page.choose(4)
    page.run("document.querySelector('#starts-table input[data-row=\"1\"]').select()")
    page.browser.press("Control+a")
    page.browser.type("42")
    page.idle()
    holds("memory = { h = 42 }" in page.value("#toml"), "the cell is in the TOML")
    page.browser.click("#starts-form")
    page.set("#toml", "# mine\n[[run]] # the one\nmemory = { h = 7 } # seven\n")
    page.idle()
    page.browser.click("#starts-form")
    same(page.count("#starts-table tr[data-run]"), 1, "rows")
    same(page.value("#starts-table input[data-row]"), "7", "the cell")
    cell(page, 0, "8")
    same(page.value("#toml"), "# mine\n[[run]] # the one\nmemory = { h = 8 } # seven\n", "the rest stays as it was")
    page.set("#toml", "[[run]\n")
    page.idle()
    holds("cannot show" in page.text("#starts-fault"), "a text that is no TOML is told")


def rows_and_columns(page):
    page.choose(4)
    first = page.value("#toml")
    page.browser.click('[data-remove="3"]')
    page.idle()
    same(
        page.run("return [...document.querySelectorAll('#starts-table input')].map((one) => one.value).join(' ')"),
        "0 1 2 4 5 6 7 8 9",
        "left",
    )
    page.browser.click('[data-copy="2"]')
    page.idle()
    same(
        page.run("return [...document.querySelectorAll('#starts-table input')].map((one) => one.value).join(' ')"),
        "0 1 2 2 4 5 6 7 8 9",
        "copied",
    )
    page.browser.click("#starts-undo")
    page.idle()
    same(
        page.run("return [...document.querySelectorAll('#starts-table input')].map((one) => one.value).join(' ')"),
        "0 1 2 4 5 6 7 8 9",
        "undone once",
    )
    page.browser.click("#starts-undo")
    page.idle()
    same(page.value("#toml"), first, "undone twice")
    page.set("#range-from", "3")
    page.set("#range-to", "5")
    page.browser.click("#range-go")
    page.idle()
    same(page.run("return [...document.querySelectorAll('#starts-table input')].map((one) => one.value).join(' ')"), "3 4 5", "a range")
    page.write(page.program().replace("h", "k").replace("wkile", "while"))
    holds("unknown key" in page.text("#starts-fault"), page.text("#starts-fault"))
    page.set("#starts-add select[data-rename]", "k", "change")
    page.idle()
    same(page.text("#starts-fault"), "", "with the column renamed")
    holds("{ k = 3 }" in page.value("#toml"), page.value("#toml"))
    page.browser.click('[data-drop="k"]')
    page.idle()
    same(page.count("#starts-table input"), 0, "cells without the column")


def timeline(page):
    page.choose(0)
    for text in ("done = 1 @168", "done = 1 @296", "done = 1 @552"):
        holds(text in page.text("#lanes"), text)
    colours = page.run("return [...document.querySelectorAll('.lane text[font-weight]')].map((one) =>" " one.getAttribute('fill'))")
    same([colours.count(one) for one in dict.fromkeys(colours)], [1, 6, 2], "colours of runs that look alike")
    before = page.text("#lanes")
    page.run("document.getElementById('lanes').focus()")
    page.browser.press("+", "+")
    page.until(lambda: page.text("#lanes") != before, "keys zoom")
    page.browser.press("0")
    page.until(lambda: page.text("#lanes") == before, "all cycles again")
    page.browser.press("ArrowDown", "ArrowDown")
    holds(page.text("#lane-says").startswith("Run 2, class 2: seen done = 1 at 296"), "keys go through the runs")
    holds("Run 2, class 2" in page.text("#announce"), "and it is told")


def saves(page):
    page.choose(0)
    for button, name in (("#time-save", "timeline.svg"), ("#sweep-save", "sweep.svg")):
        if button == "#sweep-save":
            sweep_now(page)
        text = page.saved(button, name)
        xml.etree.ElementTree.fromstring(text)
        holds("var(" not in text and "<svg" in text, f"{name} stands alone")


def sweep_now(page):
    page.browser.wait(SWEPT, 120, "a sweep")
    if not page.count("#sweep-picture svg"):
        page.browser.click("#sweep-go")
    page.browser.wait(SWEPT, 120, "a sweep")


def sweep(page):
    page.choose(1)
    sweep_now(page)
    text = page.text("#sweep-text")
    holds(text.startswith("From 269 on, the runs cannot be told apart"), text)
    holds("It costs 310 cycles, where 512 costs 553" in text, text)
    before = page.program()
    page.run("document.getElementById('sweep-numbers').open = true;" " document.querySelector('[data-take=\"269\"]').click()")
    page.idle()
    holds("mitigate (269, H)" in page.program(), "a prediction is taken")
    same(page.value("#example"), "own", "the example that is chosen then")
    holds(page.text("#example-says").startswith("Changed since: The same check"), page.text("#example-says"))
    same(page.text("#audit .number-of b"), "1", "the count with it")
    tips = "return [...document.querySelectorAll('.lane [data-tip]')].map((one) => one.dataset.tip).join()"
    holds("310" in page.run(tips), "its end")
    page.caret("done := 1")
    page.browser.press("Control+z")
    page.idle()
    same(page.program(), before, "one undo takes the prediction back")
    sweep_now(page)
    page.run(
        "document.querySelector('#sweep-picture .point[data-prediction=\"269\"]')"
        ".dispatchEvent(new MouseEvent('click', { bubbles: true }))"
    )
    page.idle()
    holds("mitigate (269, H)" in page.program(), "a prediction is taken by its point")


def sweep_past_1(page):
    """With a first prediction of 1 the slowest run ends at 553, beyond the 320 cycles that are asked for."""
    page.choose(1)
    page.write(page.program().replace("mitigate (512, H)", "mitigate (269, H)"))
    page.set("#budget", "320")
    page.idle()
    sweep_now(page)
    text = page.text("#sweep-text")
    holds(text.startswith("From 269 on, the runs cannot be told apart: that is one more"), text)
    points = "return [...document.querySelectorAll('#sweep-picture .point')].map((one) =>" " Number(one.dataset.prediction))"
    predictions = page.run(points)
    holds(17 in predictions and 269 in predictions and 279 in predictions, f"what halts by then is drawn: {predictions}")
    holds(not {1, 16, 256, 268, 280} & set(predictions), f"what does not is not: {predictions}")
    holds("more not all runs halt" in page.text("#sweep-note"), page.text("#sweep-note"))


def stops(page):
    page.choose(3)
    page.set("#budget", str(2**40))
    page.write_now(ENDLESS)
    page.browser.wait("return !document.getElementById('working').hidden", 20, "the note that it works")
    page.browser.click("#stop")
    page.idle()
    holds("stopped" in page.text("#freshness"), "it says that it was stopped")
    for selector in OLD:
        all_dimmed(page, selector, f"{selector}, after Stop")
    page.choose(3)
    holds(page.text("#verdict").startswith("Accepted"), "and goes on")
    same(page.text("#freshness"), "", "with an answer")


def cut_runs(page):
    page.choose(3)
    page.set("#budget", "1000")
    page.write(ENDLESS)
    holds("0 of 1 run have halted" in page.text("#audit-text"), page.text("#audit-text"))
    holds(page.text("#sentence").startswith("No run has halted by cycle"), page.text("#sentence"))
    page.set("#budget", "1000000")


def ten_faults(page):
    page.write(TEN_FAULTS)
    holds(page.text("#verdict").startswith("Refused by T-ASGN at 3:1"), page.text("#verdict"))
    holds(page.count("#editor .wrong") >= 1, "a place is marked")
    page.write("var l : L;\nl = 1;;")
    holds("Not a program" in page.text("#verdict"), page.text("#verdict"))
    holds("Here could stand := [" in page.text("#why"), page.text("#why"))


def disagreeing(page):
    page.write("var l : L;\nl := 1", "[[run]]\nmemory = { l = 1 }\n\n[[run]]\nmemory = { l = 2 }\n")
    holds("run 2 differs from run 1 in the variable l" in page.text("#sentence"), page.text("#sentence"))
    same(page.count(".lane"), 2, "the runs are drawn all the same")


def code(page):
    page.choose(4)
    page.browser.click("#code-open")
    page.idle()
    same(page.count("#code .line"), 18, "instructions")
    page.caret("while", after=False)
    lit = "return [...document.querySelectorAll('#code .lit .n')].map((one) => one.textContent).join(' ')"
    page.until(lambda: page.run(lit) == "2 3 4 5 6 7 8 9 10 11 12 13", "what the line of the loop lights up")
    page.run("document.querySelector('#code .line[data-line=\"7\"]').dispatchEvent(new MouseEvent('mouseover', {" " bubbles: true }))")
    same(
        page.run("return document.querySelector('#editor .lit').parentElement.querySelector('pre').textContent"), "l := 1", "what it lights"
    )
    page.browser.click("#code-open")


def lesson(page):
    page.browser.click("#lesson-open")
    verdicts = []
    for number in range(6):
        page.idle()
        verdicts.append(page.text("#verdict").split()[0])
        holds(f"step {number + 1} of 6" in page.text("#lesson-step"), "the step")
        if number == 5:
            same(page.text("#audit .number-of b"), "1", "the last step leaves one sequence")
        page.browser.click("#lesson-next")
    holds(page.text("#lesson-title").startswith("A cache attack"), "the next lesson follows")
    page.browser.click("#lesson-close")
    same(verdicts, ["Accepted", "Refused", "Accepted", "Accepted", "Accepted", "Accepted"], "the verdicts")
    holds(page.run("return document.getElementById('lesson').hidden"), "it ends")


TRIALS = [
    opens,
    each_example,
    audit_as_documented,
    refused_edit,
    mended,
    table_and_toml,
    rows_and_columns,
    timeline,
    without_tune(sweep),
    without_tune(sweep_past_1),
    saves,
    stops,
    cut_runs,
    ten_faults,
    disagreeing,
    code,
    lesson,
]
