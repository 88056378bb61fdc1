"""The choice of first predictions: as the lab's `tune` tells it, and where the module does not know that, by trying some."""
import re

from driving import SWEPT, holds, same
from standing_in import with_tune
from trials.basics import sweep_now
from trials.controls import PROGRAMS, call

HEAD = "runs 9\nobserver L\nbudget 1000000\n"
TOLD = f"tune #0 alone, the others as written\n{HEAD}" + (
    "first 17 to 18 told 2 mean 250 greatest 313\nfirst 269 to 1099511627776 told 1 mean 310 greatest 310\n"
)


def rows_of(page):
    script = "return [...document.querySelectorAll('#sweep-table tbody tr')].map((row) => [...row.cells].map((cell) => cell.textContent))"
    return [[cell.replace("\u202f", "") for cell in row] for row in page.run(script)]


def choices_taken(page):
    """Each choice stands there with what it tells and costs, and can be taken by its row or its point."""
    page.choose(1)
    sweep_now(page)
    same(rows_of(page), [["17", "18", "2", "250", "313", "Take"], ["269", "1099511627776", "1", "310", "310", "Take"]], "the choices")
    text = page.text("#sweep-text").replace("\u202f", " ")
    holds(text.startswith("With 269 nothing is told, and all runs end at 310. The 512 that stands there misses as 269 does"), text)
    holds("No other one does better" in text, text)
    same(page.text("#sweep-note"), "2 choices of 9 runs; the other mitigates stay as written.", "what stands above them")
    holds(page.run("return document.getElementById('sweep-numbers').open"), "the numbers are open")
    line = [line for line in page.texts("#command-list code") if " tune " in line]
    same(line, ["./lab tune program.mit starts.toml --observer L --env part --budget 1000000 --of '#0'"], "its command line")
    before = page.program()
    page.browser.click('[data-take="269"]')
    page.idle()
    holds("mitigate (269, H)" in page.program(), "a choice is taken")
    sweep_now(page)
    same(rows_of(page)[1][5], "stands there", "the choice that was taken")
    page.caret("done := 1")
    page.browser.press("Control+z")
    page.idle()
    same(page.program(), before, "one undo takes it back")
    sweep_now(page)
    page.run(
        "document.querySelector('#sweep-picture .point[data-prediction=\"17\"]')"
        ".dispatchEvent(new MouseEvent('click', { bubbles: true }))"
    )
    page.idle()
    holds("mitigate (17, H)" in page.program(), "a choice is taken by its point")


def choices_untold(page):
    """Of an estimate that is no number predictions are tried, and it says why."""
    page.choose(1)
    page.write(page.program().replace("mitigate (512, H)", "mitigate (500 + 12, H)"))
    sweep_now(page)
    holds(
        page.text("#sweep-note").startswith("Which ones matter is told of an estimate that is a number alone. The same starts, "),
        page.text("#sweep-note"),
    )
    holds(len(rows_of(page)) > 20, "predictions that were tried")
    same([line for line in page.texts("#command-list code") if " tune " in line], [], "no command line for it")


def knows_itself(page):
    """Whether the module of the page knows it decides which of both the page offers."""
    page.choose(1)
    page.browser.wait(SWEPT, 120, "a sweep")
    knows = page.run("return document.getElementById('sweep-go').textContent") == "Ask which ones matter"
    if not knows:
        return
    if not page.count("#sweep-picture svg"):
        page.browser.click("#sweep-go")
        sweep_now(page)
    told = call("lab", "tune program.mit starts.toml --observer L --of #0", page.program(), page.value("#toml"))
    wanted = re.findall(r"^first (\d+) to (\d+) told (\d+) mean (\d+) greatest (\d+)$", told, re.M)
    same([row[:5] for row in rows_of(page)], [list(row) for row in wanted], "the choices of the program")


TRIALS = [with_tune(TOLD, choices_taken), with_tune(TOLD, choices_untold)] + [knows_itself] * PROGRAMS.exists()
