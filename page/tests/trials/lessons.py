"""Lessons: the part that is spoken of, a guess before it is told, tasks that are seen to be done; a teacher's task."""
import re

from driving import EXAMPLES, holds, same

COUNT = "return document.querySelectorAll('#lesson-which option').length"
COVERED = "return document.body.classList.contains('guessing')"
IN_VIEW = """
const box = document.getElementById('lesson'), part = document.getElementById(box.dataset.look).getBoundingClientRect();
const at = box.getBoundingClientRect(), isFoot = getComputedStyle(box).position === 'fixed';
return [Math.round(part.top), isFoot ? 0 : Math.round(at.bottom), isFoot ? Math.round(at.top) : innerHeight];"""
HIDDEN = "return arguments[0].map((selector) => getComputedStyle(document.querySelector(selector)).visibility)"
TOLD = ["#sentence", "#audit", "#lanes svg", "#verdict"]
ANSWERS = """
return [...document.querySelectorAll('#lesson-guess button')].map((part) => part.getBoundingClientRect())
  .map((box) => [box.left, box.right]);"""
DONE = "return document.getElementById('lesson').classList.contains('done')"


def open_step(page, lesson, step):
    """Opens a lesson at a step, both from 0."""
    page.browser.click("#lesson-open")
    page.idle()
    page.set("#lesson-which", str(lesson), "change")
    page.idle()
    for _ in range(step):
        page.run("document.getElementById('lesson-next').click()")
        page.idle()


def guessed(page):
    """Gives the guess that is asked for, where one is."""
    if page.run(COVERED):
        page.run("document.querySelector('[data-guess]').click()")


def is_done(page, what):
    page.browser.wait(DONE, 30, what)
    holds("Done." in page.text("#lesson-task"), page.text("#lesson-task"))


def not_done(page):
    holds(page.text("#lesson-task").startswith("Your task:"), page.text("#lesson-task"))
    holds(not page.run(DONE), "the task is not done yet")


def guess_first(page):
    """What the tool says is covered until a guess was made, and then it says which was right."""
    page.open()
    page.browser.click("#lesson-open")
    page.idle()
    holds(page.run(COVERED), "a guess is asked for")
    same(page.run(HIDDEN, TOLD), ["hidden"] * len(TOLD), "what is seen of what is told")
    same(page.text("#announce"), "", "what a screen reader is told")
    holds("8 cycles" not in page.text("#lesson"), "it is not told yet")
    page.browser.click('[data-guess="0"]')
    same(page.run(HIDDEN, TOLD), ["visible"] * len(TOLD), "what is seen then")
    holds("something else" in page.text("#lesson-guess") and "8 cycles" in page.text("#lesson-guess"), page.text("#lesson-guess"))
    same(page.text("#lesson-guess .true"), "✓ Later, the greater the number was", "the right one")
    boxes = page.run(ANSWERS)
    holds(all(after[0] - before[1] < 20 for before, after in zip(boxes, boxes[1:])), f"a gap beside the right one: {boxes}")
    page.browser.click("#lesson-next")
    page.idle()
    page.browser.click('[data-guess="1"]')
    holds("guessed right" in page.text("#lesson-guess"), page.text("#lesson-guess"))
    page.browser.click("#lesson-back")
    page.idle()
    holds(not page.run(COVERED), "a guess that was made is not asked for again")
    page.browser.click("#lesson-close")
    holds(not page.run(COVERED), "without the lesson nothing is covered")


# What can be seen outside of the lesson's own box and of what a person wrote, line by line.
SEEN = """
const isSeen = (part) => part.getClientRects().length && getComputedStyle(part).visibility === 'visible';
const written = '#lesson, .CodeMirror-code, #costs-says, #code-says, header, footer, #commands, select, textarea,'
  + ' .unseen, #notice, .tip';
const walk = document.createTreeWalker(document.body, NodeFilter.SHOW_TEXT), found = [];
while (walk.nextNode()) {
  const part = walk.currentNode.parentElement, text = walk.currentNode.textContent.trim();
  if (text && !part.closest(written) && isSeen(part)) found.push(text);
}
return found;"""


def guess_covers_all(page):
    """While a guess is asked for no part tells a cycle or a number of runs, and each that is covered has its name and says
    why it is empty."""
    page.open()
    page.run("document.getElementById('costs-shown').click(); document.getElementById('steps-all').click()")
    page.browser.click("#code-open")
    for lesson in range(page.run(COUNT)):
        open_step(page, lesson, 0)
        holds(page.run(COVERED), "a guess is asked for")
        lines = page.run(SEEN)
        told = [line for line in lines if re.search(r"@\d|\d+ cycles|different|\d runs|\bsees\b|ends? at", line)]
        same(told, [], f"what is told before the guess of lesson {lesson}")
        for title in ("What these runs tell", "Constant in time?"):
            holds(title in lines, f"{title}: {lines}")
        script = "return getComputedStyle(document.getElementById('leak'), '::after').content"
        same(page.run(script), '"Guess first"', "why it is empty")
        page.browser.click("#lesson-close")
    page.open()


def goes_to_its_part(page):
    """Each step brings the part that it speaks of into view, on a wide and on a narrow screen."""
    for wide, high in ((1366, 768), (500 if page.browser.name == "firefox" else 390, 844)):
        page.browser.resize(wide, high)
        page.open()
        page.browser.click("#lesson-open")
        for _ in range(6):
            page.idle()
            step = page.text("#lesson-step")
            holds(page.count("section.look") == 1, f"{step}: a part is named")
            top, least, most = page.run(IN_VIEW)
            holds(least <= top + 1 and top < most - 40, f"{step} at {wide}: its part begins at {top}, between {least} and {most}")
            guessed(page)
            top, least, most = page.run(IN_VIEW)
            holds(least <= top + 1 and top < most - 40, f"{step} at {wide}, guessed: its part begins at {top}, between {least} and {most}")
            page.run("document.getElementById('lesson-next').click()")
    page.browser.resize(1360, 900)
    page.open()


def task_is_seen(page):
    """The second step sees that done was given the label H, and the fourth that there are 61 runs."""
    page.open()
    open_step(page, 0, 1)
    same(page.text("#lesson-task"), "", "nothing is asked before the guess")
    guessed(page)
    not_done(page)
    page.write(page.program().replace("done : L", "done : H"))
    is_done(page, "the label was changed")
    page.write(page.program().replace("done : H", "done : L"))
    not_done(page)
    page.browser.click("#lesson-again")
    page.idle()
    not_done(page)
    for _ in range(2):
        page.browser.click("#lesson-next")
        page.idle()
    guessed(page)
    not_done(page)
    page.set("#range-to", "60")
    page.run("document.getElementById('range-go').click()")
    is_done(page, "there are 61 runs")
    page.browser.click("#lesson-close")


def cache_attack(page):
    """The second lesson: other caches, a prediction that is enough and not doubled, and a sharp count of 1."""
    page.open()
    open_step(page, 1, 0)
    same(page.program(), (EXAMPLES / "sbox/seen.mit").read_text(), "its program")
    guessed(page)
    ends = page.run(
        "return [...document.querySelectorAll('.lane')].map((lane) =>" " lane.getAttribute('aria-label').replace(/\\u202f/g, ''))"
    )
    same([int(end.rsplit(" ", 1)[1]) for end in ends], [1763, 1763, 1775, 1795], "the ends of the runs")
    open_step(page, 1, 1)
    not_done(page)
    page.set("#environment", "flat", "change")
    is_done(page, "without caches all runs end alike")
    open_step(page, 1, 3)
    not_done(page)
    for prediction, done in ((1761, False), (1000, False), (1762, True)):
        page.write(
            page.program()
            .replace("mitigate (2200", "mitigate (1")
            .replace("mitigate (1761", "mitigate (1")
            .replace("mitigate (1000", "mitigate (1")
            .replace("mitigate (1,", f"mitigate ({prediction},")
        )
        (is_done(page, "the fastest prediction") if done else not_done(page))
    open_step(page, 1, 4)
    page.set("#budget", "4400")
    page.idle()
    not_done(page)
    page.set("#budget", "4399")
    is_done(page, "a sharp count of 1")
    page.browser.click("#lesson-close")


def constant_time(page):
    """The third lesson: a comparison of all bytes, written by hand."""
    page.open()
    same(page.run(COUNT), 4, "lessons")
    open_step(page, 2, 1)
    not_done(page)
    text = page.program().replace("while same * (at < 8) do", "while at < 8 do")
    page.write(text)
    not_done(page)
    page.write(text.replace("same := sent[at] == tag[at];", "same := same * (sent[at] == tag[at]);"))
    is_done(page, "constant in time")
    open_step(page, 2, 2)
    guessed(page)
    holds(page.text("#verdict").startswith("Refused"), "constant, and refused")
    page.browser.click("#lesson-close")


def teachers_task(page):
    """A task that is made of a program is handed on as a link, and judges what is done with it."""
    page.open()
    page.choose(0)
    given = page.program()
    page.run("document.getElementById('file-menu').open = true")
    page.browser.click("#file-task")
    page.browser.click("#teach-copy")
    holds(page.text("#teach-fault"), "what is missing is told")
    page.set("#teach-title-text", "Nothing <b>told</b>")
    page.set("#teach-says", "Choose a prediction with which nothing is told.")
    page.set("#teach-ask", "How many times are seen?")
    page.set("#teach-answers", "nine\n* three\none")
    page.set("#teach-tells", "Predictions are doubled.")
    page.run("document.querySelector('[data-goal=\"sequences\"]').click()")
    page.browser.click("#teach-copy")
    page.browser.wait("return document.getElementById('teach-link').value.includes('#')", 10, "a link")
    link = page.value("#teach-link")
    page.open(link[link.index("#") :])
    same(page.text("#lesson-title"), "Task: Nothing <b>told</b>", "its title")
    same(page.program(), given, "its program")
    holds(page.run(COVERED), "it asks for a guess")
    page.browser.click('[data-guess="1"]')
    holds("guessed right. Predictions are doubled." in page.text("#lesson-guess"), page.text("#lesson-guess"))
    not_done(page)
    holds("now: 3 sequences" in page.text("#lesson-task"), page.text("#lesson-task"))
    page.write(given.replace("(16, H)", "(512, H)"))
    is_done(page, "the task")
    page.open(is_new=False)
    same(page.text("#lesson-title"), "Task: Nothing <b>told</b>", "its title after a reload")
    guessed(page)
    is_done(page, "the task after a reload")
    page.browser.click("#lesson-again")
    page.idle()
    same(page.program(), given, "begun again")
    page.browser.click("#lesson-close")
    page.open()


TRIALS = [guess_first, guess_covers_all, goes_to_its_part, task_is_seen, cache_attack, constant_time, teachers_task]
