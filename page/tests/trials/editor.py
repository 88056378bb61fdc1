"""The editor: one undo for all, find, brackets, only what is in view is drawn, and what a key costs."""
from driving import holds, same
from trials.basics import sweep_now

LINE = "if h > 3 then { h := (h + 1) * 2 } else { h := h - 1 };\n"
HEAD = "var l : L;\nvar h : H;\n"
ENDS = "return document.querySelectorAll('.CodeMirror-line[data-end]').length"
LINES = "return document.querySelectorAll('.CodeMirror-line').length"
FOUND = "return document.querySelectorAll('.cm-searching').length"


def program_of(size):
    """An accepted program of so many bytes."""
    return HEAD + LINE * ((size - len(HEAD)) // len(LINE)) + "l := 1\n"


def one_undo(page):
    """Typing, the offered mitigate and a taken prediction are steps of one undo."""
    page.again()
    page.choose(2)
    first = page.program()
    page.browser.click("#mend-go")
    page.idle()
    mended = page.program()
    sweep_now(page)
    page.browser.wait("return document.querySelector('[data-take=\"269\"]')", 5, "the point 269")
    page.run("document.querySelector('[data-take=\"269\"]').click()")
    page.idle()
    taken = page.program()
    holds("mitigate (269, H)" in taken, "a prediction is taken")
    page.caret("done := 1")
    page.browser.type(" ")
    holds(page.program() != taken, "typed")
    for wanted in (taken, mended, first):
        page.browser.press("Control+z")
        same(page.program(), wanted, "undone")
    page.idle()
    page.browser.press("Control+y")
    same(page.program(), mended, "redone")


def finds(page):
    page.choose(0)
    page.browser.click("#find")
    page.browser.wait("return document.querySelector('.CodeMirror-dialog input')", 5, "the field")
    same(page.run("return document.querySelector('.CodeMirror-dialog input').getAttribute('aria-label')"), "Find", "its name")
    page.browser.type("secret\n")
    page.until(lambda: page.selected() == "secret", "what is found")
    page.until(lambda: page.run(FOUND) >= 2, "that all are marked")
    page.browser.press("Escape")
    page.caret("secret[", after=False)


def brackets(page):
    page.choose(0)
    page.caret("mitigate (16, H) {")
    page.until(lambda: page.texts(".CodeMirror-matchingbracket")[:1] == ["{"], "the bracket that matches")


def indents(page):
    page.choose(0)
    page.caret("mitigate (16, H) {")
    page.browser.type("\nskip;")
    holds("mitigate (16, H) {\n  skip;" in page.program(), "Enter keeps the indent")


def long_text(page):
    """A text of 200 KB has colours, marks and places that can be gone to, and only what is in view is drawn."""
    text = program_of(200_000)
    page.write(text[: -len("l := 1\n")] + "l := h\n", "[[run]]\n")
    page.browser.wait("return document.getElementById('answer').getAttribute('aria-busy') === 'false'", 60, "an answer")
    lines = text.count("\n")
    same(page.text("#verdict"), f"Refused by T-ASGN at {lines}:1: H does not flow to L", "the verdict")
    holds(page.run(LINES) < 200, f"{page.run(LINES)} lines are drawn")
    page.browser.click("#verdict [data-place]")
    page.until(lambda: page.selected() == "l := h", "what the place selects")
    page.until(lambda: page.count("#editor .wrong") >= 1 and page.count("#editor .cm-l1") >= 1, "mark and colours at the end")


def left_out_labels(page):
    page.choose(0)
    holds(page.run(ENDS) >= 3, "they stand at the ends of lines")
    page.browser.click("#labels-shown")
    same(page.run(ENDS), 0, "without them")
    page.browser.click("#labels-shown")
    holds(page.run(ENDS) >= 3, "with them again")


SIDEWAYS = """
const { scroller } = document.querySelector('.CodeMirror').CodeMirror.display;
return [scroller.scrollLeft, document.querySelectorAll('.CodeMirror-line')[2].getClientRects()[0].height];
"""


def long_line(page):
    """A line that is typed on past the edge goes on below, where the next key lays out no more than that line."""
    page.write("var l : L;\nvar h : H;\nl := 1\n", "[[run]]\n")
    _, high = page.run(SIDEWAYS)
    page.caret("l := 1")
    page.browser.type(" + 1" * 30)
    page.idle()
    left, higher = page.run(SIDEWAYS)
    same(left, 0, "how far the text went sideways")
    holds(higher >= 2 * high, f"the line is {higher} high, and one row {high}")
    page.caret("l := 1 + 1", after=False)


# What a key costs in the page's own thread: each is put in, and the layout that follows is asked for.
COST = """
const library = document.querySelector('.CodeMirror').CodeMirror, input = library.getInputField(), costs = [];
library.focus();
library.setCursor({ line: Math.floor(library.lineCount() / 2), ch: 0 });
for (let k = 0; k < 30; k++) {
  const begun = performance.now();
  library.replaceSelection(k % 10 === 9 ? '\\n' : ' ', 'end', '+input');
  document.body.getBoundingClientRect();
  library.charCoords(library.getCursor());
  costs.push(performance.now() - begun);
}
return costs.sort((a, b) => a - b);
"""


def costs_of_keys(page, size):
    """What 30 keys cost on the clock, in milliseconds, the quickest first."""
    page.write(program_of(size), "[[run]]\n")
    page.browser.wait("return document.getElementById('answer').getAttribute('aria-busy') === 'false'", 60, "an answer")
    costs = page.run(COST)
    page.idle()
    return costs


def thread_time(page):
    """The seconds of processor time of the page's own thread, as Chromium counts them."""
    metrics = page.browser.devtools("Performance.getMetrics")["metrics"]
    return {metric["name"]: metric["value"] for metric in metrics}["TaskDuration"]


def typed_cost(page, size, keys=20):
    """What a key typed into Chromium costs in processor time of the page's thread, in milliseconds: of keys that follow
    each other faster than the pause after which the verdict is asked for."""
    page.write(program_of(size), "[[run]]\n")
    page.browser.wait("return document.getElementById('answer').getAttribute('aria-busy') === 'false'", 60, "an answer")
    page.browser.devtools("Performance.enable", timeDomain="threadTicks")
    page.caret("h := h - 1")
    page.browser.type(" ")
    page.idle()
    begun = thread_time(page)
    page.browser.type(" " * keys)
    cost = (thread_time(page) - begun) * 1000 / keys
    page.idle()
    return cost


def keys_are_cheap(page):
    """What a typed key costs in processor time, which other programs change little; on the clock, where Firefox tells no
    such time, the key that a quarter of 30 keys do not pass. The limits leave room for a machine that does other things:
    page/README.md tells what was measured."""
    for size, most in ((10_000, 40), (200_000, 60)):
        if page.browser.name == "chromium":
            cost = typed_cost(page, size)
        else:
            costs = costs_of_keys(page, size)
            cost = costs[len(costs) // 4]
        holds(cost <= most, f"a key costs {cost:.1f} ms at {size} bytes")


def measure(page):
    for size in (10_000, 59_000, 200_000):
        costs = costs_of_keys(page, size)
        middle, most = costs[len(costs) // 2], costs[-1]
        more = f", typed {typed_cost(page, size):.1f} ms of processor" if page.browser.name == "chromium" else ""
        print(f"  {size} bytes: a key costs {middle:.1f} ms, at most {most:.1f}{more}")


TRIALS = [one_undo, finds, brackets, indents, left_out_labels, long_line, long_text, keys_are_cheap]
