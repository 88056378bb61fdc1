"""Terms: each has its words where it stands, opened by mouse, key and touch, with links; and the tool's version."""
from driving import TOP, holds, same

OPEN = "return !document.getElementById('term').hidden"
NAMES = (
    "return [...document.querySelectorAll('[data-term]')].filter((one) => one.getClientRects().length).map((one)" " => one.dataset.term)"
)


def opened(page, name):
    """The box of a term is open, and tells of this one."""
    page.browser.wait(OPEN, 10, f"the words on {name}")
    same(page.text("#term-name"), name, "the term")
    holds(len(page.text("#term-says p")) > 60, page.text("#term-says"))
    links = page.run("return [...document.querySelectorAll('#term-says a')].map((link) => link.getAttribute('href'))")
    holds(len(links) >= 2, f"links of {name}: {links}")
    box = page.run(
        "const b = document.getElementById('term').getBoundingClientRect(); return [b.left, b.top," " b.right, b.bottom, innerWidth]"
    )
    holds(box[0] >= 0 and box[2] <= box[4] and box[1] >= 0, f"the box of {name} is in the window: {box}")


def by_mouse(page):
    """Each term on the page opens by a press of the mouse, and a press elsewhere closes it."""
    page.choose(0)
    names = page.run(NAMES)
    for wanted in ("timed sequence", "sharp count", "bound", "class", "first prediction", "observer", "caches", "accepted", "label"):
        holds(wanted in names, f"{wanted} can be pressed: {names}")
    page.browser.click('[data-term="sharp count"]')
    opened(page, "sharp count")
    page.browser.click("h1")
    holds(not page.run(OPEN), "a press elsewhere closes it")
    page.run("document.getElementById('words').open = true")
    for name in dict.fromkeys(page.run(NAMES)):
        page.run('document.querySelector(`[data-term="${arguments[0]}"]`).click()', name)
        opened(page, name)
    page.browser.click("#term-close")
    holds(not page.run(OPEN), "the cross closes it")
    page.run("document.getElementById('words').open = false")


def rules(page):
    """A refusal names its rule, which can be pressed: once where several refusals name it."""
    page.choose(2)
    page.browser.click('#verdict [data-term="T-ASGN"]')
    opened(page, "T-ASGN")
    page.browser.press("Escape")
    holds(not page.run(OPEN), "Escape closes it")
    page.write("var l : L;\nvar h : H;\n" + ";\n".join(f"l := h + {n}" for n in range(3)) + "\n")
    same(page.count('#verdict [data-term="T-ASGN"]'), 1, "how often the rule can be pressed")
    page.choose(0)


def by_keys(page):
    """Tab reaches a term; Enter opens its words, with the focus in them, and Escape brings it back."""
    page.choose(0)
    page.run("document.querySelector('[data-term=\"bound\"]').focus()")
    page.browser.press("Enter")
    opened(page, "bound")
    same(page.run("return document.activeElement.id"), "term", "where the focus is")
    page.browser.press("Tab", "Tab")
    holds(page.run("return document.activeElement.closest('#term') !== null"), "Tab goes to the links")
    page.browser.press("Escape")
    holds(not page.run(OPEN), "Escape closes it")
    same(page.run("return document.activeElement.dataset.term"), "bound", "where the focus is then")


def by_touch(page):
    """A tap opens a term's words on a narrow screen, within it (a finger is put on by Chromium alone)."""
    page.browser.resize(500 if page.browser.name == "firefox" else 390, 844)
    page.choose(0)
    page.run("document.querySelector('[data-term=\"class\"]').scrollIntoView({ block: 'center' })")
    if page.browser.name == "chromium":
        script = "const b = document.querySelector('[data-term=\"class\"]').getBoundingClientRect(); return [b.left +" " 5, b.top + 8]"
        x, y = page.run(script)
        page.browser.devtools("Emulation.setTouchEmulationEnabled", enabled=True)
        page.browser.devtools("Input.dispatchTouchEvent", type="touchStart", touchPoints=[{"x": x, "y": y}])
        page.browser.devtools("Input.dispatchTouchEvent", type="touchEnd", touchPoints=[])
    else:
        page.browser.click('[data-term="class"]')
    opened(page, "class")
    page.browser.press("Escape")
    if page.browser.name == "chromium":
        page.browser.devtools("Emulation.setTouchEmulationEnabled", enabled=False)
    page.browser.resize(1360, 900)


def version(page):
    holds(f"mitigate {(TOP / 'VERSION').read_text().strip()}" in page.text("footer"), page.text("footer"))


TRIALS = [by_mouse, rules, by_keys, by_touch, version]
