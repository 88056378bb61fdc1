"""Whom the page serves: by keys, by names, at all sizes; and what stands where."""
import time

from driving import holds, same
from trials.answers import MANY
from trials.basics import sweep_now

NAME = """
const nameOf = (one) => (one.getAttribute('aria-label')
  || (one.labels?.length ? [...one.labels].map((label) => label.textContent).join(' ') : '')
  || (one.getAttribute('aria-labelledby') && document.getElementById(one.getAttribute('aria-labelledby')).textContent)
  || one.textContent).trim().replace(/\\s+/g, ' ');
const seen = (selector) => [...document.querySelectorAll(selector)]
  .filter((one) => one.offsetParent && one.getClientRects().length);
"""
CONTROLS = "button, select, input, textarea, summary, [tabindex='0'], [contenteditable='true']"
INTERFACE = ":not(.CodeMirror *)"


def fold(page):
    """At 1366 by 768 what was found, the program and the picture of the runs stand above the fold, side by side."""
    page.browser.resize(1366, 768)
    page.choose(0)
    script = (
        "const box = document.querySelector(arguments[0]).getBoundingClientRect(); return [box.left, box.top," " box.right, box.bottom]"
    )
    boxes = {name: page.run(script, name) for name in ("#sentence", "#audit", ".editor", "#lanes svg")}
    for name, (left, top, right, bottom) in boxes.items():
        holds(0 <= left < right <= 1366 and 0 <= top < bottom <= 768, f"{name}: {left} {top} {right} {bottom}")
    holds(boxes[".editor"][2] <= boxes["#lanes svg"][0], "the program stands beside the picture")
    page.set("#budget", str(2**40))
    same(page.count(".lane text[font-weight][text-anchor='end']"), 0, "what is written before its mark, over the bars")
    fits = "const box = document.getElementById('budget'); return box.scrollWidth <= box.clientWidth"
    holds(page.run(fits), "the greatest number of cycles has room")
    page.idle()
    page.browser.resize(1360, 900)


SIZES = """
const hasWords = (part) => [...part.childNodes].some((node) => node.nodeType === 3 && node.textContent.trim());
const seen = [...document.querySelectorAll('body *')].filter((part) => part.getClientRects().length && hasWords(part));
return [...new Set(seen.map((part) => getComputedStyle(part).fontSize))].sort();"""


def type_scale(page):
    """What is written has one of six sizes, the program that of its own."""
    for number in (0, 2, 13):
        page.choose(number)
        page.run("for (const part of document.querySelectorAll('details')) part.open = true")
        page.run("document.getElementById('costs-shown').click(); document.getElementById('steps-all').click()")
        page.idle()
        page.run("document.getElementById('step-on').click()")
        other = set(page.run(SIZES)) - {"12px", "13px", "14px", "15px", "18px", "24px"}
        same(other, set(), f"other sizes, with example {number}")
        page.open()


def changed_since(page):
    """What is said of each example has room, also once it says that it was changed since."""
    page.browser.resize(1366, 768)
    shown = "const says = document.getElementById('example-says'); return [says.textContent, says.scrollWidth > says.clientWidth]"
    for number in range(len(page.examples())):
        page.choose(number)
        whole, is_cut = page.run(shown)
        page.write_now(page.program() + " ")
        same([is_cut, *page.run(shown)], [False, "Changed since: " + whole, False], "whether it is cut off, and what it says then")
    same(page.run("return document.getElementById('example-says').title"), "Changed since: " + whole, "and beside the pointer")
    page.browser.resize(1360, 900)


def no_empty_words(page):
    """Where there are no numbers nothing can be opened that says what they mean."""
    page.open()
    page.choose(2)
    shown = "return getComputedStyle(document.getElementById('words')).visibility"
    top = "return document.getElementById('program').getBoundingClientRect().top + scrollY"
    same(page.run(shown), "hidden", "words on no numbers")
    without = page.run(top)
    page.choose(0)
    same(page.run(shown), "visible", "words on numbers")
    same(page.run(top), without, "where the program stands with them")


def no_praise(page):
    """No tick and no colour of success stands over a program of which the point is that it leaks."""
    page.choose(0)
    good = "return getComputedStyle(document.documentElement).getPropertyValue('--good')"
    holds(page.run(good), "a colour of success")
    found = page.run(
        "const probe = document.createElement('i'); probe.style.color = 'var(--good)'; document.body.append(probe);"
        " const good = getComputedStyle(probe).color; probe.remove();"
        " return [...document.querySelectorAll('#verdict, #verdict *, #finding, #finding *')]"
        ".filter((one) => getComputedStyle(one).color === good || one.tagName === 'svg').length"
    )
    same(found, 0, "how much says that all is good")


def keyboard(page):
    page.open()
    page.run(
        "window.focused = []; document.addEventListener('focusin', ({ target: one }) =>"
        " focused.push(one.id || one.dataset.name || (one.closest('.CodeMirror') ? 'editor' : one.className)))"
    )
    page.browser.press(*["Tab"] * 75)
    seen = page.run("return window.focused")
    for wanted in (
        "lesson-open",
        "example",
        "copy",
        "theme",
        "labels-shown",
        "find",
        "code-open",
        "editor",
        "problems",
        "zoom-in",
        "time-save",
        "observer",
        "environment",
        "budget",
        "lanes",
        "starts-form",
    ):
        holds(wanted in seen, f"Tab reaches {wanted}: {seen}")


def names(page):
    """All that can be used has a name, and no two buttons have the same one; headings hold no buttons."""
    for number in (0, 2, 5):
        page.choose(number)
        page.run("for (const one of document.querySelectorAll('details')) one.open = true")
        found = page.run(NAME + f'return seen("{CONTROLS}").map((one) => [one.tagName, nameOf(one), one.outerHTML.slice(0, 90)])')
        same([html for _, name, html in found if not name], [], "what has no name")
        buttons = [name for tag, name, _ in found if tag == "BUTTON"]
        same(sorted({name for name in buttons if buttons.count(name) > 1}), [], "names of several buttons")
        same(page.count("h1 button, h2 button, h3 button, h1 select, h2 select, h2 input"), 0, "controls in headings")
        page.run("document.getElementById('file-menu').open = false")


def targets(page):
    """What can be pressed is at least 24 by 24, but for places within a sentence."""
    for wide in (1360, 500 if page.browser.name == "firefox" else 390):
        page.browser.resize(wide, 900)
        for number in (0, 2):
            page.choose(number)
            page.run("for (const one of document.querySelectorAll('details')) one.open = true")
            small = page.run(
                NAME + f"return seen(\"button, select, summary, input\").filter((one) => one.matches('{INTERFACE}')"
                f" && !one.matches('p .place'))"
                ".map((one) => [one, one.getBoundingClientRect()]).filter(([, box]) => box.width < 24 || box.height <"
                " 24)"
                ".map(([one, box]) => `${one.outerHTML.slice(0, 70)} ${box.width} ${box.height}`)"
            )
            small = [one for one in small if 'type="checkbox"' not in one]
            same(small, [], f"what is too small at {wide}")
            page.run("document.getElementById('file-menu').open = false")
    page.browser.resize(1360, 900)


def told(page):
    """What changes is told to those who do not see the page."""
    page.choose(0)
    same(page.run("return document.getElementById('announce').getAttribute('role')"), "status", "its role")
    holds("three different timings" in page.text("#announce"), page.text("#announce"))
    page.write(page.program().replace("(16, H)", "(512, H)"))
    holds("cannot tell these nine runs apart" in page.text("#announce"), page.text("#announce"))
    page.write(page.program() + "x")
    holds("not a program" in page.text("#announce"), page.text("#announce"))


def narrow(page):
    page.browser.resize(500 if page.browser.name == "firefox" else 390, 844)
    for number in range(len(page.examples())):
        page.choose(number)
        wide, inner = page.run("return [document.documentElement.scrollWidth, innerWidth]")
        holds(wide <= inner, f"{page.examples()[number]}: {wide} wide in {inner}")
    menu = "const box = document.querySelector('.menu-list').getBoundingClientRect(); return [box.left, innerWidth - box.right]"
    page.run("document.getElementById('file-menu').open = true")
    holds(min(page.run(menu)) >= 0, f"the menu is in the window: {page.run(menu)}")
    page.run("document.getElementById('file-menu').open = false")
    page.choose(0)
    place = "return document.getElementById('program').getBoundingClientRect().top + scrollY"
    before = page.run(place)
    page.write(page.program() + "$")
    same(page.run(place), before, "where the program stands with a wrong letter")
    page.choose(0)
    sweep_now(page)
    titles = page.run(
        "return [...document.querySelectorAll('#sweep-picture text')].map((part) => [part.textContent, part.getBoundingClientRect()])"
        ".filter(([text]) => /^(now|first)/.test(text)).map(([text, box]) => [box.left, box.right]).sort(([a], [b]) => a - b)"
    )
    holds(len(titles) == 2 and titles[0][1] < titles[1][0], f"the words below the axis stand apart: {titles}")
    page.write(MANY, "[[run]]\nmemory = { h = 1 }\n")
    boxes = page.run(
        "return [...document.querySelectorAll('#audit .number-of')].map((part) => part.getBoundingClientRect().right"
        " - part.querySelector('b').getBoundingClientRect().left - part.querySelector('b').scrollWidth)"
    )
    holds(len(boxes) == 4 and min(boxes) >= -1, f"no number goes beyond its place: {boxes}")
    page.browser.resize(1360, 900)


BOXES = """
return ['header', 'main section', '.editor', '#problems', '#lanes', '#sentence', '#audit', '#starts-table',
  '#sweep-picture', 'footer']
  .flatMap((selector) => [...document.querySelectorAll(selector)]).filter((one) => one.getClientRects().length)
  .map((one) => { const { left, top, width, height } = one.getBoundingClientRect();
    return [one.id || one.className || one.tagName,
    Math.round(left), Math.round(top + scrollY), Math.round(width), Math.round(height)].join(' '); });
"""
WATCH = """
window.shifts = 0;
new PerformanceObserver((list) => { for (const one of list.getEntries()) window.shifts += one.value; })
  .observe({ type: 'layout-shift' });
"""


def a_letter_and_back(page):
    """Types a wrong letter and undoes it: gives the boxes before, with it, and after."""
    page.choose(0)
    sweep_now(page)
    page.caret("done := 1")
    page.run("scrollTo(0, 0); for (const one of document.querySelectorAll('details')) one.open = false")
    time.sleep(0.5)
    found = [page.run(BOXES)]
    if page.browser.name == "chromium":
        page.run(WATCH)
    page.browser.type("$")
    page.idle()
    found.append(page.run(BOXES))
    page.browser.press("Control+z")
    page.idle()
    sweep_now(page)
    found.append(page.run(BOXES))
    return found


def nothing_moves(page):
    """With one wrong letter the last answer stays in its place, and nothing moves."""
    before, during, after = a_letter_and_back(page)
    same(during, before, "where all stands with a wrong letter")
    same(after, before, "where all stands without it")
    same(page.count(".lane"), 9, "lanes")
    if page.browser.name == "chromium":
        same(page.run("return window.shifts"), 0, "the sum of all shifts")


def measure(page):
    a_letter_and_back(page)
    if page.browser.name == "chromium":
        print(f"  the sum of shifts of a letter that is typed and undone: {page.run('return window.shifts')}")


def forced_colours(page):
    """In forced colours, with more contrast and for print everything is still there (Chromium can be told so)."""
    if page.browser.name != "chromium":
        return
    page.choose(0)
    for feature, value in (("forced-colors", "active"), ("prefers-contrast", "more")):
        page.browser.devtools("Emulation.setEmulatedMedia", features=[{"name": feature, "value": value}])
        same(page.count(".lane"), 9, f"lanes with {feature}")
        ink, ground = page.run("const s = getComputedStyle(document.body); return [s.color, s.backgroundColor]")
        holds(ink != ground, f"{feature}: {ink} on {ground}")
    page.choose(2)
    page.browser.devtools("Emulation.setEmulatedMedia", features=[{"name": "forced-colors", "value": "active"}])
    # the browser draws the ground behind words
    ground = page.run("return getComputedStyle(document.body).backgroundColor")
    words = page.run(
        "return [...document.querySelectorAll('body *')].filter((part) => part.textContent.trim() && part.offsetParent)"
        ".filter((part) => getComputedStyle(part).color === arguments[0]).map((part) => part.outerHTML.slice(0, 80))",
        ground,
    )
    same(words, [], "words in the colour of the ground")
    page.browser.devtools("Emulation.setEmulatedMedia", media="print", features=[])
    printed = "return arguments[0].filter((name) => document.getElementById(name).getClientRects().length)"
    same(page.run(printed, ["lesson-open", "step-on", "example", "lanes-keys"]), [], "what can be pressed, in print")
    found = ["lane-says", "sentence", "editor", "time-legend"]
    same(page.run(printed, found), found, "what was found, in print")
    page.browser.devtools("Emulation.setEmulatedMedia", media="", features=[])


TRIALS = [
    fold,
    type_scale,
    changed_since,
    no_empty_words,
    no_praise,
    keyboard,
    names,
    targets,
    told,
    nothing_moves,
    forced_colours,
    narrow,
]
