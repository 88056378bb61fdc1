"""What a person writes is kept: across a reload, from examples and links, as files."""
import json
import re

from driving import holds, same

MINE = "var l : L;\nvar h : H;\nmitigate (3, H) { h := h * 2 };\nl := 4\n"
MY_STARTS = "# mine\n[[run]]\nmemory = { h = 5 } # five\n"


def mine(page):
    page.open()
    page.write(MINE, MY_STARTS)
    page.set("#environment", "flat", "change")
    page.set("#budget", "12345")
    page.idle()


def is_mine(page, what):
    values = (page.program(), page.value("#toml"), page.value("#environment"), page.value("#budget"))
    same(values, (MINE, MY_STARTS, "flat", "12345"), what)


def reload(page):
    mine(page)
    page.open(is_new=False)
    is_mine(page, "what is there after a reload")
    holds(page.text("#verdict").startswith("Accepted"), "and it is answered")
    page.choose(3)
    page.open(is_new=False)
    same(page.value("#example"), "3", "an example is there again too")


def way_back(page):
    """An example, the lesson and a new program put one's own aside, and it can be brought back."""
    for replace in (
        lambda: page.choose(1),
        lambda: page.browser.click("#lesson-open"),
        lambda: page.run("document.getElementById('file-new').click()"),
    ):
        mine(page)
        replace()
        page.idle()
        holds(page.program() != MINE, "something else is there")
        holds("put aside" in page.text("#notice-text") and not page.run("return document.getElementById('notice').hidden"), "it says so")
        page.browser.click("#notice-back")
        page.idle()
        is_mine(page, "what was brought back")
    page.choose(1)
    page.open(is_new=False)
    page.set("#example", "own", "change")
    page.idle()
    is_mine(page, "what was brought back after a reload, by the list")


def link(page):
    page.open()
    page.choose(5)
    page.set("#environment", "part2", "change")
    page.idle()
    program, toml = page.program(), page.value("#toml")
    page.browser.click("#copy")
    page.browser.wait("return location.hash.length > 2", 10, "a link")
    hash_ = page.run("return location.hash")
    mine(page)
    page.open(hash_, is_new=False)
    same((page.program(), page.value("#toml"), page.value("#environment")), (program, toml, "part2"), "what the link brings")
    page.run("document.getElementById('file-back').click()")
    page.idle()
    is_mine(page, "what was there before the link")
    page.open("#zBROKEN")
    holds(page.text("#verdict").startswith("Accepted"), "a broken link opens the first example")
    page.open()


def pressed(page, button, name):
    """What a button of the menu saves under a name."""
    page.run("document.getElementById('file-menu').open = true")
    return page.saved(button, name)


def files(page):
    mine(page)
    same(pressed(page, "#file-save", "program.mit"), MINE, "the saved program")
    same(pressed(page, "#starts-save", "starts.toml"), MY_STARTS, "the saved starts")
    saved = json.loads(pressed(page, "#json-save", "answers.json"))
    same((saved["program"], saved["environment"], saved["budget"]), (MINE, "flat", 12345), "what is saved as JSON")
    same(saved["audit"]["report"]["distinct"], int(page.text("#audit .number-of b")), "the number in it")
    holds(len(saved["runs"]) == 1 and saved["runs"][0]["halted"], "the runs in it")
    lines = pressed(page, "#lines-save", "lines.txt")
    holds("$ ./mitigate audit program.mit starts.toml --observer L --env flat --budget 12345\nruns 1\n" in lines, lines)
    holds("$ ./lab timeline program.mit starts.toml --env flat --budget 12345\nrun 1\n" in lines, lines)


def opened(page):
    """Files that are opened, as the page reads them."""
    page.open()
    script = (
        "const data = new DataTransfer(); for (const [name, text] of arguments[0]) data.items.add(new File([text],"
        " name));"
        " const input = document.getElementById('file-chosen'); input.files = data.files;"
        " input.dispatchEvent(new Event('change', { bubbles: true }));"
    )
    page.run(script, [["a.mit", MINE], ["b.toml", MY_STARTS]])
    page.idle()
    same((page.program(), page.value("#toml")), (MINE, MY_STARTS), "what was opened")
    page.run(script, [["c.json", "{"]])
    page.idle()
    holds("c.json" in page.text("#notice-text"), "a file that is none is told")
    same(page.program(), MINE, "and nothing is changed by it")


def commands(page):
    mine(page)
    lines = page.texts("#command-list code")
    holds("./mitigate audit program.mit starts.toml --observer L --env flat --budget 12345" in lines, lines)
    page.set("#observer", "H", "change")
    page.idle()
    holds(any(re.search("audit .* --observer H ", line) for line in page.texts("#command-list code")), "with another observer")
    page.open()


def note_covers_nothing(page):
    """What is gone to by keys does not stand below the note that own work was put aside."""
    page.open()
    page.write("var l : L;\nl := 2\n")
    page.choose(2)
    holds(page.run("return !document.getElementById('notice').hidden"), "the note")
    covered = page.run(
        "const note = document.getElementById('notice').getBoundingClientRect();"
        "const seen = [...document.querySelectorAll('main button, main select, main summary')].filter((part) => part.offsetParent);"
        "return seen.filter((part) => { scrollTo(0, 0); part.focus(); part.scrollIntoView({ block: 'nearest' });"
        " return document.activeElement === part && part.getBoundingClientRect().bottom > note.top; })"
        ".map((part) => part.outerHTML.slice(0, 80))"
    )
    same(covered, [], "what stands below the note")
    page.browser.click("#notice-close")


TRIALS = [reload, way_back, note_covers_nothing, link, files, opened, commands]
