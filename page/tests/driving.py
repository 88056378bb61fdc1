"""The page in a browser, by what a person does with it, and what trials ask of it."""
import pathlib
import time

import browsers

HERE = pathlib.Path(__file__).resolve().parent
TOP = HERE.parent.parent
EXAMPLES = TOP / "examples"

IDLE = "return document.getElementById('answer').getAttribute('aria-busy') === 'false'"
SWEPT = "return document.getElementById('sweep').getAttribute('aria-busy') !== 'true'"
ENDLESS = "var l : L;\nwhile 1 do { l := l + 1 }\n"

# The program's text is in the editor's library, in the page of before it was in a plain text area.
EDITOR = "const editor = document.querySelector('.CodeMirror')?.CodeMirror, area = document.getElementById('source');"
READ = EDITOR + "return editor ? editor.getValue() : area.value"
WRITE = (
    EDITOR
    + """
if (editor) {
  const last = editor.lastLine();
  editor.replaceRange(arguments[0], { line: 0, ch: 0 }, { line: last, ch: editor.getLine(last).length }, '+input');
} else {
  area.value = arguments[0];
  area.dispatchEvent(new Event('input', { bubbles: true }));
}"""
)
CARET = (
    EDITOR
    + """
const text = editor ? editor.getValue() : area.value;
const at = text.indexOf(arguments[0]) + (arguments[1] ? arguments[0].length : 0);
if (editor) {
  editor.focus();
  editor.setCursor(editor.posFromIndex(at));
} else {
  area.focus();
  area.setSelectionRange(at, at);
}"""
)
SELECTED = EDITOR + "return editor ? editor.getSelection() : area.value.slice(area.selectionStart, area.selectionEnd)"

# Of what a selector finds: how many can be seen, and how many of those stand in something that is dimmed.
DIMMED = """
const all = [...document.querySelectorAll(arguments[0])]
  .filter((one) => one.getClientRects().length && one.textContent.trim());
const isDimmed = (one) => {
  for (let at = one; at; at = at.parentElement) if (Number(getComputedStyle(at).opacity) < 0.9) return true;
  return false;
};
return [all.length, all.filter(isDimmed).length];"""


# Writes a program and looks at what is dimmed before anything else happens.
WRITE_AND_LOOK = f"""
(function () {{ {WRITE} }}).call(null, arguments[0]);
const look = function () {{ {DIMMED} }};
return arguments[1].map((selector) => [selector, look(selector), document.body.innerText.toLowerCase()]);"""


class Page:
    """The page in a browser, by what a person does with it."""

    def __init__(self, browser, address):
        self.browser, self.address = browser, address

    def open(self, more="", is_new=True):
        """Opens the page; as a new one, with nothing that was kept of an earlier visit."""
        self.browser.open("about:blank")
        self.browser.open(self.address + more)
        if is_new:
            self.browser.run("localStorage.clear()")
            self.browser.open("about:blank")
            self.browser.open(self.address + more)
        self.browser.wait("return document.documentElement.dataset.ready", 30, "the tool in the page")
        self.idle()

    def again(self):
        """Opens the page after a failure, whatever that left."""
        try:
            self.browser.resize(1360, 900)
            self.open()
        except browsers.Fault as fault:
            print(f"  it cannot be opened again: {fault}")

    def idle(self):
        time.sleep(0.4)
        self.browser.wait(IDLE, 60, "an answer")

    def until(self, test, what):
        """Waits for what comes with a frame or two."""
        browsers.wait_for(test, 10, what)

    def run(self, script, *args):
        return self.browser.run(script, *args)

    def text(self, selector):
        return self.run("return document.querySelector(arguments[0])?.textContent ?? ''", selector)

    def texts(self, selector):
        return self.run("return [...document.querySelectorAll(arguments[0])].map((one) => one.textContent)", selector)

    def count(self, selector):
        return self.run("return document.querySelectorAll(arguments[0]).length", selector)

    def value(self, selector):
        return self.run("return document.querySelector(arguments[0]).value", selector)

    def set(self, selector, text, event="input"):
        script = (
            "const e = document.querySelector(arguments[0]); e.value = arguments[1];"
            " e.dispatchEvent(new Event(arguments[2], { bubbles: true }))"
        )
        self.run(script, selector, text, event)

    def program(self):
        return self.run(READ)

    def selected(self):
        return self.run(SELECTED)

    def write_now(self, program):
        """Puts a program in place of the present one, as one typed it, and does not wait."""
        self.run(WRITE, program)

    def write_and_look(self, program, selectors):
        """Writes a program, and tells of each selector what is dimmed then, with all the text of the page."""
        return self.run(WRITE_AND_LOOK, program, selectors)

    def write(self, program, starts=None):
        self.write_now(program)
        if starts is not None:
            self.set("#toml", starts)
        self.idle()

    def examples(self):
        script = "return [...document.getElementById('example').options].filter((o) =>" " /^\\d+$/.test(o.value)).map((o) => o.textContent)"
        return self.run(script)

    def choose(self, number):
        self.set("#example", str(number), "change")
        self.idle()

    def caret(self, text, after=True):
        self.run(CARET, text, after)

    def dimmed(self, selector):
        """How many of what can be seen are dimmed, as a pair with how many can be seen."""
        return tuple(self.run(DIMMED, selector))

    def saved(self, button, name):
        folder = self.browser.folder
        (folder / name).unlink(missing_ok=True)
        self.browser.click(button)
        browsers.wait_for(lambda: (folder / name).exists() and (folder / name).stat().st_size, 20, name)
        return (folder / name).read_text(encoding="utf-8")


def same(have, wanted, what=""):
    if have != wanted:
        raise AssertionError(f"{what} is {have!r}, and not {wanted!r}")


def holds(test, what):
    if not test:
        raise AssertionError(what)


def all_dimmed(page, selector, what):
    seen, dimmed = page.dimmed(selector)
    holds(seen > 0, f"{what} can be seen")
    same(dimmed, seen, f"how many of {what} are dimmed")


def none_dimmed(page, selector, what):
    seen, dimmed = page.dimmed(selector)
    holds(seen > 0, f"{what} can be seen")
    same(dimmed, 0, f"how many of {what} are dimmed")
