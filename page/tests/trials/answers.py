"""Whose answer is shown: what belongs to another text is dimmed and says so, and what is wrong is told in words."""
import re

from driving import EXAMPLES, ENDLESS, all_dimmed, holds, none_dimmed, same

OLD = [".number-of b", ".lane text[font-weight]", "#starts-table td.seen", "#leak-shown tr"]
VERDICT = ["#verdict", "#why", "#sentence"]
MANY = "var h : H;\nvar l : L;\n" + ";\n".join(["mitigate (64, H) { h := 0 }"] * 24) + ";\nl := 1\n"
THIRD = "var h : H;\nvar l : L;\nl := 1;\nl := 2;\nmitigate (1, H) { while h > 0 do { h := h - 1 } };\nl := 3\n"
SECOND_ENDLESS = "var h : H;\nvar l : L;\nmitigate (1, H) { while h > 0 do { skip } };\nl := 1\n"
THREE = "".join(f"[[run]]\nmemory = {{ h = {n} }}\n\n" for n in (0, 9, 40))


def says_earlier(page):
    return "earlier program" in page.run("return document.body.innerText").lower()


def dimmed_at_the_key(page):
    """From the key on, before anything is asked, all numbers are of the program before."""
    page.choose(0)
    for selector in OLD:
        none_dimmed(page, selector, selector)
    holds(not says_earlier(page), "nothing says that it is of an earlier program")
    for selector, (seen, dimmed), text in page.write_and_look(page.program() + " ", OLD):
        holds(seen > 0, f"{selector} can be seen")
        same(dimmed, seen, f"how many of {selector} are dimmed")
        holds("earlier program" in text, "it says so")
    page.idle()
    for selector in OLD:
        none_dimmed(page, selector, f"{selector}, answered")


def verdict_of_what_is_there(page):
    """From the key on the verdict, its reasons and the sentence are of the program before, and no mitigate is offered; what is
    drawn then is of the program that is there."""
    page.choose(2)
    before, chain = page.program(), page.texts("ol.why button")
    same(page.text("#verdict"), "Refused by T-ASGN at 18:1: H does not flow to L", "the verdict")
    holds("lines 9 to 17" in page.text("#mend"), "a mitigate is offered")
    for selector in VERDICT:
        none_dimmed(page, selector, selector)
    for selector, (seen, dimmed), _ in page.write_and_look("// a line more\n" + before, [*VERDICT, "#mend"]):
        same((seen, dimmed), (0, 0) if selector == "#mend" else (1, 1), f"how often {selector} is seen, and how often dimmed")
    page.idle()
    same(page.text("#verdict"), "Refused by T-ASGN at 19:1: H does not flow to L", "the verdict with a line more")
    lower = [re.sub(r"^(\d+)", lambda line: str(int(line[1]) + 1), step) for step in chain]
    same(page.texts("ol.why button"), lower, "the chain with a line more")
    holds("lines 10 to 18" in page.text("#mend"), page.text("#mend"))
    for selector in VERDICT:
        none_dimmed(page, selector, f"{selector}, answered")
    page.browser.click("#mend-go")
    page.idle()
    holds(page.text("#verdict").startswith("Accepted"), page.text("#verdict"))
    same((page.text("#why"), page.text("#mend")), ("", ""), "reasons of an accepted program")


def dimmed_during_a_run(page):
    """While a long run goes on, and after it was stopped, what is left is of the program before."""
    page.choose(3)
    page.set("#budget", str(2**40))
    page.idle()
    page.write_now(ENDLESS)
    page.browser.wait("return !document.getElementById('working').hidden", 20, "the note that it works")
    holds("Accepted" in page.text("#verdict"), "the new verdict is there")
    for selector in OLD:
        all_dimmed(page, selector, selector)
    holds(says_earlier(page), "it says so")
    page.browser.click("#stop")
    page.idle()
    holds("topped" in page.text("#freshness"), "it says that it was stopped")
    seen, dimmed = page.dimmed("#starts-table td.seen")
    same(dimmed, seen, "what is seen of a program that was not run")
    seen, dimmed = page.dimmed(".lane")
    same(dimmed, seen, "the lanes of a program that was not run")


def bounds_rounded_up(page):
    """No bound is told smaller than it is: it stands whole, or is rounded up."""
    page.choose(4)
    page.write(MANY, "[[run]]\nmemory = { h = 1 }\n")
    text = page.text("#audit").replace("\u202f", "")
    holds("3562467300" in text or "3.57" in text, f"the sharp count: {text}")
    holds("about 10" not in text, "no bound is rounded down")
    high = page.run(
        "return [...document.querySelectorAll('.number-of b')].map((one) =>"
        " one.getBoundingClientRect().height / parseFloat(getComputedStyle(one).fontSize))"
    )
    holds(max(high) < 1.9, f"no number is broken in its middle: {high}")


def if_without_else_marked(page):
    page.write((EXAMPLES / "refused/if.mit").read_text(), "[[run]]\n")
    holds("at 6:3" in page.text("#verdict"), page.text("#verdict"))
    same("".join(page.texts("#editor .wrong, #layer .wrong")).replace(" ", ""), "ifk>0@[L,L]then", "what is marked")


def classes_read_apart(page):
    """Runs of different classes differ in what the table says of them, wherever they differ."""
    page.write(THIRD, THREE)
    texts = page.texts("#starts-table td.seen")
    same(len(texts), 3, "rows")
    same(len(set(texts)), int(page.text("#audit .number-of b")), f"different texts: {texts}")


def budget_told(page):
    page.choose(4)
    for wrong in ("x", "0", "1099511627777", ""):
        page.set("#budget", wrong)
        page.idle()
        fault = page.run(
            "const one = document.getElementById('budget-fault'); return one &&" " one.getClientRects().length ? one.innerText : ''"
        )
        holds("from 1 to 1\u202f099\u202f511\u202f627\u202f776" in fault, f"words for {wrong!r}: {fault!r}")
        for selector in OLD:
            all_dimmed(page, selector, selector)
    page.set("#budget", "1 000")
    page.idle()
    for selector in OLD:
        none_dimmed(page, selector, selector)


def cell_told(page):
    page.choose(4)
    page.set('#starts-table input[data-row="1"]', "4x")
    page.idle()
    fault = page.text("#starts-fault")
    holds("run 2" in fault and "h" in fault and "4x" in fault, f"words for a cell: {fault!r}")
    for selector in OLD:
        all_dimmed(page, selector, selector)
    page.set('#starts-table input[data-row="1"]', "4")
    page.idle()
    same(page.text("#starts-fault"), "", "the fault")
    for selector in OLD:
        none_dimmed(page, selector, selector)


def tells_how_far(page):
    """A long run tells which run goes on, past which cycle, and what share of the cycles that is."""
    page.choose(3)
    page.set("#budget", str(2**40))
    page.write_now(SECOND_ENDLESS)
    page.set("#toml", "".join(f"[[run]]\nmemory = {{ h = {n} }}\n\n" for n in (0, 1, 0)))
    told = (
        "return document.getElementById('working').hidden ? '' :"
        " document.getElementById('working-text').textContent.replace(/\\u202f/g, '')"
    )
    page.browser.wait(f"return /run 2 of 3 is past \\d+ cycles of 1099511627776, .* %/.test((() => {{ {told} }})())", 60, "how far it is")
    text = page.run(told)
    holds(text.startswith("the count (step 2 of 6), "), text)
    first = int(re.search(r"past (\d+) cycles", text)[1])
    page.browser.wait(f"return Number(/past (\\d+) cycles/.exec((() => {{ {told} }})())?.[1]) > {first}", 60, "more cycles")
    page.browser.click("#stop")
    page.idle()
    holds("topped" in page.text("#freshness"), "it says that it was stopped")
    page.choose(3)


# A worker as the page's own, which counts the instances that its calls make.
COUNTED = """
const packed = atob(document.getElementById('module-data').textContent.trim());
const bytes = Uint8Array.from(packed, (sign) => sign.charCodeAt(0)), files = { 'program.mit': arguments[0] };
const count = `let made = 0; const Made = WebAssembly.Instance;
WebAssembly.Instance = function (...given) { made++; return new Made(...given); };
const post = self.postMessage.bind(self); self.postMessage = (data) => post({ ...data, made });`;
const texts = [count, document.getElementById('worker-text').textContent];
const worker = new Worker(URL.createObjectURL(new Blob(texts, { type: 'text/javascript' })));
window.counted = null;
worker.onmessage = ({ data }) => {
  if (data.id) window.counted = [data.made, data.text?.length ?? 0, data.fault ?? ''];
};
new Response(new Blob([bytes]).stream().pipeThrough(new DecompressionStream('deflate-raw'))).arrayBuffer()
  .then((plain) => WebAssembly.compile(plain)).then((module) => {
    worker.postMessage({ module });
    worker.postMessage({ id: 1, program: 'mitigate', words: ['run', 'program.mit'], files });
  });"""
LONG = "var l : L;\nl := 60000;\nwhile l > 0 do { l := l - 1 }\n"


def answers_are_made_once(page):
    """An answer of more than a megabyte is made by one instance of the module."""
    page.run(COUNTED, LONG)
    page.browser.wait("return window.counted", 60, "an answer")
    made, length, fault = page.run("return window.counted")
    same(fault, "", "a fault")
    holds(length > 2**20, f"{length} signs")
    same(made, 1, "how often it is made")


TRIALS = [
    tells_how_far,
    answers_are_made_once,
    dimmed_at_the_key,
    verdict_of_what_is_there,
    dimmed_during_a_run,
    bounds_rounded_up,
    if_without_else_marked,
    classes_read_apart,
    budget_told,
    cell_told,
]
