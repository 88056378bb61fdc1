"""Machines of files: chosen, written, refused, kept, and partitions beside one cache for all, as ./lab tells them."""
import json
import re

from driving import EXAMPLES, all_dimmed, holds, none_dimmed, same
from standing_in import without_tune
from trials.basics import sweep_now
from trials.controls import DATA, call
from trials.lessons import guessed, is_done, not_done, open_step

MACHINES = EXAMPLES / "machines"
CHOICES = "return [...document.getElementById('environment').options].map((one) => one.value)"
TABLE = "return [...document.querySelectorAll('#machine-sides .both tbody tr')].map((row) => [...row.cells].map((one) => one.innerHTML))"
CLASSES = (
    "return [...document.querySelectorAll('#machine-sides .both-classes > div')].map((side) =>"
    " [...side.querySelectorAll('tr')].map((row) => [...row.cells].map((one) => one.textContent)))"
)
PROBE = "probe/probe.mit"
SIXTEEN = "\n".join(f"[[run]]\nmemory = {{ secret = {place} }}\n" for place in range(0, 61, 4))


def machine_text(name):
    return (MACHINES / f"{name}.toml").read_text()


def choose_file(page, name):
    page.set("#environment", f"file:{name}.toml", "change")
    page.idle()


def sides_now(page):
    """Both sides, which are made by themselves only where runs take little."""
    if page.run("return document.getElementById('machine-shown').hidden"):
        page.run("document.getElementById('machine-go').click()")
        page.browser.wait("return !document.getElementById('machine-shown').hidden", 60, "both sides")


def probe(page, name):
    """The probe of sixteen places, on a machine of the shipped ones."""
    page.choose(0)
    page.write((EXAMPLES / PROBE).read_text(), SIXTEEN)
    page.set("#budget", "8191")
    choose_file(page, name)


def plain(text):
    return text.replace("\u202f", "").strip()


def told(page, question, machine=None):
    """What the lab prints of what is there, on the machine that is written or on another one."""
    words = f"{question} program.mit starts.toml --observer L --machine machine.toml --budget {page.value('#budget')}"
    return call("lab", words, page.program(), page.value("#toml"), machine=machine or page.value("#machine-text"))


def compare_rows(page):
    """What is seen of each run first, and when it ends, beside what is printed of it."""
    for row, line in zip(page.texts("#starts-table td.seen"), told(page, "seen").splitlines()):
        events = [re.sub(r"^(.*)=(.*)@(\d+)$", r"\1 = \2 @\3", event) for event in line.split("\t")[1].split()]
        holds(all(event in row for event in events[:2]), f"{row}: {events[:2]}")
    tips = plain(" ".join(page.run("return " + DATA, ".lane [data-tip]", "tip")))
    ends = re.findall(r"^end @(\d+)$", told(page, "timeline"), re.MULTILINE)
    holds(ends and all(f"ends at {end}" in tips for end in ends), f"ends: {ends}")


def compare(page):
    """What the page shows of the machine that is chosen, beside what the lab prints of it; with how many things are seen."""
    bound = told(page, "bound")
    distinct, boxes = re.search(r"^distinct (\d+)$", bound, re.MULTILINE)[1], page.texts("#audit .number-of b")
    same(plain(boxes[0]), distinct, "the number of sequences")
    if "machine shared" in bound:
        same(boxes[1:], ["none"], "limits of a shared machine")
        holds("no limit" in page.text("#sentence") and "no limit is told" in page.text("#audit-text"), page.text("#sentence"))
    else:
        same(plain(boxes[1]), re.search(r"^sharp (\d+)$", bound, re.MULTILINE)[1], "the sharp count")
    same(page.texts("#starts-table .class"), re.findall(r"^run \d+ class (\d+)$", bound, re.MULTILINE), "the classes of the table")
    settings = f"--machine machine.toml --budget {page.value('#budget')}"
    compare_rows(page)
    lines = page.texts("#command-list code")
    for question in ("bound", "leak", "seen"):
        holds(f"./lab {question} program.mit starts.toml --observer L {settings}" in lines, f"{question}: {lines}")
    holds(not any("audit" in line or "--env" in line for line in lines), f"what takes no machine: {lines}")
    return int(distinct)


def machines_are_chosen(page):
    """Each file that is shipped can be chosen beside the environments, and what is shown is what the lab tells of it."""
    probe(page, "part")
    names = [f"file:{path.name}" for path in MACHINES.glob("*.toml") if path.name != "fill.toml"]
    choices = page.run(CHOICES)
    same(choices[:3], ["flat", "part", "part2"], "the environments")
    same(sorted(choices[3:]), sorted([*names, "own"]), "the machines")
    page.set("#budget", "65535")
    seen = {}
    for name in ("part", "part2", "larger", "pldi2012", "fifo", "real", "shared", "shared2"):
        choose_file(page, name)
        same(page.value("#machine-text"), machine_text(name), "its text")
        seen[name] = compare(page)
    same(seen, {name: 16 if "shared" in name else 1 for name in seen}, "how many things are seen")


def own_machine(page):
    """What is written is a machine of its own: with dearer misses runs last longer, and the sweep is made on it too."""
    page.choose(0)
    page.set("#machine-text", machine_text("part").replace("miss = 12", "miss = 112"))
    page.idle()
    same(page.value("#environment"), "own", "the choice")
    holds("Your own machine" in page.text("#machine-says"), page.text("#machine-says"))
    same(compare(page), len(set(page.texts("#starts-table .class"))), "classes")
    sweep_now(page)
    holds(int(page.text("#sweep-note").split()[3]) > 20, page.text("#sweep-note"))
    page.set("#environment", "part", "change")
    page.idle()
    same(page.value("#machine-text"), machine_text("part"), "the text of a named one")


def machine_is_refused(page):
    """What is refused in a machine file is told beside it with its line, which can be gone to, and dims what is of another."""
    probe(page, "shared")
    sides_now(page)
    good = page.value("#machine-text")
    for change, words, line in (
        (("version = 1", "version = 2"), "version = 1 has to be there", "version = 2"),
        (('"shared"', '"both"'), "sharing = ", "sharing ="),
        (
            ("sets = 8, ways = 2, bytes = 32, hit = 0, miss = 8", "sets = 4097, ways = 2, bytes = 32, hit = 0, miss = 8"),
            "code has 1 to 4096 sets",
            "code",
        ),
        (("sets = 1, ways = 4", "sets = 1, ways = 9"), "page has 1 to 8 ways", "page"),
        (("miss = 12 }", "miss = 12"), "not TOML", "data"),
        (("version = 1", "version = 1\nfourth = 4"), "none of version", "fourth"),
        (("miss = 12", "miss = 1200"), "1220 cycles", None),
    ):
        text = good.replace(*change)
        page.set("#machine-text", text)
        page.idle()
        holds(told(page, "seen").startswith("machine: "), told(page, "seen"))
        holds(words in plain(page.text("#machine-fault")), f"{words}: {page.text('#machine-fault')}")
        same(page.run("return document.getElementById('machine-text').getAttribute('aria-invalid')"), "true", "it is marked")
        all_dimmed(page, "#lanes .lane", "lanes of another machine")
        all_dimmed(page, "#machine-sides td", "both sides of another machine")
        if line:
            page.run("document.querySelector('#machine-fault .place').click()")
            selected = page.run("const box = document.activeElement; return box.value.slice(box.selectionStart, box.selectionEnd)")
            holds(selected.startswith(line), f"{selected!r} is gone to, and not {line}")
    page.set("#machine-text", good)
    page.idle()
    same(page.text("#machine-fault"), "", "nothing is refused any more")
    none_dimmed(page, "#lanes .lane", "lanes")


def both_sides(page):
    """Partitions beside one cache for all: numbers, classes and what is seen of each, as the lab tells of either file."""
    for name in ("part", "shared2"):
        probe(page, name)
        sides_now(page)
        text, rows, sides = page.value("#machine-text"), page.run(TABLE), page.run(CLASSES)
        for k, sharing in enumerate(("partitioned", "shared")):
            leak = told(page, "leak", machine=re.sub(r'^sharing = "\w+"', f'sharing = "{sharing}"', text, flags=re.MULTILINE))
            holds(leak.startswith(f"machine {sharing}\n"), leak)
            column = [plain(row[k + 1]) for row in rows]
            same(column[0], re.search(r"^distinct (\d+)", leak, re.MULTILINE)[1], f"{name}: things seen, {sharing}")
            limits = ["none", "none"]
            if sharing == "partitioned":
                base, exponent = re.search(r"^bound (\d+)\^(\d+)", leak, re.MULTILINE).groups()
                limits = [re.search(r"^sharp (\d+)", leak, re.MULTILINE)[1], f"{base}<sup>{exponent}</sup>"]
            same(column[1:3], limits, f"{name}: limits, {sharing}")
            same(column[3], re.search(r"before, (\d+ of \d+) after", leak)[1], "right at first")
            classes = re.findall(r"^class (\d+) first (\d+)\t(.*)$", leak, re.MULTILINE)
            same(len(sides[k]), len(classes), "classes")
            for row, (size, first, field) in zip(sides[k], classes):
                same(row[2], f"{size} run{'' if size == '1' else 's'}, first {first}", "a class")
                event = re.search(r"(\S+) = (-?\d+) @(\d+)", row[3]).groups()
                holds("{}={}@{}".format(*event) in field.split(), f"{row[3]} is seen in {field}")
            same(len({row[3] for row in sides[k]}), len(classes), "classes that read apart")
        sentence = page.text("#machine-sentence")
        holds("sees one thing where each label has partitions" in sentence and "16 different things where all" in sentence, sentence)
        holds("law on the write label" in sentence and "of a shared machine none is told" in sentence, sentence)
        saved = page.saved("[data-save='shared']", "shared.toml")
        same(saved, re.sub(r'"partitioned"', '"shared"', text), "the other machine as a file")
    page.set("#environment", "flat", "change")
    page.idle()
    holds(page.run("return document.getElementById('machine-shown').hidden"), "without caches there are no sides")
    holds("nothing to share" in page.text("#machine-says"), page.text("#machine-says"))


def machine_is_kept(page):
    """A machine is there again after a reload, from a link, from files and from what was put aside."""
    own = machine_text("shared2").replace("miss = 30", "miss = 33")

    def is_there(what):
        same([page.value("#environment"), page.value("#machine-text")], ["own", own], what)

    page.open()
    page.choose(1)
    page.set("#machine-text", own)
    page.idle()
    sentence = page.text("#sentence")
    page.open(is_new=False)
    is_there("what is there after a reload")
    page.choose(2)
    holds("put aside" in page.text("#notice-text"), "a machine of one's own is put aside")
    page.browser.click("#notice-back")
    page.idle()
    is_there("what was brought back")
    same(page.text("#sentence"), sentence, "and it is answered")
    page.browser.click("#copy")
    page.until(lambda: page.run("return location.hash.length > 10"), "the link")
    link = page.run("return location.hash")
    page.open(link)
    is_there("what a link brings back")
    page.run("document.getElementById('file-menu').open = true")
    kept = json.loads(page.saved("#json-save", "answers.json"))
    same([kept["environment"], kept["machine"]], ["machine", own], "what is saved as JSON")
    page.run("document.getElementById('file-menu').open = true")
    same(page.saved("#machine-save", "machine.toml"), own, "the machine as a file")
    page.choose(3)
    script = (
        "const files = new DataTransfer(); files.items.add(new File([arguments[1]], arguments[0]));"
        " const box = document.getElementById('file-chosen'); box.files = files.files;"
        " box.dispatchEvent(new Event('change', { bubbles: true }))"
    )
    page.run(script, "mine.toml", own)
    page.idle()
    is_there("a machine that was opened")
    page.choose(3)
    page.run(script, "all.json", json.dumps(kept))
    page.idle()
    is_there("a machine that was opened with all else")
    page.choose(0)
    same([page.value("#environment"), page.value("#machine-text")], ["part", machine_text("part")], "an example has its own caches")


def shared_cache(page):
    """The fourth lesson: one thing, sixteen things, and a machine file to be mended."""
    open_step(page, 3, 0)
    guessed(page)
    holds("cannot tell these 16 runs apart; no other is possible" in page.text("#sentence"), page.text("#sentence"))
    page.browser.click("#lesson-next")
    page.idle()
    same(page.run("return getComputedStyle(document.querySelector('#machine-sentence')).visibility"), "hidden", "what is covered")
    page.browser.click('[data-guess="2"]')
    holds("guessed right" in page.text("#lesson-guess"), page.text("#lesson-guess"))
    holds("sees 16 different timings; no limit holds" in page.text("#sentence"), page.text("#sentence"))
    page.browser.click("#lesson-next")
    page.idle()
    not_done(page)
    page.set("#machine-text", page.value("#machine-text").replace('"shared"', '"partitioned"'))
    is_done(page, "the first task")
    page.browser.click("#lesson-next")
    page.idle()
    not_done(page)
    page.write(page.program().replace("(460, H)", "(1444, H)"))
    is_done(page, "the second task")
    page.browser.click("#lesson-close")


TRIALS = [machines_are_chosen, without_tune(own_machine), machine_is_refused, both_sides, machine_is_kept, shared_cache]
