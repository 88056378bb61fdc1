"""What `lab why` tells of a text that is no program, behind the line of `mitigate`: a second reading of docs/LAB.md."""

from refusals import Stop

KEYS = "labels order var skip if then else while do mitigate sleep".split()
SIGNS = ":= : ; , ( ) { } [ ] @ + - * / % == != < <= > >=".split()
# all tokens that a text can have at a place, in the order in which they are told
TOKENS = [
    ("name", "NAME"),
    ("number", "NUMBER"),
    *(("key", key) for key in KEYS),
    *(("sign", sign) for sign in SIGNS),
    ("end", "END"),
]
BEGINS = {"NAME", "skip", "if", "while", "mitigate", "sleep"}
NUMBERS = "the greatest number is 9223372036854775807"
DEEP = "at most 100 brackets are open at once, and an expression has at most 256 operators"
MANY = "there are at most 1024 declarations; an array is one declaration"
SIZE = "an array has at least one element, and all arrays together have at most 2048"
MISUSE = "an array is used with an index, as NAME[0], and any other variable without one"
LATTICE = {
    "too many labels": "there are at most 32 labels",
    "order cycle": "of two labels at most one flows to the other",
    "no bottom": "one label has to flow to all others",
    "no join": "one of the labels to which both flow has to flow to all others of these",
}
ASSIGN = "an assignment is written NAME := VALUE"
CALL = "there are no functions"
ARRAY = "an array is declared as var NAME[LENGTH] : LABEL;"
CHOICE = "a choice is a command and has no value: if .. then { .. } else { .. }"
NOT = "there is no not: compare with 0"
AND = "there is no and: write an if in an if, or multiply two comparisons"
OR = "there is no or: write an if in an else, or add two comparisons"
NO_VALUE = "a declaration gives no value: a command or a start file does"


def marked(text, line, column):
    """The line of a place and a mark below it, both cut where the line is long."""
    shown = (text.split(b"\n") + [b""])[line - 1]
    first = max(0, column - 1 - 60)
    rest = shown[first:]
    dots = ".." if first else ""

    def sign(byte):
        return {9: "\t", 13: " "}.get(byte, chr(byte) if 32 <= byte <= 126 else "?")

    kept = "".join(sign(byte) for byte in rest[:120])
    below = "".join("\t" if byte == 9 else " " for byte in rest[: column - 1 - first])
    return f"| {dots}{kept}{'..' if len(rest) > 120 else ''}\n| {' ' * len(dots)}{below}^\n"


def place_of(text, line, column):
    """How many bytes stand before a place."""
    return sum(len(one) + 1 for one in text.split(b"\n")[: line - 1]) + column - 1


def told(kind, value):
    return {"name": "NAME", "number": "NUMBER", "end": "END"}.get(kind, value)


def could_stand(before, parser):
    """What could stand behind some tokens, each tried in turn; None where these can't stand themselves."""

    def is_refused(found, number):
        reader = parser(found)
        try:
            reader.program()
        except Stop as fault:
            return "unexpected" in fault.line and reader.at <= number
        return False

    end = ("end", "", (0, 0))
    if before and is_refused([*before, end], len(before) - 1):
        return None
    candidates = ((kind, "x" if kind == "name" else 1 if kind == "number" else value, (0, 0)) for kind, value in TOKENS)
    return [told(kind, value) for kind, value, place in candidates if not is_refused([*before, (kind, value, place), end], len(before))]


def expected(could):
    return "".join(["expected", *(f" {one}" for one in could), "\n"])


def trap(before, word_before, here, word, behind, could):
    """The sentence on a mistake that is often made, by the token that can't stand at its place and those around it."""
    if ":=" in could and before == "NAME":
        if word_before == "for":
            return "there is no for: write while .. do { .. }"
        if word_before == "pass" and here in (";", "}", "END"):
            return "what does nothing is skip"
        if here == "NAME":
            return "a variable is declared before the commands, as var NAME;"
        if here == "(":
            return CALL
        if here == ",":
            return "an assignment has one variable on its left side"
        if here in ("==", "+", "-") or (here, behind) == ("<", "-"):
            return ASSIGN
        return None
    if ":" in could or could == [";"]:
        return {",": "each variable has a var of its own", ":=": NO_VALUE, ";": ARRAY}.get(here)
    if before == ";" and here in ("}", "END"):
        return "a ; stands between two commands, and none behind the last one"
    if before == ";" and here == "else":
        return "no ; stands before else"
    if word in ("and", "or"):
        return AND if word == "and" else OR
    if word_before == "not" and here in ("NAME", "("):
        return NOT
    if (before, here) == ("NAME", "("):
        return CALL
    if "NUMBER" in could and here == "if":
        return CHOICE
    if (before, here) == (":", "["):
        return ARRAY
    if "+" in could and here in ("==", "!=", "<", "<=", ">", ">="):
        return "a comparison has two sides: multiply two, as (a < b) * (b < c)"
    if "NUMBER" in could and here == "-":
        return "a number has no sign: write 0 - 1 for -1"
    if "else" in could and word in ("elif", "elsif") or (before, here) == ("else", "if"):
        return "behind else stands a block: else { if .. then { .. } }"
    for key, opening in (("then", "an if"), ("do", "a while")):
        if key in could and (here in BEGINS or here in ("{", ":")):
            return f"behind the guard of {opening} stands {key}"
    if "{" in could and here in BEGINS:
        return "a body stands in braces: { .. }"
    if here == "var":
        return "all declarations stand before the first command"
    if ";" in could and here in BEGINS:
        return "between two commands stands a ;"
    return "a comment begins with //" if here == "/" else None


def byte_trap(byte, could):
    """The same of a byte with which no word begins."""
    if byte == "=":
        if ":=" in could or not could:
            return ASSIGN
        if "==" in could:
            return "equality is written =="
        return NO_VALUE if ":" in could or could == [";"] else None
    if byte in "\"'.":
        return "values are whole numbers"
    return {
        "!": NOT,
        "&": AND,
        "|": OR,
        "#": "a comment begins with //",
        "?": CHOICE,
    }.get(byte)


def byte_told(text):
    """The line of the byte with which a text begins."""
    if not text:
        return "found END\n"
    return f"found {chr(text[0])}\n" if 32 <= text[0] <= 126 else f"found byte {text[0]}\n"


def of_byte(text, line, column, tokens, parser):
    at = place_of(text, line, column)
    try:
        could = could_stand(tokens(text[:at])[:-1], parser) or []
    except Stop:
        could = []
    lines = marked(text, line, column) + byte_told(text[at:])
    if could:
        lines += expected(could)
    sentence = byte_trap(chr(text[at]), could)
    return lines + (sentence + "\n" if sentence else "")


def of_token(text, found, parser):
    reader = parser(found)
    try:
        reader.program()
    except Stop:
        number = reader.at
    could = could_stand(found[:number], parser)

    def one(number):
        if not 0 <= number < len(found):
            return "END", ""
        kind, value, place = found[number]
        at = place_of(text, *place)
        size = (
            len(value)
            if kind != "number"
            else next((k for k in range(len(text) - at) if not text[at + k : at + k + 1].isdigit()), len(text) - at)
        )
        return told(kind, value), text[at : at + size].decode("latin-1")

    here, word = one(number)
    short = word if len(word) <= 40 else word[:40] + ".."
    lines = marked(text, *found[number][2]) + f"found {'END' if here == 'END' else short}\n" + expected(could)
    sentence = trap(*one(number - 1), here, word, one(number + 1)[0], could)
    return lines + (sentence + "\n" if sentence else "")


def word_at(text, at):
    end = at
    while end < len(text) and (chr(text[end]).isascii() and chr(text[end]).isalnum() or text[end] == 95):
        end += 1
    return text[at:end].decode("ascii")


def distance(a, b):
    """How many letters are other ones, too much, missing or changed with their neighbour, from one word to the other; at most 2."""
    above, last = None, list(range(len(b) + 1))
    for i, x in enumerate(a, 1):
        row = [i]
        for j, y in enumerate(b, 1):
            row.append(min(last[j] + 1, row[j - 1] + 1, last[j - 1] + (x != y)))
            if i > 1 and j > 1 and x == b[j - 2] and a[i - 2] == y:
                row[j] = min(row[j], above[j - 2] + 1)
        above, last = last, row
    return min(last[-1], 2)


def label_places(pairs, declarations, commands):
    """The places of the names that stand for labels."""
    found = [name[2] for pair in pairs for name in pair] + [label[2] for _, _, label in declarations if label]
    for command in commands:
        names = [*(command.get("marks") or []), command.get("level")]
        found += [name[2] for name in names if name]
        for part in command["parts"]:
            found += label_places([], [], part)
    return found


def of_name(found, place, word, parser):
    """The lines on a name that is declared nowhere."""
    labels, pairs, declarations, body = parser(found).program()
    variables = [name for (_, name, _), _, _ in declarations]
    labels = ["L", "H"] if labels is None else [name for _, name, _ in labels]
    if place in label_places(pairs, declarations, body):
        head = "it is a variable, and no label\n" if word in variables else ""
        return head + "".join(["labels", *(f" {name}" for name in labels), "\n"])
    if word in labels:
        return "it is a label, and no variable\n"
    near = [name for name in variables if distance(name.lower(), word.lower()) <= 1]
    if not near:
        return "a variable is declared before the commands, as var NAME;\n"
    return "".join(["nearest", *(f" {name}" for name in near), "\n"])


def lines_on(line, text, tokens, parser):
    """The lines behind a line of `mitigate` that refuses a text."""
    what, _, place = line.removeprefix("syntax: ").partition(" at ")
    if what == "not UTF-8":
        return byte_told(text[int(place.removeprefix("byte ")) :]) + "a text is written in UTF-8\n"
    if what.startswith("too many variables"):
        return MANY + "\n"
    for name, sentence in LATTICE.items():
        if what.startswith(name):
            return sentence + "\n"
    row, column = map(int, place.split(":"))
    if what == "bad byte":
        return of_byte(text, row, column, tokens, parser)
    if what == "unexpected":
        return of_token(text, tokens(text), parser)
    if what == "too deep":
        return marked(text, row, column) + DEEP + "\n"
    word = word_at(text, place_of(text, row, column))
    short = word if len(word) <= 40 else word[:40] + ".."
    if what == "unknown name":
        return marked(text, row, column) + f"found {short}\n" + of_name(tokens(text), (row, column), word, parser)
    sentence = {
        "wide number": NUMBERS,
        "long name": f"a name has at most 32 bytes, and this one has {len(word)}",
        "name twice": "a name is declared once",
        "array size": SIZE,
        "wrong use of a name": MISUSE,
    }[what]
    return marked(text, row, column) + f"found {short}\n{sentence}\n"
