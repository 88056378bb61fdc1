"""Random texts that are hardly programs, for try-random: cut ones, and ones whose words are changed."""
import re

WORD = re.compile(r"[A-Za-z][A-Za-z0-9_]*|[0-9]+|:=|[=!<>]=|//[^\n]*|[^ \t\r\n]")
KEYS = "labels order var skip if then else while do mitigate sleep".split()
SIGNS = ":= == != <= >= : ; , ( ) { } [ ] @ + - * / % < >".split()
NAMES = ["v0", "v1", "V0", "v", "l0", "h0", "i0", "a", "b", "x", "L", "H", "P", "T", "v0[0]", "x" * 32, "x" * 33]
NUMBERS = ["0", "1", "2", "100", "3000", "9223372036854775807", "9223372036854775808"]
# What one writes who knows other languages, and bytes with which no word begins.
MISTAKES = "= && || ! not and or for pass elif elsif += ++ -1 .. . # /* ? ' \" $ ~ ` \\ & | ^ int let return print not( f( //".split(" ")
DECLARED = ["var a, b;", "var z = 1;", "var z := 1;", "var z[0] : L;", "var z[2048] : L;", "var z;", "var z : [2];", "var v0;"]
BYTES = ["\x00", "\x7f", "\x80", "\xc3", "\xc3\xa9", "\xe2\x82\xac", "\xff", "\t", "\r"]


class TextMaker:
    """Changes texts of programs."""

    def __init__(self, dice):
        self.dice = dice

    def word(self):
        """A word that the language has, or one that it does not."""
        return self.dice.choice(self.dice.choice([KEYS, SIGNS, SIGNS, NAMES, NUMBERS, MISTAKES, DECLARED]))

    def like(self, word):
        """A word of the same kind, where it has one."""
        if word[0].isdigit():
            return self.dice.choice(NUMBERS)
        if word[0].isalpha():
            return self.dice.choice(KEYS if word in KEYS else NAMES)
        return self.dice.choice(SIGNS)

    def changed(self, text):
        """A text with one word left out, twice, put in, changed, or in the place of the next one."""
        spans = [match.span() for match in WORD.finditer(text)]
        if not spans:
            return self.word()
        number, kind = self.dice.randrange(len(spans)), self.dice.randrange(8)
        ends = [place for place, (begin, _) in enumerate(spans) if text[begin] == ";"]
        if kind == 0 and ends and self.dice.random() < 0.5:
            number = self.dice.choice(ends)
        begin, end = spans[number]
        before, here, behind = text[:begin], text[begin:end], text[end:]
        if kind == 0:
            return before + behind
        if kind == 1:
            return f"{before}{here} {here}{behind}"
        if kind == 2 and number + 1 < len(spans):
            after, last = spans[number + 1]
            return before + text[after:last] + text[end:after] + here + text[last:]
        if kind < 5:
            return before + self.dice.choice([f" {self.word()} ", f" {self.word()} {here}"]) + behind
        return f"{before} {self.like(here)} {behind}"

    def text(self, program):
        """A program's text that is cut, maybe with a word behind the cut, or in which some words or bytes are changed."""
        kind, at = self.dice.random(), self.dice.randrange(len(program) + 1)
        if kind < 0.4:
            return program[:at]
        if kind < 0.55:
            return program[: self.dice.choice([match.end() for match in WORD.finditer(program)])] + f" {self.word()}"
        if kind < 0.6:
            return program[:at] + self.dice.choice(BYTES) + program[at:]
        for _ in range(self.dice.choice([1, 1, 1, 2, 4])):
            program = self.changed(program)
        return program if self.dice.random() < 0.8 else program[: self.dice.randrange(len(program) + 1)]
