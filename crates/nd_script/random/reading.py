"""A script's text as calls: tuples of a keyword and what follows it. Arrays are tables."""

import re
import sys

from table import Table, product

# A word may have any number of digits.
if hasattr(sys, "set_int_max_str_digits"):
    sys.set_int_max_str_digits(0)

MOST_AXES = 32
STEPS = "cut slice collapse index permute reverse swapaxes invert insert remove squeeze diag broadcast".split()


class BadLine(Exception):
    """The line can't be read whole."""


def has_checked_size(lengths):
    """Whether the product of the lengths other than 0 is at most the greatest isize."""
    return product(length for length in lengths if length) < 2**63


class Line:
    """The words of a line, read from the front."""

    def __init__(self, words):
        self.words = words

    def word(self):
        if not self.words:
            raise BadLine
        word, self.words = self.words[0], self.words[1:]
        return word

    def slash(self):
        if self.word() != "/":
            raise BadLine

    def natural(self):
        word = self.word()
        if not re.fullmatch("[0-9]+", word, re.ASCII) or int(word) >= 2**64:
            raise BadLine
        return int(word)

    def integer(self, word=None):
        word = word or self.word()
        if not re.fullmatch("-?[0-9]+", word, re.ASCII) or not -(2**63) <= int(word) < 2**63:
            raise BadLine
        return int(word)

    def end(self):
        """An end of a slice: None where it is missing."""
        word = self.word()
        return None if word == "_" else self.integer(word)

    def many(self, count, read):
        if count > len(self.words):
            raise BadLine
        return [read() for _ in range(count)]

    def list(self):
        return self.many(self.natural(), self.natural)

    def array(self):
        ndim = self.natural()
        if ndim > MOST_AXES:
            raise BadLine
        lengths = self.many(ndim, self.natural)
        if not has_checked_size(lengths):
            raise BadLine
        elements = self.many(product(lengths), self.integer)
        return Table(lengths, elements)

    def order(self):
        return self.one_of({"row": "row", "col": "col"})

    def one_of(self, table):
        word = self.word()
        if word not in table:
            raise BadLine
        return table[word]

    def slice_element(self):
        kind = self.one_of({"s": "slice", "i": "index", "n": "new"})
        if kind == "slice":
            return kind, self.integer(), self.end(), self.integer()
        return (kind, self.integer()) if kind == "index" else (kind,)

    def step(self):
        name, nat = self.word(), self.natural
        if name not in STEPS:
            raise BadLine
        if name == "cut":
            return name, nat(), self.integer(), self.end(), self.integer()
        if name == "slice":
            return name, self.many(nat(), self.slice_element)
        if name in ("collapse", "index", "swapaxes"):
            return name, nat(), nat()
        if name in ("permute", "broadcast"):
            return name, self.list()
        return (name, nat()) if name in ("invert", "insert", "remove") else (name,)

    def path(self):
        steps = []
        while self.words and self.words[0] in STEPS:
            steps.append(self.step())
            self.slash()
        return steps

    def question(self):
        name = self.word()
        if name in ("shape", "elements", "first", "last"):
            return (name,)
        if name == "get":
            return name, self.list()
        if name == "equal":
            return name, self.array()
        if name == "count":
            return name, self.integer()
        if name == "reshape":
            order = self.order()
            return name, self.list(), order
        raise BadLine

    def act(self):
        name = self.word()
        if name == "fill":
            return name, self.integer()
        if name == "assign":
            return name, self.array()
        if name == "set":
            return name, self.list(), self.integer()
        if name == "swap":
            return name, self.list(), self.list()
        raise BadLine

    def split(self):
        axis, index, first = self.natural(), self.natural(), self.act()
        self.slash()
        return "split", axis, index, first, self.act()

    def call(self):
        name = self.word()
        if name == "keep":
            return name, self.step()
        if name == "ask":
            return name, self.path(), self.question()
        if name == "write":
            return name, self.path(), self.act()
        if name == "split":
            return self.split()
        if name == "reshape":
            order = self.order()
            return name, self.list(), order
        if name in ("append", "push"):
            return name, self.natural(), self.array()
        if name in ("concat", "stack"):
            return name, self.natural(), self.many(self.natural(), self.array)
        if name in ("reserve", "removeindex"):
            return name, self.natural(), self.natural()
        if name == "select":
            return name, self.natural(), self.list()
        raise BadLine

    def start(self):
        if self.word() != "start":
            raise BadLine
        return self.array()

    def whole(self, read):
        found = read(self)
        if self.words:
            raise BadLine
        return found


def read_script(text):
    """The array and the calls of a script, or None and the number of the first bad line."""
    lines = text.decode("latin-1").split("\n")
    if lines[-1] == "":
        lines.pop()
    start, calls = None, []
    for number, line in enumerate(lines, 1):
        words = [word for word in re.split("[ \t\r]+", line) if word]
        try:
            if words and start is None:
                start = Line(words).whole(Line.start)
            elif words:
                calls.append(Line(words).whole(Line.call))
        except BadLine:
            return None, number
    return (start, calls) if start is not None else (None, len(lines) + 1)
