#!/usr/bin/env python3
"""Gives the program scripts with one line spliced and mutated, and compares with the grammar of a line, as `reading.py` reads it.

    crates/nd_script/random/fuzz.py [COUNT [SEED [PROGRAM]]]

Where the grammar says that the line is bad, the program must write its number alone, with status 1; else it must not call any line
bad, and where the model of `compare.py` has an answer it must write that.
"""

import functools
import sys

from compare import built, counted, expected, run_by
from meaning import TooLarge
from reading import STEPS, Line, read_script
from writing import Writer

WORDS = [*STEPS, *"start keep ask write split shape elements get first last equal count reshape fill assign set swap".split()]
WORDS += "append push reserve select removeindex concat stack row col s i n / _ - + 0 -0 00 007 1 -1 2 33 4294967296".split()
WORDS += "9223372036854775807 9223372036854775808 -9223372036854775808 -9223372036854775809".split()
WORDS += "18446744073709551615 18446744073709551616 99999999999999999999999 0x1 1e3 1_0 KEEP row/ //".split()
BYTES = b" \t\r\x00\x0b\x0c\x1c\x85\xa0\xff-+_/0123456789aceiknrsw"


class Fuzzer(Writer):
    """Writes scripts of some good lines and one that was made of good ones."""

    def line(self):
        start = Line(self.array(self.lengths(3)).split()).array()
        return (self.call(start) if self.random.random() < 0.9 else f"start {self.array(self.lengths(3))}").encode()

    def spliced(self, line):
        """The front of a line and the end of another, parted at a byte or at a word."""
        other = self.line()
        if self.is_rare(0.5):
            return line[: self.random.randrange(len(line) + 1)] + other[self.random.randrange(len(other) + 1) :]
        front, end = line.split(), other.split()
        return b" ".join(front[: self.random.randrange(len(front) + 1)] + end[self.random.randrange(len(end) + 1) :])

    def with_words(self, line):
        """A word or two taken out, exchanged, put in or written twice."""
        words = line.split() or [b"0"]
        for _ in range(self.random.randrange(1, 3)):
            at = self.random.randrange(len(words))
            new = self.random.choice([self.random.choice(WORDS).encode(), self.random.choice(words)])
            words[at : at + self.random.randrange(2)] = [new] * self.random.choice([0, 1, 1, 1, 2])
            words = words or [b"0"]
        return b" ".join(words)

    def with_bytes(self, line):
        """A byte or two taken out, exchanged, put in or written many times; a blank may become another one."""
        line = bytearray(line or b"0")
        for _ in range(self.random.randrange(1, 4)):
            at = self.random.randrange(len(line))
            new = self.random.choice([self.random.choice(BYTES), self.random.randrange(256), line[at]])
            if new != ord("\n"):
                line[at : at + self.random.randrange(2)] = bytes([new]) * self.random.choice([0, 1, 1, 1, 2, 20])
            line = line or bytearray(b"0")
        return bytes(line)

    def fuzzed(self):
        start = f"start {self.array(self.lengths(3))}".encode()
        lines = [start, *(self.line() for _ in range(self.random.randrange(3)))]
        at = self.random.randrange(len(lines) + 1)
        line = lines[at] if at < len(lines) else self.line()
        for change in (self.spliced, self.with_words, self.with_bytes):
            line = change(line) if self.is_rare(0.5) else line
        lines[at : at + 1] = [line]
        return b"\n".join(lines + [b""] * (not self.is_rare(0.1)))


def fuzz(program, writer):
    """Whether the line was read or bad, and `differs` where program and grammar differ."""
    fuzzer = Fuzzer(writer.random)
    text = fuzzer.fuzzed()
    start, number = read_script(text)
    written = run_by(program, text)
    if start is None:
        agrees = written == (f"bad line {number}\n", 1)
    else:
        agrees = written[0].endswith("out of memory\n") and written[1] == 2 or agrees_with_model(text, written)
    if not agrees:
        print(f"{text!r}\ngot {written}")
    return ["bad" if start is None else "read", *["differs"] * (not agrees)]


def agrees_with_model(text, written):
    try:
        return written == expected(text)
    except TooLarge:
        return written[1] == 0


def main(count=100000, seed=1, program=None):
    found = counted(program or built(), fuzz, int(count), seed)
    print(f"{found['compared']} lines: {found['read']} read, {found['bad']} bad, {found['differs']} differ")
    return 1 if found["differs"] else 0


if __name__ == "__main__":
    sys.exit(main(*sys.argv[1:]))
