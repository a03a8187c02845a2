#!/usr/bin/env python3
"""Lists the clauses of public functions, trait methods among them, that are longer than 120 columns.

    python3 docs/long_clauses.py [WORD..]      at the repository's top; its last line is 'N clauses are longer'

Leading blanks don't count, and of a clause over several lines the longest line does. Words narrow it down to the files whose
path has one of them; with --all the clauses of private functions are listed too. Why those that are left stay, is in
docs/DECISIONS.md.
"""

import glob
import re
import sys

LIMIT = 120
FILES = "crates/*/src/**/*.rt"
OTHERS = re.compile(r"crates/(tests_|uses_|nd_test_arrays/)")
FUNCTION = re.compile(r"\s*(pub )?(?:pub\([a-z]+\) )?(?:const )?fn (\w+)")
BLOCK = re.compile(r"(?:pub )?(trait|impl)\b")
CLAUSE = re.compile(r"\s*(?:requires|ensures)\b")


def clauses(lines):
    """Each clause with the number of its line, its function, and whether a caller in another crate reads it."""
    of_trait, name, public = False, "", False
    for at, line in enumerate(lines):
        block = BLOCK.match(line)
        if block:
            head = " ".join(lines[at : at + 3]).split("{")[0]
            of_trait = block[1] == "trait" or " for " in head
        function = FUNCTION.match(line)
        if function:
            name = function[2]
            public = function[1] is not None or (of_trait and line.startswith(" "))
        if CLAUSE.match(line):
            end = at + 1
            while "".join(lines[at:end]).count("{") > "".join(lines[at:end]).count("}"):
                end += 1
            yield at + 1, name, public, [text.strip() for text in lines[at:end]]


def main():
    words = [word for word in sys.argv[1:] if word != "--all"]
    count = 0
    for path in sorted(glob.glob(FILES, recursive=True)):
        if OTHERS.match(path) or (words and not any(word in path for word in words)):
            continue
        with open(path, encoding="utf-8") as file:
            lines = file.read().splitlines()
        for line, name, public, clause in clauses(lines):
            longest = max(map(len, clause))
            if longest > LIMIT and (public or "--all" in sys.argv):
                count += 1
                print(f"{path}:{line}: {name}, {longest} columns: {' '.join(clause)}")
    print(f"{count} clauses are longer")


if __name__ == "__main__":
    main()
