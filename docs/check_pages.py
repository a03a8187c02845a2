#!/usr/bin/env python3
"""Compares what the pages show with the crates.

    python3 docs/check_pages.py          at the repository's top; the status is 1 where something differs

- docs/CALLS.md has, alphabetically in each topic, a row for each public call of arrays and its `_mut`, `_move` and `_inplace` forms, with the file that it stands in (laws, and the parts that printing and operators are made of, are none), with the names of its arguments and its error, and no row for a
  call that isn't there; each test that it names stands. Of other libraries over arrays each call that is handed on stands in some row.
- A block of Rust that has a function stands in one file of a crate's src/, and a block of proofs whose first line names its
  file, as '-- proofs/..', in that file of a crate. A line '..' stands for any lines.
- A link to a file of the repository, and to a heading of a page, leads somewhere; a file or folder that is named as code is there, by the end of its path.
- Each name or path on a page that ends in `.rt` or `.antt` is the end of the path of a file that git lists, but for patterns and those of NO_FILES.
- Each clause that docs/PROMISES.md names stands at a function of that name, and each law of arrays is named there.
- docs/PROMISES.md has a row for each edit in must-fail/ and in tests/wrong_bodies/, and no other; each edit's text stands once in its file.
- Each call that a walk of docs/ARCHITECTURE.md begins a line with is a function of some crate, and stands in the file beside it.
- crates/README.md names each crate of crates.txt, and no other.
- README.md names the logic that `rt version` ends with, where there is an rt; docs/views.svg and docs/turned.svg are what docs/picture.py draws.
- No page of LONGEST has more lines than it says there.

Its first lines count: calls, blocks, links, clauses, edits and words; each line after them is something to mend.
"""

import glob
import os
import re
import shutil
import subprocess
import sys

PAGES = ["README.md", "docs/*.md", "crates/*.md", "crates/*/*.md"]
LONGEST = [("README.md", 120), ("crates/README.md", 60), ("crates/*/README.md", 60), ("docs/PROVING.md", 250)]
CALLED = ["nd_array_core", "nd_stacking"]
# Libraries whose calls docs/CALLS.md names in rows of several.
NAMED_IN_ROWS = ["nd_iter", "nd_linalg", "nd_numeric", "nd_paths"]
# What nd_array_core hands on from a library below.
HANDED_ON = ["crates/nd_elements/src/along/lane_mut.rt"]
WITH_BLOCKS = ["README.md", "crates/*/README.md", "crates/*/CALLING.md"]
BLOCK = re.compile(r"^```(rust|antt)\n(.*?)^```$", re.MULTILINE | re.DOTALL)
FUNCTION = re.compile(r"^\s*(pub )?(const )?fn ", re.MULTILINE)
NAMED = re.compile(r"-- (proofs/\S+)\n")
# Files that docs/TRIED.md names though there are none, since the checker refuses them.
NO_FILES = ["Ordered.antt", "proofs/Blocks.antt", "proofs/Divisors.antt", "proofs/Joined.antt", "proofs/Printed.antt"]
NO_FILES += ["specs/along.antt", "specs/along/Lib.antt", "specs/along/mod.antt", "src/blocks.rt"]
TEST = re.compile(r"`(tests_\w+)/(\w+(?:::\w+)*)::(\w+)`")
LINK = re.compile(r"\]\(([^)\s]+)\)")

OWNER = re.compile(r"^(?:impl\b|pub trait )[^{]*\{", re.MULTILINE)
METHOD = re.compile(r"^( *)(pub )?fn (\w+)", re.MULTILINE)
RESULT = re.compile(r"\s*->\s*Result<.*?, (\w+|\(usize, ArrayError\))>\s*(?:where\b|requires|ensures|\{|;)", re.DOTALL)
CALL = re.compile(r"`((?:\w+::)?\w+\([\w, ]*\))`")
ROW = re.compile(r"^\| (`(?:\w+::)?\w+\([\w, ]*\)`(?:, `(?:\w+::)?\w+\([\w, ]*\)`)*) \|([^|]*)\|([^|]*)\|[^|]*\|[^|]*\|([^|]*)\|", re.MULTILINE)


def read(path):
    with open(path, encoding="utf-8") as file:
        return file.read()


def paths(patterns):
    return sorted({path for pattern in patterns for path in glob.glob(pattern)})


# Calls


def behind(text, at, opens, closes):
    """The position behind the bracket that closes the one at this position; an arrow's head closes none."""
    depth = 0
    while True:
        if text[at] == opens:
            depth += 1
        elif text[at] == closes and text[at - 1] != "-":
            depth -= 1
        at += 1
        if depth == 0:
            return at


def owner_of(head):
    """The type of an `impl` or the trait, as the page names it; None of a trait's `impl`, whose calls the trait has."""
    if head.startswith("pub trait"):
        return re.match(r"pub trait (\w+)", head)[1] + "::"
    body = head[4:].strip()
    if body.startswith("<"):
        body = body[behind(body, 0, "<", ">") :].strip()
    if re.search(r"\bfor\b", body):
        return None
    name = re.match(r"\w+", body)[0]
    return "" if name == "ArrayBase" else name + "::"


def arguments(text):
    """The names of a list of parameters, without `self`."""
    names, at, start = [], 0, 0
    while at <= len(text):
        if at == len(text) or text[at] == ",":
            name = text[start:at].split(":")[0].split()
            if name and name[-1].lstrip("&") != "self":
                names.append(name[-1])
            start = at + 1
        elif text[at] in "(<":
            at = behind(text, at, text[at], ")" if text[at] == "(" else ">") - 1
        at += 1
    return names


def calls_of(path):
    """The public calls of a file: each as the page names it, and the error of its result."""
    text = read(path)
    heads = [(match.start(), match[0]) for match in OWNER.finditer(text)]
    for match in METHOD.finditer(text):
        head = next((head for at, head in reversed(heads) if at < match.start()), "") if match[1] else ""
        owner = owner_of(head) if head else ""
        if owner is None or not (match[2] or head.startswith("pub trait")):
            continue
        at = match.end()
        at = behind(text, at, "<", ">") if text[at] == "<" else at
        end = behind(text, at, "(", ")")
        result = RESULT.match(text, end)
        error = result[1] if result and result[1] != "Self" else ""
        yield f"{owner}{match[3]}({', '.join(arguments(text[at + 1 : end - 1]))})", error


def check_calls():
    page = read("docs/CALLS.md")
    arrays = page.split("\n## Traits of arrays")[0]
    rows, wrong, files = {}, [], {}
    for cell, _, error, file in ROW.findall(arrays):
        for call in CALL.findall(cell):
            if call in rows:
                wrong.append(f"docs/CALLS.md: two rows of `{call}`")
            rows[call], files[call] = error.strip(" `"), file
    for table in arrays.split("\n## "):
        names = [re.sub(r"^`(\w+::)?|_(mut|move|inplace)$", "", cell.split("(")[0]).lower() for cell, *_ in ROW.findall(table)]
        wrong += [f"docs/CALLS.md: {after} comes after {before}" for before, after in zip(names, names[1:]) if after < before]
    calls, stands = {}, {}
    for path in [path for crate in CALLED for path in glob.glob(f"crates/{crate}/src/**/*.rt", recursive=True)] + HANDED_ON:
        if not path.endswith(("/laws.rt", "/arithmetic/operations.rt")) and "/printing/" not in path:
            found = dict(calls_of(path))
            calls.update(found)
            stands.update({call: path.split("/src/")[1].removesuffix(".rt") for call in found})
    wrong += [f"docs/CALLS.md: no row of `{call}`" for call in calls if call not in rows]
    wrong += [f"docs/CALLS.md: there is no `{call}`" for call in rows if call not in calls]
    wrong += [f"docs/CALLS.md: the error of `{call}` is {error or 'none'}" for call, error in calls.items() if rows.get(call, error) != error]
    wrong += [f"docs/CALLS.md: `{call}` stands in {stands[call]}" for call in calls if call in rows and f"{stands[call]}`" not in files[call]]
    for crate, module, test in sorted(set(TEST.findall(page))):
        path = f"crates/{crate}/src/{module.replace('::', '/')}.rt"
        if not os.path.exists(path) or not re.search(rf"fn {test}[(<]", read(path)):
            wrong.append(f"docs/CALLS.md: {path} has no test {test}")
    print(f"{len(calls)} calls of arrays, {len(rows)} rows")
    return wrong


def check_calls_above():
    """Each call that a library over arrays hands on, by its name in the first cell of a row."""
    cells = re.findall(r"^\| ([^|]*) \|", read("docs/CALLS.md"), re.MULTILINE)
    named = {name for cell in cells for code in re.findall(r"`([^`]*)`", cell) for name in re.findall(r"\w+", code.split("(")[0])}
    wrong, count = [], 0
    for crate in NAMED_IN_ROWS:
        handed_on = set(re.findall(r"\w+", " ".join(re.findall(r"pub use [^;]+;", read(f"crates/{crate}/src/lib.rt")))))
        for path in glob.glob(f"crates/{crate}/src/**/*.rt", recursive=True):
            for call, _ in calls_of(path):
                owner, _, name = call.split("(")[0].rpartition("::")
                if (owner or name) in handed_on:
                    count += 1
                    wrong += [] if name in named else [f"docs/CALLS.md: no row of `{call}` of {crate}"]
    print(f"{count} calls of libraries over arrays")
    return wrong


# Blocks


def stands_in(text, block):
    """Whether the block's pieces between lines '..' stand in the text, one after another, each as whole lines."""
    at = 0
    for piece in re.split(r"(?m)^[ \t]*\.\.\n", block):
        found = ("\n" + text).find("\n" + piece, at)
        if found < 0:
            return False
        at = found + len(piece)
    return True


def files_for(kind, block):
    """Where the block may stand, and what of it; None where the page doesn't say that it stands anywhere."""
    if kind == "rust":
        return (glob.glob("crates/*/src/**/*.rt", recursive=True), block) if FUNCTION.search(block) else None
    named = NAMED.match(block)
    return (glob.glob("crates/*/" + named[1]), block[named.end() :]) if named else None


def check_blocks():
    count, wrong = 0, []
    for page in paths(WITH_BLOCKS):
        text = read(page)
        for match in BLOCK.finditer(text):
            place = files_for(match[1], match[2])
            if place is None:
                continue
            count += 1
            if not any(stands_in(read(path), place[1]) for path in place[0]):
                line = text.count("\n", 0, match.start()) + 1
                wrong.append(f"{page}:{line}: no file has this block")
    print(f"{count} blocks")
    return wrong


# Links and clauses


def anchors(page):
    """The names by which a page's headings are reached."""
    heads = re.findall(r"^#+ (.*)$", read(page), re.MULTILINE)
    return {re.sub(r"[^\w -]", "", head).strip().lower().replace(" ", "-") for head in heads}


def check_links():
    count, wrong = 0, []
    for page in paths(PAGES):
        for link in LINK.findall(read(page)):
            if link.startswith(("http:", "https:")):
                continue
            count += 1
            name, _, head = link.partition("#")
            target = os.path.normpath(os.path.join(os.path.dirname(page), name)) if name else page
            if not os.path.exists(target):
                wrong.append(f"{page}: {link} leads nowhere")
            elif head and head not in anchors(target):
                wrong.append(f"{page}: {target} has no heading {head}")
    print(f"{count} links")
    return wrong


def clauses_by_function():
    """The clauses that stand at some function of a name, in any crate's src/."""
    found = {}
    for path in glob.glob("crates/*/src/**/*.rt", recursive=True):
        name = ""
        for line in read(path).splitlines():
            function = re.match(r"\s*(?:pub(?:\([a-z]+\))? )?(?:const )?fn (\w+)", line)
            name = function[1] if function else name
            clause = re.match(r"\s*ensures\*? (\w+) ", line)
            if clause:
                found.setdefault(name, set()).add(clause[1])
    return found


FILE = re.compile(r"(?:\.\./)*([\w+./-]+(?:\.(?:rs|py|sh|txt|md|edit)|/))")


def check_named_files():
    """Each file or folder that a page names as code, by the end of its path; a name with a capital word, as CRATE, is a pattern."""
    there = {f"/{os.path.relpath(os.path.join(folder, name))}" for folder, _, names in os.walk(".") if "/out" not in folder for name in names}
    there |= {f"{os.path.dirname(path)}/" for path in there} | {f"{os.path.dirname(os.path.dirname(path))}/" for path in there}
    wrong, named = [], set()
    for page in paths(PAGES):
        for code in re.findall(r"`([^`\n]+)`", read(page)):
            found = FILE.fullmatch(code)
            if found and not re.search(r"\b[A-Z]{4,}", code) and (page, code) not in named:
                named.add((page, code))
                wrong += [] if any(path.endswith(f"/{found[1]}") for path in there) else [f"{page}: there is no {code}"]
    print(f"{len(named)} files named")
    return wrong


RATTLE_FILE = re.compile(r"(?:\.{1,2}/)*([\w.+/-]+\.(?:rt|antt))\b(?!\.\w)")
PATTERN = re.compile(r"\.\.|(?:^|/)\+?[A-Z]+(?:_\w+)?[/.]")


def check_rattle_files():
    """Each file of Rattle that a page names, as code or not; a name with '..', or with a part in capitals, as M or +FN, is a pattern."""
    listed = subprocess.run(["git", "ls-files"], check=True, capture_output=True, text=True).stdout.splitlines()
    ends = {path[at:] for path in listed for at in range(len(path)) if at == 0 or path[at - 1] == "/"}
    named = sorted({(page, name) for page in paths(PAGES) for name in RATTLE_FILE.findall(read(page)) if not PATTERN.search(name)})
    print(f"{len(named)} files of Rattle named")
    return [f"{page}: git lists no file {name}" for page, name in named if name not in ends and name not in NO_FILES]


def check_clauses():
    """In PROMISES.md '`call`, `other`: `clause`, `clause`' names clauses that each of these calls has, but for those in brackets."""
    found, count, wrong = clauses_by_function(), 0, []
    names = r"`[\w=]+`(?: and its kin)?"
    said = re.compile(rf"((?:{names}, )*{names}): ((?:`\w+`, )*`\w+`)")
    for line in read("docs/PROMISES.md").splitlines():
        for calls, clauses in said.findall(line) if line.startswith("|") else ():
            for call in re.findall(r"`(\w+)`", calls):
                for clause in re.findall(r"`(\w+)`", clauses):
                    count += 1
                    if call in found and clause not in found[call]:
                        wrong.append(f"docs/PROMISES.md: `{call}` has no clause `{clause}`")
                    elif call not in found:
                        wrong.append(f"docs/PROMISES.md: there is no `{call}`")
    print(f"{count} clauses")
    laws = re.findall(r"^pub fn (\w+)", read("crates/nd_array_core/src/laws.rt"), re.MULTILINE)
    return wrong + [f"docs/PROMISES.md: no law `{law}`" for law in laws if f"`{law}`" not in read("docs/PROMISES.md")]


def edit_fault(crate, edit):
    """Returns why an edit can't be applied to its crate, if it can't."""
    lines = [line.split(": ", 1) for line in edit.splitlines() if line.startswith(("file: ", "old: ", "new:"))]
    if not lines or lines[0][0] != "file" or not os.path.isfile(f"crates/{crate}/{lines[0][1]}"):
        return "names no file of its crate"
    text = read(f"crates/{crate}/{lines[0][1]}")
    for (_, old), new in zip(lines[1::2], lines[2::2]):
        if text.count(old) != 1:
            return f"`{old.strip()}` stands {text.count(old)} times"
        text = text.replace(old, new[1] if len(new) > 1 else "")
    return None


def check_edits():
    rows = re.findall(r"^\| `(\w+/\w+)` \|", read("docs/PROMISES.md"), re.MULTILINE)
    paths_of = {}
    for path in glob.glob("crates/*/must-fail/*.edit") + glob.glob("tests/wrong_bodies/*/*.edit"):
        crate = path.split("/")[1 if path.startswith("crates") else 2]
        paths_of[f"{crate}/{os.path.basename(path)[:-5]}"] = path
    print(f"{len(paths_of)} edits")
    wrong = [f"docs/PROMISES.md: no row of the edit {edit}" for edit in sorted(paths_of) if edit not in rows]
    wrong += [f"docs/PROMISES.md: there is no edit {row}" for row in rows if row not in paths_of or rows.count(row) > 1]
    faults = {path: edit_fault(edit.split("/")[0], read(path)) for edit, path in sorted(paths_of.items())}
    return wrong + [f"{path} {fault}" for path, fault in faults.items() if fault]


WALK = re.compile(r"^```text\n(.*?)^```$", re.MULTILINE | re.DOTALL)


def check_walks():
    """A line of a walk: calls with commas between them, and after two blanks or more the file where the first stands, if it is told."""
    texts = {path: read(path) for path in glob.glob("crates/*/src/**/*.rt", recursive=True)}
    count, wrong = 0, []
    for line in [line for walk in WALK.findall(read("docs/ARCHITECTURE.md")) for line in walk.splitlines()]:
        first, _, rest = line.strip().partition("  ")
        calls = [call.split("::")[-1] for call in re.sub(r"^.*: |, of the storage$", "", first).split(", ")]
        if not all(re.fullmatch(r"\w+", call) for call in calls):
            continue
        file = re.match(r"\s*(\w+/src/[\w/]+\.rt)", rest)
        there = [f"crates/{file[1]}"] if file else list(texts)
        count += len(calls)
        wrong += [f"docs/ARCHITECTURE.md: {path} isn't there" for path in there if path not in texts]
        places = [path for path in there if re.search(rf"fn {calls[0]}\b", texts.get(path, ""))]
        wrong += [] if places else [f"docs/ARCHITECTURE.md: no function {calls[0]} in {file[1] if file else 'any crate'}"]
        everywhere = "".join(texts.values())
        wrong += [f"docs/ARCHITECTURE.md: no function {call}" for call in calls if not re.search(rf"fn {call}\b", everywhere)]
    print(f"{count} calls in walks")
    return wrong


def check_crates():
    listed = set(re.findall(r"^(\w+)[^:\n]*:", read("crates.txt"), re.MULTILINE))
    named = set(re.findall(r"`((?:tests_)?(?:uses_)?nd_\w+)`", read("crates/README.md")))
    print(f"{len(listed)} crates")
    wrong = [f"crates/README.md doesn't name {crate}" for crate in sorted(listed - named)]
    return wrong + [f"crates/README.md names {crate}, which isn't in crates.txt" for crate in sorted(named - listed)]


def check_versions():
    wrong = []
    if shutil.which("rt"):
        logic = subprocess.run(["rt", "version"], check=True, capture_output=True, text=True).stdout.split()[-1]
        wrong += [] if f"`{logic}`" in read("README.md") else [f"README.md doesn't name the logic `{logic}`"]
    drawn = subprocess.run([sys.executable, "docs/picture.py", "--check"], capture_output=True, text=True)
    return wrong + ([drawn.stderr.strip()] if drawn.returncode else [])


def check_lengths():
    wrong = []
    for pattern, most in LONGEST:
        for page in glob.glob(pattern):
            lines = read(page).count("\n")
            wrong += [f"{page} has {lines} lines, and {most} are the most"] if lines > most else []
    words = sum(len(read(page).split()) for page in paths(PAGES))
    print(f"{words} words")
    return wrong


def main():
    checks = [check_calls, check_calls_above, check_blocks, check_links, check_named_files, check_rattle_files, check_clauses, check_edits, check_walks, check_crates, check_versions, check_lengths]
    wrong = [line for check in checks for line in check()]
    for line in wrong:
        print(line)
    return 1 if wrong else 0


if __name__ == "__main__":
    sys.exit(main())
