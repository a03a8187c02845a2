#!/usr/bin/env python3
"""Refuses memory to the programs and to every call of an array that takes some: the first request for memory, then the second, and so
on until a run meets no refusal. Refuses clones too, to every call that clones: the first one, then the second, and so on.

    tests/refused_memory.py

A script whose n-th request is refused must write exactly the replies of the calls before the one that made the request, then
`out of memory`, with status 2; nothing before it where the request was made while the script was read or for the list of replies.
The run that meets no refusal must give the answer. Which call a request belongs to is counted: see scripts.py. The program nd_script
itself must write the same and end with the same status, with nothing refused and with its first request refused. A call must
end as calls.txt says, all that stays must be as it says, and every number must be dropped once. The program for `.npy` files, and the calls
on such files, must end as files.py says, and the program for pictures as pictures.py says. With nothing refused, nd_picture_program itself
must write its picture, and end with status 1 for one without its last sample. Prints a table of the scripts and one of the calls,
of those on a large table too, one of the files, one of the pictures, and last `N passed, M failed`. Nothing is proved here; it wants `rt`.
"""

import pathlib
import shutil
import subprocess
import sys
import tempfile

sys.dont_write_bytecode = True
sys.path.insert(0, str(pathlib.Path(__file__).parent / "refused_memory"))

import calls
import files
import large
import pictures
import scripts

TOP = pathlib.Path(__file__).resolve().parent.parent
# The request that is refused, counted over a whole run: more than any run here makes before it uses up what is left to it.
REFUSED = 200
# How many steps one of the two runners takes at most, which is slow: far more than any run on small arrays needs. A run on a large table ends
# by the other runner alone, and each step more that is tried there is lost time.
STEPS = 3_000_000


def copied_to(root):
    """The folder of the program of refused calls, in a copy of what it stands on."""
    names = [line.split(":")[0].split()[0] for line in open(TOP / "crates.txt") if line.strip() and line[0] != "#"]
    for name in names:
        for part in ("src", "specs"):
            if (TOP / "crates" / name / part).is_dir():
                shutil.copytree(TOP / "crates" / name / part, root / "crates" / name / part)
    program = root / "crates" / "refused_calls"
    (program / "src").mkdir(parents=True)
    for file in (TOP / "tests" / "refused_memory").glob("*.rt.txt"):
        shutil.copy(file, program / "src" / file.name.removesuffix(".txt"))
    line = "refused_calls: nd_numbers nd_shape_and_slice nd_array_core nd_numeric nd_stacking nd_run nd_text nd_npy_text nd_npy nd_npy_run nd_picture num_traits\n"
    (root / "crates.txt").write_text((TOP / "crates.txt").read_text() + line)
    return program


def run_all(program, inputs, refused, slow=(), arguments=()):
    """What the program writes for each input, its status and how many requests it made, where this request is refused; by both
    compilers, but for slow inputs, for which one of them alone is quick enough."""
    with tempfile.TemporaryDirectory() as folder:
        for name, text in inputs.items():
            pathlib.Path(folder, name).write_bytes(text)
        words = ["rt", "try", "--steps", str(STEPS), "--cases", folder, "--fail-alloc", str(refused)]
        words += ["--", *arguments] if arguments else []
        ran = subprocess.run(words, cwd=program, capture_output=True)
    ends, texts = ran.stderr.decode(errors="replace"), {}
    for line in ran.stdout.decode(errors="replace").splitlines(keepends=True):
        if line.startswith("== "):
            texts[line[3:-1]] = ""
        else:
            texts[list(texts)[-1]] += line
    found, requests = {}, 0
    for line in ends.splitlines():
        words = line.split()
        if words[:1] == ["allocations:"]:
            requests = int(words[-1])
        elif line.startswith("case=") and words[1] == "run=ended":
            name = words[0].removeprefix("case=")
            if int(words[3].removeprefix("runners=")) >= 2 - (name in slow):
                found[name] = (texts.get(name, ""), int(words[2].removeprefix("status=")), requests)
    lost = sorted(set(inputs) - set(found))
    if lost:
        sys.exit(f"no answer, or two that differ, of {' '.join(lost)}:\n{ends[-4000:]}")
    return found


def run_each(program, asked, refused):
    """What the program writes for the inputs of each test, by the names that the test gave them. All run at once, since the program is
    built anew for each time."""
    inputs = {f"{nth}.{name}": text for nth, (_, named) in enumerate(asked) for name, text in named.items()}
    slow = {f"{nth}.{name}" for nth, (test, named) in enumerate(asked) for name in named if isinstance(test, large.Large)}
    ran = run_all(program, inputs, refused, slow)
    return [{name: ran[f"{nth}.{name}"] for name in named} for nth, (_, named) in enumerate(asked)]


def refuse(program, tests):
    """Counts the requests of these tests, refuses each of them, and judges what came of it."""
    counted = run_each(program, [(test, test.counting()) for test in tests], 10**9)
    refusing = [(test, test.refusing(of_test, REFUSED)) for test, of_test in zip(tests, counted)]
    for test, ran in zip(tests, run_each(program, refusing, REFUSED)):
        test.judge(ran)


def told_by_main(program, tests):
    """Where the program itself writes something else for a script, or ends with another status: with nothing refused, and where its first
    request for memory is."""
    texts, faults = {test.name: test.text for test in tests}, []
    for refused in (10**9, 1):
        ran = run_all(program, texts, refused)
        for test in tests:
            wanted = test.expected(min(refused, test.whole + 1))
            if ran[test.name][:2] != wanted:
                faults.append(f"{test.name}: wanted {wanted}\n    got {ran[test.name][:2]}")
    return faults


def told_by_pictures(program):
    """Where the program for pictures itself writes something else than it should, or ends with another status: for the picture in its folder,
    and for that picture without its last sample, of which it writes nothing."""
    shown = TOP / "crates" / program.name
    picture = (shown / "stdin").read_bytes()
    inputs = {"whole": picture, "cut": picture.rstrip().rsplit(None, 1)[0] + b"\n"}
    ran = run_all(program, inputs, 10**9, slow=inputs, arguments=(shown / "args").read_text().split())
    wanted = {"whole": ((shown / "stdout").read_bytes().decode(errors="replace"), 0), "cut": ("", 1)}
    return [f"{name}: wanted {end}\n    got {ran[name][:2]}" for name, end in wanted.items() if ran[name][:2] != end]


def main():
    kinds = {scripts.Script: scripts.tests(TOP), calls.Call: calls.tests(), large.Large: large.tests(), files.File: files.tests()}
    kinds[pictures.Picture] = pictures.tests()
    with tempfile.TemporaryDirectory() as folder:
        program = copied_to(pathlib.Path(folder))
        refuse(program, [test for tests in kinds.values() for test in tests])
        told = told_by_main(program.parent / "nd_script", kinds[scripts.Script])
        told += told_by_pictures(program.parent / "nd_picture_program")
    for kind, tests in kinds.items():
        print("", *kind.HEAD, sep="\n")
        for test in tests:
            print(test.row(), *(f"  {fault}" for fault in test.faults), sep="\n")
    missing = calls.without_a_row(TOP, kinds[calls.Call])
    print("\nCalls that may lack memory and have no row:", *missing or ["none"])
    print("\nScripts and pictures that nd_script and nd_picture_program themselves end otherwise:", *told or ["none"], sep="\n  ")
    failed = [bool(test.faults) for tests in kinds.values() for test in tests] + [True] * len(missing) + [bool(told)]
    print(f"\n{failed.count(False)} passed, {failed.count(True)} failed")
    return 1 if any(failed) else 0


if __name__ == "__main__":
    sys.exit(main())
