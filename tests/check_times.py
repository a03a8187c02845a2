#!/usr/bin/env python3
"""tests/check_times.py [--tests] CRATE [MOST]

Prints where a check of a crate from nothing spent its time: seconds by kind of module, the MOST dearest functions and modules, and the MOST
dearest declarations by millions of the prover's steps, which don't change with the machine's load: a goal by its name, as Answers have
it, and beside it the searches that it took. Before it, in the crate's folder: `rm -rf out/incremental; rt check --jobs 1`, where no other
copy of the repository was checked on the machine (rt begins with what such a copy kept). The prover writes a file for each module as it ends
with it, so the time between two files is that of the second one; the first module and whatever is checked beside others can't be told so.

With --tests it first proves the crate with its tests anew, on one processor, and then prints where that check spent its time. Before it, `rt check` in a crate
above the libraries that the tests stand on, which builds them. A large crate is proved some functions at a time, in new processes: the module
with which such a process begins has the time of loading the libraries.

`Lts` takes time that isn't in steps. Of a function `Proof` is the search of its goals, where an answer that closes at once helps; `Lts` and
`Tie` are made of its body and of the contracts that it calls, where fewer calls, branches and type parameters help; `Answers` is what stands
in proofs/. `Goals` are the statements of what is answered there: a `requires` of a call takes long to state if the caller has many type
parameters, and a function of its own with fewer of them, which ensures it, takes next to nothing.
"""
import collections
import os
import pathlib
import re
import shutil
import subprocess
import sys

TOP = pathlib.Path(__file__).resolve().parent.parent
KINDS = "Proof Lts Tie Reads Answers Invariants Goals View Layout Given Kinds Met Statement Code Mir Named TheLink Key Symbol".split()


def kind_of(module):
    last = module.rpartition(".")[2]
    return last if last in KINDS else "definitions" if module.startswith("specs.") else "lemmas and others"


DECLARATION = re.compile(r'\[\{"aux".*?"toil":\[[^\]]*\]\}\]')
CALL = re.compile(r'\["(\w+)",\[\d+,\d+\],(\d+)\]')


def module_of(file):
    """The module that a file of kept work is of."""
    return re.sub(r"(\.decls)?\.oantt$", "", file).split("-", 2)[-1]


def declarations(kept):
    """Steps, module, name and searches of each declaration that kept work tells of."""
    for file in kept.rglob("*.decls.oantt"):
        for found in DECLARATION.findall(file.read_bytes().decode(errors="replace")):
            name = re.search(r'"name":"([^"]*)"', found)
            steps = re.search(r'"steps":\[([^\]]*)\]', found)
            if name and steps:
                took = sum(int(it) for it in steps[1].split(","))
                yield took, module_of(file.name), name[1], [f"{it} {int(of) / 1e6:.2f}" for it, of in CALL.findall(found) if int(of) > 20_000]


def stands_on():
    """The libraries that each crate stands on, by crates.txt."""
    lines = [line.split(":") for line in open(TOP / "crates.txt") if ":" in line and line[0] != "#"]
    return {before.split()[0]: after.split() for before, after in lines}


def below(crate, libraries):
    """The repository's own libraries below a crate, each once and lowest first."""
    found = []
    for name in libraries[crate]:
        if name in libraries:
            found += [it for it in [*below(name, libraries), name] if it not in found]
    return found


def prove_tests(crate, kept):
    """Proves a crate with its tests from nothing, and keeps what a check keeps."""
    kit, libraries = pathlib.Path(shutil.which("rt")).resolve().parent.parent, stands_on()
    shutil.rmtree(kept, ignore_errors=True)
    words = [kit / "bin" / "rattle", "check", "--test", "--crate-name", crate, "src/lib.rt", "-L", f"dependency={kit}/rlibs"]
    for name in below(crate, libraries):
        words += ["-L", f"dependency={TOP}/crates/{name}/out/rlib"]
    for name in ["std", *libraries[crate]]:
        folder = TOP / "crates" / name / "out" / "rlib" if name in libraries else kit / "rlibs"
        words += ["--extern", f"{name}={folder}/{name}.rlib"]
    words += ["--antt-project", kit / "rattle" / "logic" / "antt-project.json", "--logic-built", kit / "logic_built"]
    words += ["--links", f"{crate}=", "--jobs", "1", "--incremental", kept]
    ended = subprocess.run(words, cwd=TOP / "crates" / crate, capture_output=True, text=True)
    if ended.returncode:
        sys.exit(ended.stdout[-2000:] + ended.stderr[-2000:])


def function_of(module):
    """The function or the other item that a module belongs to."""
    parts = module.split(".")
    while len(parts) > 1 and parts[-1].split("-")[0] in KINDS:
        parts.pop()
    return ".".join(parts).removeprefix("specs.contracts.").removeprefix("proofs.")


def main():
    of_tests = "--tests" in sys.argv
    crate, *most = [word for word in sys.argv[1:] if word != "--tests"]
    most = int((most or ["30"])[0])
    kept = TOP / "crates" / crate / "out" / ("of_tests" if of_tests else "incremental")
    if of_tests:
        prove_tests(crate, kept)
    files = sorted((os.stat(file).st_mtime, file.name) for file in kept.rglob("*.oantt"))
    if not files:
        sys.exit(f"nothing is kept of {crate}: see the first lines of {sys.argv[0]}")
    seconds, count, modules = collections.Counter(), collections.Counter(), []
    for (before, _), (after, name) in zip(files, files[1:]):
        module = module_of(name)
        seconds[kind_of(module)] += after - before
        count[kind_of(module)] += 1
        modules.append((after - before, module))
    for kind, took in seconds.most_common():
        print(f"{took:8.1f} s {count[kind]:6d}  {kind}")
    print()
    functions = collections.Counter()
    for took, module in modules:
        functions[function_of(module)] += took
    for dearest in (functions.most_common(most), [(module, took) for took, module in sorted(modules, reverse=True)[:most]]):
        for name, took in dearest:
            print(f"{took:8.1f} s  {name}")
        print()
    for took, module, name, searches in sorted(declarations(kept), reverse=True)[:most]:
        print(f"{took / 1e6:8.2f} M  {module} {name} {' '.join(searches)}")


if __name__ == "__main__":
    main()
