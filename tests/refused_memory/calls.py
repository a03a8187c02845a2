"""Calls of arrays whose requests for memory and whose clones are refused in turn, and how each must end, from calls.txt."""

import pathlib
import re

# No call here makes more clones.
MOST_CLONES = 9
SIGNATURE = re.compile(r"^ *pub fn (\w+)(.*?)(?=^ *(?:requires|ensures|where|\{)| \{$)", re.MULTILINE | re.DOTALL)


def tests():
    """The calls of calls.txt: a name, and after it lines of what is told."""
    found = []
    for line in (pathlib.Path(__file__).parent / "calls.txt").read_text().splitlines():
        if line.startswith("    "):
            kind, told = line.strip().split(": ", 1)
            found[-1].ends[kind] = told
        elif line and not line.startswith("#"):
            found.append(Call(line))
    return found


def without_a_row(top, tests):
    """The public calls of arrays, of their sums and of their stacking that may lack memory, by their answers, and aren't among these tests."""
    may_lack = set()
    sources = (top / "crates" / crate / "src" for crate in ("nd_array_core", "nd_numeric", "nd_stacking"))
    for file in (file for source in sources for file in source.rglob("*.rt")):
        for name, rest in SIGNATURE.findall(file.read_text()):
            if re.search(r"-> (Option<)?Result<.*(NoMemory|ArrayError|AllocError)\)?>", rest, re.DOTALL):
                may_lack.add(name)
    return sorted(may_lack - {test.name for test in tests})


def fits(told, wanted):
    """Whether what is told is what is wanted, in which `1|9` stands for one of the two and `*` for any number."""
    parts = re.split(r"(\d+\|\d+|\*)", wanted)
    pattern = "".join(f"({part})" if "|" in part else r"\d+" if part == "*" else re.escape(part) for part in parts)
    return re.fullmatch(pattern, told) is not None


class Call:
    HEAD = ["| call | requests refused | clones refused | numbers dropped, each once |", "|---|--:|--:|--:|"]

    def __init__(self, name):
        self.name, self.ends = name, {}
        self.requests = self.clones = self.dropped = 0
        self.faults = []

    def counting(self):
        """Inputs that leave the call out and make it: their requests tell those of the call."""
        return {f"{self.name}.{what}": f"{self.name} {what} 0\n".encode() for what in ("left", "made")}

    def refusing(self, counted, refused):
        """Inputs that refuse each of its requests, then none, and that refuse each of its clones, where this request is refused."""
        before, whole = (counted[f"{self.name}.{what}"][2] for what in ("left", "made"))
        self.requests = whole - before
        found = {f"{self.name}.clones": f"{self.name} clones {MOST_CLONES}\n".encode()}
        for nth in range(1, self.requests + 2):
            found[f"{self.name}.request{nth}"] = f"{self.name} made {refused - before - nth}\n".encode()
        return found

    def wanted(self, kind, nth, most):
        """What is to be told where the n-th request or clone is refused, of so many."""
        kinds = (f"{kind} {nth}", kind, "refused") if nth <= most else ("done",)
        return next((self.ends[name] for name in kinds if name in self.ends), "a call that isn't refused")

    def look_at(self, what, told, wanted):
        """Tells a fault where what is told isn't wanted, or a number is left. The numbers that were made are dropped."""
        told, _, made = told.rpartition("; made ")
        numbers, _, left = made.partition(", ")
        if fits(told, wanted) and left == "0 left":
            self.dropped += int(numbers)
        else:
            self.faults.append(f"{what}: wanted {wanted}; 0 left\n    got {told}; {left}")

    def judge(self, ran):
        for nth in range(1, self.requests + 2):
            told = ran[f"{self.name}.request{nth}"][0].rstrip("\n")
            self.look_at(f"request {nth}", told, self.wanted("request", nth, self.requests))
        lines = ran[f"{self.name}.clones"][0].splitlines()
        self.clones = next((k for k, line in enumerate(lines) if line.startswith("done")), len(lines))
        for nth, line in enumerate(lines, 1):
            self.look_at(f"clone {nth}", line, self.wanted("clone", nth, self.clones))
        if len(lines) != MOST_CLONES + 1 or (len(self.ends) > 1) != (self.requests + self.clones > 0):
            self.faults.append("another number of refusals")

    def row(self):
        return f"| {self.name} | {self.requests} | {self.clones} | {self.dropped} |"
