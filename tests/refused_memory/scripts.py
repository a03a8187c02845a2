"""Scripts whose requests for memory are refused in turn.

Which call a request belongs to is counted on scripts that are cut. A script whose lines after line k are left out makes the
requests of its text, of its lines, of the list of replies and of its calls; one with a bad line in their place those of its text and
its lines alone; one of blanks those of its text. All have as many bytes as the whole one, by blanks after it, or one byte more. A text
without bytes must make no request, and a line that counts more than its words none but those of the lines before it.
"""

BAD = b"x"
OUT_OF_MEMORY = "out of memory\n"


def tests(top):
    folder = top / "crates" / "nd_script" / "scripts"
    files = sorted(file for file in folder.iterdir() if file.suffix != ".stdout")
    return [Script(file.name, file.read_bytes(), (folder / f"{file.name}.stdout").read_text()) for file in files]


def run_with(text, used_up=0):
    """The program's input for a script, once so many requests are used up."""
    return b"script %d\n%s" % (used_up, text)


class Script:
    HEAD = [
        "| script | requests of the text | of its lines | of the replies' list | of each call | runs with a request refused |",
        "|---|--:|--:|--:|---|--:|",
    ]

    def __init__(self, name, text, wanted):
        self.name, self.text, self.wanted = name, text, wanted
        self.lines = text.splitlines(keepends=True)
        self.status = 1 if wanted.startswith("bad line") else 0
        self.calls = 0 if self.status else len(self.lines) - 1
        self.faults = []

    def cut(self, lines, after=b""):
        """The first lines of the script and what comes after them, as long as the whole."""
        return (b"".join(self.lines[:lines]) + after).ljust(len(self.text))

    def counting(self):
        found = {f"{self.name}.whole": self.text, f"{self.name}.blank": b" " * len(self.text)}
        found[f"{self.name}.longer"] = b" " * (len(self.text) + len(BAD))
        for lines in range(1, self.calls + 2):
            found[f"{self.name}.cut{lines}"] = self.cut(lines)
            found[f"{self.name}.bad{lines}"] = self.cut(lines, BAD)
        return {name: run_with(text) for name, text in found.items()}

    def count(self, counted):
        """How many requests are made in all, for the text, its lines, the list of replies and for each call."""

        def requests(what):
            return counted[f"{self.name}.{what}"][2]

        self.whole, self.of_text = requests("whole"), requests("blank")
        self.of_lines, self.of_list, self.of_calls = self.whole - self.of_text, 0, []
        if self.status:
            if self.name.startswith("bad_count") and self.whole != requests("bad1"):
                self.faults.append("a line whose count is bad makes a request")
            if not self.text and self.whole:
                self.faults.append("no text makes a request")
            return
        if self.of_text != requests("longer"):
            self.faults.append("one byte more takes another request: lengthen the script")
        self.of_lines = requests(f"bad{self.calls + 1}") - self.of_text
        self.of_list = 1 if self.calls else 0
        done = [requests(f"cut{k}") - requests(f"bad{k}") - (k > 1) for k in range(1, self.calls + 2)]
        self.of_calls = [later - earlier for earlier, later in zip(done, done[1:])]
        counted_in_parts = self.of_text + self.of_lines + self.of_list + sum(self.of_calls)
        if done[0] or counted_in_parts != self.whole or min(done) < 0:
            self.faults.append("the requests of its parts aren't those of the whole")

    def refusing(self, counted, refused):
        self.count(counted)
        return {f"{self.name}.{nth}": run_with(self.text, refused - nth) for nth in range(1, self.whole + 2)}

    def expected(self, nth):
        """What is to be written where this request is refused, and the status."""
        if nth > self.whole:
            return self.wanted, self.status
        ends = self.of_text + self.of_lines + self.of_list
        replies = 0
        for requests in self.of_calls:
            ends += requests
            replies += nth > ends
        return "".join(self.wanted.splitlines(keepends=True)[:replies]) + OUT_OF_MEMORY, 2

    def judge(self, ran):
        for nth in range(1, self.whole + 2):
            written, status, _ = ran[f"{self.name}.{nth}"]
            if (written, status) != self.expected(nth):
                self.faults.append(f"request {nth}: wanted {self.expected(nth)}\n    got {(written, status)}")

    def row(self):
        calls = " ".join(str(requests) for requests in self.of_calls) or "none"
        return f"| {self.name} | {self.of_text} | {self.of_lines} | {self.of_list} | {calls} | {self.whole} |"
