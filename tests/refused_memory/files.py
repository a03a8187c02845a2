"""The program for `.npy` files, and calls on such files, whose requests for memory are refused in turn.

The program must then write nothing but the line `out of memory` to the errors, with status 2, and a call must tell that there is no memory.
The run that meets no refusal must give the answer, of which the bytes of a file are told in hexadecimal digits.
"""

OUT_OF_MEMORY = "nd_npy_program: out of memory"


def npy(order, shape, numbers, size=4):
    """The file of an array of signed integers of so many bytes in version 1.0, as numpy writes it."""
    room = " " * (21 - len(str(shape[-1 if order else 0]))) if shape else ""
    text = "{'descr': '<i%d', 'fortran_order': %s, 'shape': %s, }%s" % (size, order, shape, room)
    text += " " * (64 - (11 + len(text)) % 64) + "\n"
    data = b"".join(number.to_bytes(size, "little") for number in numbers)
    return b"\x93NUMPY\x01\x00" + len(text).to_bytes(2, "little") + text.encode() + data


ROWS, COLUMNS = npy(False, (2, 3), [1, 2, 3, 4, 5, 6]), npy(True, (2, 3), [1, 4, 2, 5, 3, 6])
TURNED = npy(False, (3, 2), [4, 1, 5, 2, 6, 3])
# The means of the columns of ROWS, as numpy writes them: 2.5, 3.5 and 4.5.
MEANS = npy(False, (3,), [0x4004 << 48, 0x400C << 48, 0x4012 << 48], 8).replace(b"<i8", b"<f8")
LONG = npy(False, (40, 25), range(1000))


def tests():
    """A name, the words, the file that is read, and what is told where nothing is refused."""
    dict_of = TURNED[10:128].hex()
    return [
        File("steps", "invert 0 reverse", ROWS, TURNED.hex()),
        File("fortran", "reverse", COLUMNS, npy(False, (3, 2), [1, 4, 2, 5, 3, 6]).hex()),
        File("long", "", LONG, LONG.hex()),
        File("no_axes", "insert 0", npy(False, (), [7]), npy(False, (1,), [7]).hex()),
        File("describe", "describe invert 0 reverse", ROWS, dict_of),
        File("sum", "sum 0", ROWS, npy(False, (3,), [5, 7, 9], 8).hex()),
        File("mean", "mean 1 reverse", ROWS, MEANS.hex()),
        File("max", "max 0 select 1 2 2 0", COLUMNS, npy(False, (2,), [6, 4]).hex()),
        File("sum_of_none", "sum 1", npy(False, (0, 3), []), npy(False, (0,), [], 8).hex()),
        *(Call(name, file, told) for name, file, told in (
            ("read_npy", ROWS, "sum 21"),
            ("view_npy", ROWS, "items 6"),
            ("read_npy_from", LONG, "sum 499500"),
            ("npy_bytes", COLUMNS, ROWS.hex()),
            ("npy_bytes_in", ROWS, COLUMNS.hex()),
            ("write_npy", COLUMNS, COLUMNS.hex()),
        )),
    ]


class File:
    HEAD = ["| program for `.npy` files, or call | requests refused |", "|---|--:|"]
    REFUSED = OUT_OF_MEMORY

    def __init__(self, name, words, file, told):
        self.name, self.words, self.file, self.told = name, words, file, told
        self.whole, self.faults = 0, []

    def run_with(self, used_up):
        """The program's input, once so many requests are used up."""
        return b"npy %d\n%s\n%s" % (used_up, self.words.encode(), self.file)

    def before(self, counted):
        """How many requests were made before those that are to be refused."""
        return 0

    def counting(self):
        return {f"{self.name}.whole": self.run_with(0)}

    def refusing(self, counted, refused):
        before = self.before(counted)
        self.whole = counted[f"{self.name}.whole"][2] - before
        return {f"{self.name}.{nth}": self.run_with(refused - before - nth) for nth in range(1, self.whole + 2)}

    def judge(self, ran):
        for nth in range(1, self.whole + 2):
            wanted = (self.REFUSED, 2) if nth <= self.whole else (self.told, 0)
            text, status, _ = ran[f"{self.name}.{nth}"]
            if (text.rstrip("\n"), status) != wanted:
                self.faults.append(f"request {nth}: wanted {wanted}\n    got {(text, status)}"[:400])
        if not self.whole:
            self.faults.append("no request")

    def row(self):
        return f"| {self.name} | {self.whole} |"


class Call(File):
    """A call on the bytes of a file, or on the array that is read of them before."""

    REFUSED = "no memory"

    def __init__(self, name, file, told):
        super().__init__(name, f"call {name}", file, told)

    def counting(self):
        made = b"bytes" if self.name in ("read_npy", "view_npy", "read_npy_from") else b"array"
        return {**super().counting(), f"{self.name}.before": b"npy 0\ncall %s\n%s" % (made, self.file)}

    def before(self, counted):
        return counted[f"{self.name}.before"][2]
