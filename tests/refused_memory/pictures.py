"""The program for pictures, whose requests for memory are refused in turn.

The program must then write the line `out of memory` to the errors, with status 2. Before that line nothing may stand where the image is read
whole, or where it goes row by row but no header was written; and row by row otherwise the header of the image that was due, and some of its
first rows. The run that meets no refusal must give the image. The bytes of an image are told in hexadecimal digits.
"""

import files

OUT_OF_MEMORY = "nd_picture_program: out of memory"
WIDTH, HEIGHT = 21, 9
ROWS, COLUMNS = range(HEIGHT), range(WIDTH)
# The program reads 4096 bytes to look for a header. With this comment in it, few rows are among them, and the others are read bit by bit.
COMMENT = "#" + "c" * 4050 + "\n"


def image(kind, sides, rows):
    """The lines of an image's header, and the bytes of each row."""
    return [f"{kind}\n{sides}\n".encode(), *map(bytes, rows)]


def pixel(row, column):
    return (row * 31 + column * 7) % 250


def packed(bits):
    """The bytes of a row of a bitmap, where 1 is black."""
    bits = bits + [0] * (-len(bits) % 8)
    return [int("".join(map(str, bits[at : at + 8])), 2) for at in range(0, len(bits), 8)]


GREY = image("P5", "21 9\n250", [[pixel(row, column) for column in COLUMNS] for row in ROWS])
FLOPPED = [GREY[0], *(row[::-1] for row in GREY[1:])]
TURNED = image("P5", "9 21\n250", [[pixel(HEIGHT - 1 - row, column) for row in ROWS] for column in COLUMNS])
COLOURS = image("P6", "21 9\n250", [[sample for column in COLUMNS for sample in (row, column, row)] for row in ROWS])
# The lightness as ppmtopgm weighs it, rounded: 77 parts of red, 150 of green and 29 of blue in 256.
LIGHT = image("P5", "21 9\n250", [[(77 * row + 150 * column + 29 * row + 128) // 256 for column in COLUMNS] for row in ROWS])
# Rows of four bytes, the last five bits of which are padding; two bytes are left of these.
BITS = [[(row * 3 + column * column // 3) % 2 for column in range(27)] for row in range(30)]
BITMAP = image("P4", "27 30", [packed(row) for row in BITS])
SCALED = image("P4", "14 15", [packed([1 - bit for bit in row[::2]]) for row in BITS[::2]])
DIGITS = [GREY[0].replace(b"P5", b"P2"), *(b"".join(b"%d\n" % sample for sample in row) for row in GREY[1:])]


def tests():
    """A name, the words, the image that is read, the image that is written, and whether it goes row by row."""
    return [
        Picture("by_rows", "flop", GREY, FLOPPED, True),
        Picture("by_rows_gray", "gray", COLOURS, LIGHT, True),
        Picture("by_rows_bitmap", "scale-down 2 invert", BITMAP, SCALED, True),
        Picture("by_rows_digits", "raw flop", DIGITS, FLOPPED, True),
        Picture("at_once", "rotate 90", GREY, TURNED, False),
    ]


class Picture(files.File):
    HEAD = ["| program for pictures | requests refused |", "|---|--:|"]

    def __init__(self, name, words, read, written, by_rows):
        read = read[0].replace(b"\n", b"\n" + COMMENT.encode(), 1) + b"".join(read[1:])
        super().__init__(name, words, read, b"".join(written).hex())
        firsts = [b"".join(written[:count]).hex() for count in range(1, len(written) + 1)] if by_rows else []
        self.before_refusal = {text + OUT_OF_MEMORY for text in ["", *firsts]}
        self.by_rows = by_rows

    def run_with(self, used_up):
        """The program's input, once so many requests are used up."""
        return b"picture %d\n%s\n%s" % (used_up, self.words.encode(), self.file)

    def judge(self, ran):
        some_rows = False
        for nth in range(1, self.whole + 2):
            text, status, _ = ran[f"{self.name}.{nth}"]
            text = text.rstrip("\n")
            good = (text in self.before_refusal, status) == (True, 2) if nth <= self.whole else (text, status) == (self.told, 0)
            some_rows |= status == 2 and len(text) > len(OUT_OF_MEMORY)
            if not good:
                self.faults.append(f"request {nth}: got {(text, status)}"[:400])
        if not self.whole:
            self.faults.append("no request")
        if some_rows != self.by_rows:
            self.faults.append(f"rows before a refusal: {some_rows}")
