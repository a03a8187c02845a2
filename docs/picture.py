#!/usr/bin/env python3
"""Draws docs/views.svg: one list of numbers as an array, as its transpose, as a slice with a negative step, and as a broadcast;
and docs/turned.svg: the picture that the program of pictures is tried with, before its steps and after.

    python3 docs/picture.py          at the repository's top; writes the files, and with --check compares them

Of each view the indexes stand above and the one storage below; a line leads from each index to its place, which is the offset plus
each coordinate times its stride.
"""

import itertools
import sys

FILE, TURNED = "docs/views.svg", "docs/turned.svg"
PROGRAM = "crates/nd_picture_program"
PIXEL = 14
STORED = [10, 20, 30, 40, 50, 60]
CELL, ROW, GAP, TOP = 44, 30, 48, 96

# Of each view: its name, how a caller gets it, its lengths, its strides and its offset.
VIEWS = [
    ("the array a", "Array::from_shape_vec((2, 3), list)", (2, 3), (3, 1), 0),
    ("its transpose", "a.t()", (3, 2), (1, 3), 0),
    ("a slice with step -2", "a.slice_axis(Axis(1), Slice::new(0, None, -2))", (2, 2), (3, -2), 2),
    ("a broadcast of row 1", "a.row(1).broadcast((3, 3))", (3, 3), (0, 1), 3),
]
COLOURS = ["#1b6ca8", "#a8521b", "#2e7d32", "#7b3fa0"]
HEIGHT_OF_INDEXES = 3 * ROW


def text(x, y, words, size=13, fill="#222", anchor="middle", family="sans-serif"):
    words = words.replace("&", "&amp;").replace("<", "&lt;")
    return f'<text x="{x:g}" y="{y:g}" font-size="{size}" fill="{fill}" text-anchor="{anchor}" font-family="{family}">{words}</text>'


def box(x, y, width, height, fill, stroke):
    return f'<rect x="{x:g}" y="{y:g}" width="{width:g}" height="{height:g}" fill="{fill}" stroke="{stroke}"/>'


def places(lengths, strides, offset):
    """Each index with its place."""
    for index in itertools.product(*map(range, lengths)):
        yield index, offset + sum(i * s for i, s in zip(index, strides))


def formula(strides, offset):
    """The place of an index, written out."""
    sums = [f"{'-' if stride < 0 else '+'} {abs(stride)}{name}" for stride, name in zip(strides, "ij") if stride]
    return f"[i, j] lies at place {offset} " + " ".join(sums).replace(" 1", " ")


def panel(left, view, colour):
    """One view over the storage."""
    name, call, lengths, strides, offset = view
    width = len(STORED) * CELL
    middle, below = left + width / 2, TOP + HEIGHT_OF_INDEXES + 110
    parts = [text(middle, 30, name, 17, colour), text(middle, 52, call, 12, "#444", family="monospace")]
    parts.append(text(middle, 72, f"shape {list(lengths)}, strides {list(strides)}, offset {offset}", 12, "#444"))
    start = middle - lengths[1] * CELL / 2
    above = TOP + HEIGHT_OF_INDEXES - lengths[0] * ROW
    for (row, column), place in places(lengths, strides, offset):
        x, y = start + column * CELL, above + row * ROW
        parts.append(f'<path d="M {x + CELL / 2:g} {TOP + HEIGHT_OF_INDEXES:g} C {x + CELL / 2:g} {below - 50:g}, '
                     f'{left + (place + 0.5) * CELL:g} {below - 60:g}, {left + (place + 0.5) * CELL:g} {below:g}" '
                     f'fill="none" stroke="{colour}" stroke-opacity="{1 - 0.25 * row:g}"/>')
        parts.append(box(x, y, CELL, ROW, "white", colour))
        parts.append(text(x + CELL / 2, y + ROW / 2 + 5, str(STORED[place])))
    named = {place for _, place in places(lengths, strides, offset)}
    for place, element in enumerate(STORED):
        x = left + place * CELL
        parts.append(box(x, below, CELL, ROW, "#fff3c4" if place in named else "#f2f2f2", "#666"))
        parts.append(text(x + CELL / 2, below + ROW / 2 + 5, str(element), fill="#222" if place in named else "#999"))
        parts.append(text(x + CELL / 2, below + ROW + 16, str(place), 11, "#777"))
    parts.append(text(middle, below + ROW + 42, formula(strides, offset), 13, colour))
    return parts


def picture():
    wide = len(STORED) * CELL + GAP
    width, height = len(VIEWS) * wide + GAP, TOP + HEIGHT_OF_INDEXES + 110 + ROW + 60
    parts = [f'<svg xmlns="http://www.w3.org/2000/svg" width="{width}" height="{height}" viewBox="0 0 {width} {height}">']
    parts.append(box(0, 0, width, height, "white", "none"))
    for number, view in enumerate(VIEWS):
        parts += panel(GAP + number * wide, view, COLOURS[number])
    return "\n".join(parts + ["</svg>", ""])


def pixels(path):
    """The rows of a plain grey picture, and its maxval."""
    with open(path, encoding="ascii") as file:
        words = " ".join(line.partition("#")[0] for line in file).split()
    width, height, light = map(int, words[1:4])
    samples = list(map(int, words[4:]))
    return [samples[row * width : (row + 1) * width] for row in range(height)], light


def drawn(left, name, rows, light):
    """A picture, pixel by pixel, with its name above."""
    parts = [text(left + len(rows[0]) * PIXEL / 2, 24, name, 14, family="monospace")]
    for row, samples in enumerate(rows):
        for column, sample in enumerate(samples):
            shade = f"#{255 * sample // light:02x}" + 2 * f"{255 * sample // light:02x}"
            parts.append(box(left + column * PIXEL, 40 + row * PIXEL, PIXEL, PIXEL, shade, "#888"))
    return parts


def turned():
    before, light = pixels(f"{PROGRAM}/stdin")
    after, _ = pixels(f"{PROGRAM}/stdout")
    with open(f"{PROGRAM}/args", encoding="ascii") as file:
        steps = " ".join(file.read().split())
    wide = max(len(steps) * 9, len(after[0]) * PIXEL)
    second = GAP + len(before[0]) * PIXEL + GAP
    width, height = second + wide + GAP, 60 + max(len(before), len(after)) * PIXEL
    parts = [f'<svg xmlns="http://www.w3.org/2000/svg" width="{width}" height="{height}" viewBox="0 0 {width} {height}">']
    parts.append(box(0, 0, width, height, "white", "none"))
    parts += drawn(GAP, "before", before, light)
    parts += drawn(second + (wide - len(after[0]) * PIXEL) / 2, steps, after, light)
    return "\n".join(parts + ["</svg>", ""])


def main():
    for path, draw in [(FILE, picture), (TURNED, turned)]:
        if "--check" in sys.argv[1:]:
            with open(path, encoding="utf-8") as file:
                if file.read() != draw():
                    return f"{path} isn't what docs/picture.py draws"
        else:
            with open(path, "w", encoding="utf-8") as file:
                file.write(draw())
    return 0


if __name__ == "__main__":
    sys.exit(main())
