"""Draws the ratios that orders.py measured: a grid of numbers on a ground from blue, where this library is faster, to red."""

FONT, CHARACTER, LINE = 9, 5.42, 14
BOUNDS = [(0.5, "#7fb8e6"), (0.8, "#aed4f0"), (0.995, "#dcedf8"), (1.1, "#f4f4f4"), (1.3, "#fde3cf"), (2, "#f9b98b"), (float("inf"), "#ef8a6b")]
CAPTION = "Blue: this library is faster; red: it is slower. F is column-major order, back every second row and column from the last ones back; 021 names axes as they lie, the nearest last."
CELL, GAP, MARGIN = 5, 2, 14  # Characters of a number, and between groups; units around all.
OVER = {"plain": "time over plain Rust's", "numpy": "time over numpy's"}


def escaped(words):
    return words.replace("&", "&amp;").replace("<", "&lt;")


def text(x, y, words, kind=""):
    return f'<text x="{x:g}" y="{y:g}"{kind and f" class={chr(34)}{kind}{chr(34)}"}>{escaped(words)}</text>'


class Picture:
    def __init__(self):
        self.grounds = {colour: [] for _, colour in BOUNDS}
        self.words = []
        self.width = self.height = 0

    def cell(self, x, y, number):
        colour = next(colour for most, colour in BOUNDS if number <= most)
        self.grounds[colour].append(f"M{x:.0f} {y:.0f}h{CELL * CHARACTER:.0f}")

    def grid(self, x, y, title, groups, lines):
        """Numbers under groups of columns: `groups` has what each is over, its name and its columns' names, `lines` each line's name and
        numbers. Returns where the next grid begins."""
        label = max(len(name) for name, _ in lines) + 2
        starts, at = [], label
        for _, _, columns in groups:
            starts.append(at)
            at += CELL * len(columns) + GAP
        self.words.append(text(x, y, title, "t"))
        for nth, ((over, _, _), start) in enumerate(zip(groups, starts)):
            if nth == 0 or over != groups[nth - 1][0]:
                self.words.append(text(x + start * CHARACTER, y + LINE, over, "g"))
        self.row(x, y + 2 * LINE, " " * label + (" " * GAP).join(name.center(CELL * len(columns)) for _, name, columns in groups))
        self.row(x, y + 3 * LINE, " " * label + (" " * GAP).join("".join(name.center(CELL) for name in columns) for _, _, columns in groups))
        for nth, (name, numbers) in enumerate(lines):
            below = y + (nth + 4) * LINE
            words, rest = name.ljust(label), iter(numbers)
            for (_, _, columns), start in zip(groups, starts):
                for column in range(len(columns)):
                    number = next(rest)
                    words += ("" if number is None else f"{number:.2f}" if number < 9.995 else f"{number:.0f}").center(CELL)
                    if number is not None:
                        self.cell(x + (start + CELL * column) * CHARACTER - 2, below - 3, number)
                words += " " * GAP
            self.row(x, below, words)
        self.width = max(self.width, x + at * CHARACTER)
        self.height = max(self.height, y + (len(lines) + 3) * LINE)
        return y + (len(lines) + 5) * LINE + LINE // 2

    def row(self, x, y, words):
        """A line of characters of one width. Blanks in front move it to the right, since not every reader keeps them."""
        x += (len(words) - len(words.lstrip())) * CHARACTER
        words = words.strip()
        self.words.append(f'<text x="{x:g}" y="{y:g}" textLength="{len(words) * CHARACTER:.0f}">{escaped(words)}</text>')

    def svg(self):
        width, height = self.width + MARGIN, self.height + MARGIN
        yield f'<svg xmlns="http://www.w3.org/2000/svg" width="{width:.0f}" height="{height:.0f}" viewBox="0 0 {width:.0f} {height:.0f}">'
        yield f"<style>text{{font:{FONT}px monospace;white-space:pre;fill:#222}}.t{{font:bold 13px sans-serif}}.g,.c{{font:10px sans-serif;fill:#444}}.c{{font-size:11px}}path{{stroke-width:{LINE - 1}}}</style>"
        yield '<rect width="100%" height="100%" fill="white"/>'
        for colour, cells in self.grounds.items():
            yield f'<path stroke="{colour}" d="{"".join(cells)}"/>'
        yield from (words.replace("<text ", '<text xml:space="preserve" ', 1) for words in self.words)
        yield "</svg>"


def drawn(measured):
    found = {(row.call, row.kind, row.shape, row.orders()): row for row in measured}

    def number(who, *key):
        return found[key].over(who) if key in found else None

    calls = list(dict.fromkeys(row.call for row in measured))
    pairs, copies = [c for c in calls if not c.startswith("to_")], [c for c in calls if c.startswith("to_")]
    kinds = list(dict.fromkeys(row.kind for row in measured))
    squares = sorted({row.shape for row in measured if len(row.shape) == 2 and row.shape[0] == row.shape[1]})
    names = [str(shape[0]) for shape in squares]

    def orders_of(some, shapes):
        return list(dict.fromkeys(row.orders() for row in measured if row.call in some and row.shape in shapes))

    def groups_of(some, columns):
        return [(words, call, columns) for words in OVER.values() for call in some]

    picture = Picture()
    y = 48
    for kind in kinds:
        lines = [(orders, [number(who, call, kind, shape, orders) for who in OVER for call in pairs for shape in squares]) for orders in orders_of(pairs, squares)]
        y = picture.grid(MARGIN, y, f"Two arrays of {kind}, n x n", groups_of(pairs, names), lines)
    for kind in kinds:
        lines = [(orders, [number(who, call, kind, shape, orders) for who in OVER for call in copies for shape in squares]) for orders in orders_of(copies, squares)]
        y = picture.grid(MARGIN, y, f"One array of {kind}, n x n", groups_of(copies, names), lines)
    others = [shape for shape in dict.fromkeys(row.shape for row in measured) if shape not in squares]
    copied = y
    for shape in [shape for shape in others if len(shape) == 3]:
        y = narrow(picture, MARGIN, y, shape, pairs, kinds, orders_of(pairs, [shape]), number)
    for shape in [shape for shape in others if len(shape) == 2]:
        copied = narrow(picture, MARGIN + 540, copied, shape, pairs, kinds, orders_of(pairs, [shape]), number)
    picture.words.append(text(MARGIN, 18, CAPTION, "c"))
    return "\n".join(picture.svg()) + "\n"


def narrow(picture, x, y, shape, calls, kinds, orders, number):
    """The grid of one shape: a column for each type of elements."""
    groups = [(words, call, kinds) for words in OVER.values() for call in calls]
    lines = [(name, [number(who, call, kind, shape, name) for who in OVER for call in calls for kind in kinds]) for name in orders]
    return picture.grid(x, y, f"Two arrays, {' x '.join(map(str, shape))}", groups, lines)
