"""Random scripts: calls that mostly fit the array they are for, and some that don't; now and then a byte is changed."""

from meaning import Refused, reply_and_rest, listed, stepped, text_of
from reading import MOST_AXES, STEPS, Line
from table import product

CALLS = "keep keep ask ask ask write write split reshape append append push reserve select removeindex concat stack".split()
QUESTIONS = "shape elements elements get first last equal count reshape reshape".split()
MOST_ELEMENTS = 400


class Writer:
    """Writes scripts from a generator of random numbers."""

    def __init__(self, random):
        self.random = random

    def is_rare(self, part=0.07):
        return self.random.random() < part

    def below(self, count):
        """A number below a count, rarely one that isn't."""
        if count == 0 or self.is_rare():
            return count + self.random.randrange(2)
        return self.random.randrange(count)

    def bound(self, length):
        """Where a slice begins or ends, from either end."""
        fitting = self.random.randrange(-length, length + 1)
        return self.random.randrange(-length - 2, length + 3) if self.is_rare() else fitting

    def lengths(self, most=4):
        """Some lengths of 0 to 4, rarely about as many as an array can have."""
        if self.is_rare(0.02):
            lengths = [1] * self.random.randrange(MOST_AXES - 2, MOST_AXES + 1)
            lengths[self.random.randrange(len(lengths))] = self.random.randrange(3)
            return lengths
        return [self.random.choice([0, 1, 1, 2, 2, 3, 3, 4]) for _ in range(self.random.randrange(most + 1))]

    def element(self):
        return self.random.randrange(-5, 6)

    def array(self, lengths):
        elements = [str(self.element()) for _ in range(product(lengths))]
        return " ".join([listed(lengths), *elements])

    def index(self, lengths):
        index = [self.below(length) for length in lengths]
        return listed(index[1:] if self.is_rare(0.03) else index)

    def slice_elements(self, lengths):
        found = []
        for length in lengths[1:] if self.is_rare(0.04) else lengths:
            if self.is_rare(0.2):
                found.append("n")
            if self.is_rare(0.3):
                found.append(f"i {self.below(length) - self.random.choice([0, length])}")
            else:
                found.append(f"s {self.ends(length)} {self.random.choice([1, 1, 2, -1, -2])}")
        return " ".join([str(len(found)), *found])

    def ends(self, length):
        return f"{self.bound(length)} {self.random.choice(['_', '_', self.bound(length)])}"

    def axes(self, count):
        axes = list(range(count))
        self.random.shuffle(axes)
        return listed(axes + [0] if self.is_rare() else axes)

    def wide(self, lengths):
        """Lengths that an array of these is mostly broadcast to."""
        wide = [length if length != 1 or self.is_rare(0.4) else self.random.randrange(4) for length in lengths]
        if wide and self.is_rare():
            wide[0] += 1
        return [self.random.randrange(3)] * self.is_rare(0.4) + wide

    def narrow(self, lengths):
        """Lengths that mostly can be broadcast to these."""
        narrow = [1 if self.is_rare(0.3) else length for length in lengths]
        return self.lengths() if self.is_rare() else narrow[self.is_rare(0.2) :]

    def step(self, lengths):
        name = self.random.choice(STEPS)
        axis = self.below(len(lengths))
        length = lengths[axis] if axis < len(lengths) else 2
        if name == "cut":
            return f"cut {axis} {self.ends(length)} {self.random.choice([1, 1, 2, 3, 5, -1, -2, -3] + [0] * self.is_rare())}"
        if name == "slice":
            return f"slice {self.slice_elements(lengths)}"
        if name in ("collapse", "index"):
            return f"{name} {axis} {self.below(length)}"
        if name == "permute":
            return f"permute {self.axes(len(lengths))}"
        if name == "swapaxes":
            return f"swapaxes {axis} {self.below(len(lengths))}"
        if name == "broadcast":
            return f"broadcast {listed(self.wide(lengths))}"
        if name == "insert":
            return f"insert {self.below(len(lengths) + 1)}"
        return f"{name} {axis}" if name in ("invert", "remove") else name

    def path(self, view, may_broadcast):
        """Some steps, each followed by a slash, and the view they lead to: the last one that wasn't refused."""
        steps = []
        for _ in range(self.random.choice([0, 1, 1, 2, 3])):
            steps.append(self.step(view.shape) + " / ")
            try:
                view = stepped(view, Line(steps[-1].split()).step(), may_broadcast)
            except Refused:
                break
        return "".join(steps), view

    def other_lengths(self, lengths):
        """Lengths of as many elements, mostly: the old ones in another order, each as two, or all as one."""
        if self.is_rare(0.15):
            return self.lengths()
        parts = [product(lengths)] if self.is_rare(0.4) else list(lengths)
        self.random.shuffle(parts)
        found = []
        for length in parts:
            part = self.random.choice([d for d in range(1, length + 1) if length % d == 0] or [1])
            found += [part, length // part] if self.is_rare(0.6) else [length]
        return found + [1] * self.is_rare(0.3)

    def reshape(self, lengths):
        return f"reshape {self.random.choice(['row', 'col'])} {listed(self.other_lengths(lengths))}"

    def question(self, view):
        name = self.random.choice(QUESTIONS)
        if name == "get":
            return f"get {self.index(view.shape)}"
        if name == "equal":
            return f"equal {text_of(view) if self.is_rare(0.5) else self.array(view.shape)}"
        if name == "count":
            return f"count {self.element()}"
        return self.reshape(view.shape) if name == "reshape" else name

    def act(self, lengths):
        name = self.random.choice(["fill", "assign", "assign", "set", "swap"])
        if name == "assign":
            return f"assign {self.array(self.narrow(lengths))}"
        if name == "swap":
            return f"swap {self.index(lengths)} {self.index(lengths)}"
        return f"{name} {self.index(lengths) + ' ' if name == 'set' else ''}{self.element()}"

    def split(self, lengths, axis, length):
        index = self.below(length + 1)
        low, high = list(lengths), list(lengths)
        if axis < len(lengths):
            low[axis], high[axis] = min(index, length), max(length - index, 0)
        return f"split {axis} {index} {self.act(low)} / {self.act(high)}"

    def joined(self, name, lengths, axis):
        other = list(lengths)
        if axis < len(other) and name == "push":
            del other[axis]
        elif axis < len(other):
            other[axis] = self.random.choice([0, 1, 1, 2, 3])
        other = [1 if self.is_rare(0.15) else length for length in other]
        return f"{name} {axis} {self.array(self.lengths() if self.is_rare() else other)}"

    def others(self, name, lengths, axis):
        """Some arrays that mostly can be put behind one of these lengths along an axis, or beside it along a new one."""
        others = []
        for _ in range(self.random.choice([0, 1, 1, 2, 2, 3])):
            other = self.lengths() if self.is_rare(0.05) else list(lengths)
            if axis < len(other) and (name == "concat" or self.is_rare(0.03)):
                other[axis] = self.random.choice([0, 1, 1, 2, 3])
            others.append(self.array(other))
        return " ".join([f"{name} {axis} {len(others)}", *others])

    def call(self, array):
        name = self.random.choice(CALLS)
        if name in ("ask", "write"):
            path, view = self.path(array, name == "ask")
            return f"{name} {path}{self.question(view) if name == 'ask' else self.act(view.shape)}"
        if name == "keep":
            return f"keep {self.step(array.shape)}"
        if name == "reshape":
            return self.reshape(array.shape)
        if name == "stack":
            return self.others(name, array.shape, self.below(array.ndim + 1))
        axis = self.below(array.ndim)
        length = array.shape[axis] if axis < array.ndim else 2
        if name == "split":
            return self.split(array.shape, axis, length)
        if name in ("append", "push"):
            return self.joined(name, array.shape, axis)
        if name == "concat":
            return self.others(name, array.shape, axis)
        if name == "reserve":
            return f"reserve {axis} {self.random.choice([0, 1, 5, 100, 2**64 - 1, 2**63])}"
        if name == "select":
            return f"select {axis} {listed([self.below(length) for _ in range(self.random.randrange(5))])}"
        return f"removeindex {axis} {self.below(length)}"

    def damaged(self, text):
        """The text with a byte or two taken out, put in or changed."""
        text = bytearray(text)
        for _ in range(self.random.randrange(1, 3)):
            at = self.random.randrange(len(text))
            kept = self.random.choice([0, 0, 1])
            text[at : at + 1 - kept] = bytes([self.random.choice(b" \n\t\r-_/+0123456789nsiabc\xff")] * self.random.randrange(2))
            text = text or bytearray(b" ")
        return bytes(text)

    def script(self):
        start = self.array(self.lengths())
        lines, array = [f"start {start}"], Line(start.split()).array()
        for _ in range(self.random.randrange(1, 14)):
            if array.size > MOST_ELEMENTS:
                break
            lines.append(self.call(array))
            array = reply_and_rest(Line(lines[-1].split()).call(), array)[1]
        text = "\n".join(lines + [""] * (not self.is_rare(0.1))).encode()
        return self.damaged(text) if self.is_rare(0.12) else text
