"""Tables of any number of axes: their lengths, and their elements in row-major order."""

import itertools


def product(lengths):
    found = 1
    for length in lengths:
        found *= length
    return found


def indexes(shape):
    """The indexes of a shape in row-major order."""
    return itertools.product(*map(range, shape)) if 0 not in shape else iter(())


def replaced(items, at, item):
    return [*items[:at], item, *items[at + 1 :]]


def inserted(items, at, item):
    return [*items[:at], item, *items[at:]]


def removed(items, at):
    return [*items[:at], *items[at + 1 :]]


class Table:
    def __init__(self, shape, elements):
        self.shape, self.elements = list(shape), list(elements)
        assert product(self.shape) == len(self.elements)

    @property
    def ndim(self):
        return len(self.shape)

    @property
    def size(self):
        return len(self.elements)

    def __getitem__(self, index):
        rank = 0
        for length, coordinate in zip(self.shape, index):
            rank = rank * length + coordinate
        return self.elements[rank]

    def __eq__(self, other):
        return (self.shape, self.elements) == (other.shape, other.elements)

    def gathered(self, shape, old):
        """The table of this shape whose index i shows what was at old(i)."""
        return Table(shape, [self[old(list(index))] for index in indexes(shape)])

    def chosen(self, axis, coordinates):
        """These coordinates of an axis, in their order."""
        shape = replaced(self.shape, axis, len(coordinates))
        return self.gathered(shape, lambda index: replaced(index, axis, coordinates[index[axis]]))

    def without(self, axis):
        """The first coordinate of an axis, and the axis gone."""
        return self.gathered(removed(self.shape, axis), lambda index: inserted(index, axis, 0))

    def with_axis(self, axis):
        """An axis of length 1 put in."""
        return Table(inserted(self.shape, axis, 1), self.elements)

    def permuted(self, order):
        """Axis k is the old axis order[k]."""
        shape, places = [self.shape[axis] for axis in order], [order.index(axis) for axis in range(self.ndim)]
        return self.gathered(shape, lambda index: [index[place] for place in places])

    def reversed(self):
        return self.permuted(list(reversed(range(self.ndim))))

    def swapped(self, one, other):
        order = list(range(self.ndim))
        order[one], order[other] = other, one
        return self.permuted(order)

    def diagonal(self):
        return Table([min(self.shape, default=1)], [self[[k] * self.ndim] for k in range(min(self.shape, default=1))])

    def broadcast(self, to):
        """The shape to, in which an axis of length 1 and one that isn't there are repeated."""
        new = len(to) - self.ndim
        return self.gathered(
            to, lambda index: [0 if length == 1 else k for length, k in zip(self.shape, index[new:])]
        )

    def reshaped(self, lengths, order):
        """Each element at its rank in the order, `row` or `col`."""
        if order == "row":
            return Table(lengths, self.elements)
        return Table(list(reversed(lengths)), self.reversed().elements).reversed()

    def joined(self, axis, other):
        """Another table behind this one along an axis."""
        length = self.shape[axis]
        shape = replaced(self.shape, axis, length + other.shape[axis])

        def element(index):
            beside = index[axis] - length
            return self[index] if beside < 0 else other[replaced(index, axis, beside)]

        return Table(shape, [element(list(index)) for index in indexes(shape)])
