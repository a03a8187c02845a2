"""What a call answers and leaves: each step makes of a table of numbers the table of those that the new indexes name."""

from reading import MOST_AXES, has_checked_size
from table import Table, product, replaced

AXIS, INDEX, SLICE, PERMUTATION, SHAPE, OVERFLOW, TOO_MANY_AXES, BROADCAST = range(1, 9)
# Views of more elements aren't listed, and a script with one isn't compared.
MOST_ELEMENTS = 20_000


class Refused(Exception):
    """A call that is refused, with the number of its cause."""


class TooLarge(Exception):
    """More elements than are compared."""


def refuse_if(is_so, cause):
    if is_so:
        raise Refused(cause)


def coordinates(length, start, end, step):
    """The coordinates that a slice names on an axis, in their order."""
    refuse_if(step == 0, SLICE)
    start += length if start < 0 else 0
    end = length if end is None else end + (length if end < 0 else 0)
    refuse_if(not (0 <= start <= length and 0 <= end <= length), SLICE)
    end = max(start, end)
    return range(start, end, step) if step > 0 else range(end - 1, start - 1, step)


def sliced(view, elements):
    kinds = [element[0] for element in elements]
    refuse_if(len(kinds) - kinds.count("new") != view.ndim, SHAPE)
    refuse_if(len(kinds) - kinds.count("index") > MOST_AXES, TOO_MANY_AXES)
    axis, indexed, added = 0, [], []
    for kind, *rest in elements:
        if kind == "new":
            added.append(axis - len(indexed) + len(added))
            continue
        length = view.shape[axis]
        if kind == "slice":
            view = view.chosen(axis, coordinates(length, *rest))
        else:
            index = rest[0] + (length if rest[0] < 0 else 0)
            refuse_if(not 0 <= index < length, INDEX)
            view = view.chosen(axis, [index])
            indexed.append(axis)
        axis += 1
    for axis in reversed(indexed):
        view = view.without(axis)
    for axis in added:
        view = view.with_axis(axis)
    return view


def squeezed(view):
    for axis in reversed(range(view.ndim)):
        if view.shape[axis] == 1 and view.ndim > 1:
            view = view.without(axis)
    return view


def broadcasts(shape, to):
    ends = zip(reversed(shape), reversed(to))
    return has_checked_size(to) and len(to) >= len(shape) and all(a in (1, b) for a, b in ends)


def broadcast(view, to):
    refuse_if(len(to) > MOST_AXES, TOO_MANY_AXES)
    refuse_if(not broadcasts(view.shape, to), BROADCAST)
    if product(to) > MOST_ELEMENTS:
        raise TooLarge
    return view.broadcast(to)


def on_axis(view, name, axis, *rest):
    """A step on one axis."""
    refuse_if(axis >= view.ndim, AXIS)
    length = view.shape[axis]
    if name == "cut":
        return view.chosen(axis, coordinates(length, *rest))
    if name == "swapaxes":
        refuse_if(rest[0] >= view.ndim, AXIS)
        return view.swapped(axis, rest[0])
    if name == "invert":
        return view.chosen(axis, range(length)[::-1])
    index = rest[0] if rest else 0
    refuse_if(index >= length, INDEX)
    part = view.chosen(axis, [index])
    return part if name == "collapse" else part.without(axis)


def stepped(view, step, may_broadcast):
    name, *rest = step
    if name == "slice":
        return sliced(view, *rest)
    if name == "permute":
        refuse_if(sorted(*rest) != list(range(view.ndim)), PERMUTATION)
        return view.permuted(*rest)
    if name == "insert":
        refuse_if(rest[0] > view.ndim, AXIS)
        refuse_if(view.ndim == MOST_AXES, TOO_MANY_AXES)
        return view.with_axis(rest[0])
    if name == "broadcast":
        refuse_if(not may_broadcast, BROADCAST)
        return broadcast(view, *rest)
    if name in ("reverse", "squeeze", "diag"):
        return {"reverse": Table.reversed, "squeeze": squeezed, "diag": Table.diagonal}[name](view)
    return on_axis(view, name, *rest)


def followed(view, path, may_broadcast):
    for step in path:
        view = stepped(view, step, may_broadcast)
    return view


def reshaped(view, lengths, order):
    refuse_if(len(lengths) > MOST_AXES, TOO_MANY_AXES)
    refuse_if(not has_checked_size(lengths) or product(lengths) != view.size, SHAPE)
    return view.reshaped(lengths, order)


def is_index(view, index):
    return len(index) == view.ndim and all(k < length for k, length in zip(index, view.shape))


def listed(numbers):
    return " ".join(str(number) for number in [len(numbers), *numbers])


def text_of(array):
    return " ".join([listed(array.shape), *(str(element) for element in array.elements)])


def some(element):
    return f"some {element}"


def asked(view, name, *rest):
    """The line of reply to a question."""
    if name == "shape":
        return f"shape {listed(view.shape)}"
    if name == "elements":
        return f"array {text_of(view)}"
    if name == "get":
        return some(view[rest[0]]) if is_index(view, rest[0]) else "none"
    if name in ("first", "last"):
        return some(view.elements[0 if name == "first" else -1]) if view.size else "none"
    if name == "equal":
        return "true" if view == rest[0] else "false"
    if name == "count":
        return f"number {view.elements.count(rest[0])}"
    return f"array {text_of(reshaped(view, *rest))}"


def refuse_act(view, name, *rest):
    if name == "assign":
        refuse_if(not broadcasts(rest[0].shape, view.shape), BROADCAST)
    if name in ("set", "swap"):
        indexes = rest[:1] if name == "set" else rest
        refuse_if(not all(is_index(view, index) for index in indexes), INDEX)


def acted(elements, view, name, *rest):
    """Writes into elements, whose numbers the view shows."""
    if name == "fill":
        for number in view.elements:
            elements[number] = rest[0]
    elif name == "assign":
        for number, element in zip(view.elements, rest[0].broadcast(view.shape).elements):
            elements[number] = element
    elif name == "set":
        elements[view[rest[0]]] = rest[1]
    else:
        one, other = (view[index] for index in rest)
        elements[one], elements[other] = elements[other], elements[one]


def written(array, parts):
    """The array after acts on parts of it, each a view of the elements' numbers and an act. All are checked before any writes."""
    for view, act in parts:
        refuse_act(view, *act)
    elements = list(array.elements)
    for view, act in parts:
        acted(elements, view, *act)
    return Table(array.shape, elements)


def split(array, numbers, axis, index, first, second):
    refuse_if(axis >= array.ndim, AXIS)
    length = array.shape[axis]
    refuse_if(index > length, INDEX)
    parts = numbers.chosen(axis, range(index)), numbers.chosen(axis, range(index, length))
    return written(array, list(zip(parts, (first, second))))


def joined(array, name, axis, other):
    refuse_if(array.ndim == 0, SHAPE)
    refuse_if(axis >= array.ndim, AXIS)
    if name == "push":
        refuse_if(other.ndim + 1 != array.ndim, SHAPE)
        other = other.with_axis(axis)
    fits = [a == b or b == 1 or k == axis for k, (a, b) in enumerate(zip(array.shape, other.shape))]
    refuse_if(other.ndim != array.ndim or not all(fits), SHAPE)
    added = replaced(array.shape, axis, other.shape[axis])
    refuse_if(not has_checked_size(replaced(array.shape, axis, array.shape[axis] + other.shape[axis])), OVERFLOW)
    if product(added) > MOST_ELEMENTS:
        raise TooLarge
    return array.joined(axis, other.broadcast(added))


def concatenated(array, axis, others):
    """The arrays behind one another, none of them broadcast."""
    refuse_if(axis >= array.ndim, AXIS)
    alike = (replaced(array.shape, axis, 0), array.ndim)
    refuse_if(any((replaced(other.shape, axis, 0), other.ndim) != alike for other in others), SHAPE)
    together = sum(table.shape[axis] for table in [array, *others])
    refuse_if(not has_checked_size(replaced(array.shape, axis, together)), OVERFLOW)
    for other in others:
        array = array.joined(axis, other)
    return array


def stacked(array, axis, others):
    """The arrays beside one another along a new axis."""
    refuse_if(axis > array.ndim, AXIS)
    refuse_if(array.ndim == MOST_AXES, TOO_MANY_AXES)
    refuse_if(any(other.shape != array.shape for other in others), SHAPE)
    return concatenated(array.with_axis(axis), axis, [other.with_axis(axis) for other in others])


def chosen_or_less(array, name, axis, rest):
    """The calls that choose coordinates of an axis, take one out, or ask for room."""
    refuse_if(axis >= array.ndim, AXIS)
    length = array.shape[axis]
    if name == "reserve":
        refuse_if(length + rest >= 2**64 or not has_checked_size(replaced(array.shape, axis, length + rest)), OVERFLOW)
        return array
    refuse_if(any(k >= length for k in (rest if name == "select" else [rest])), INDEX)
    if name == "removeindex":
        shape = replaced(array.shape, axis, length - 1)
        return array.gathered(shape, lambda index: replaced(index, axis, index[axis] + (index[axis] >= rest)))
    refuse_if(not has_checked_size(replaced(array.shape, axis, len(rest))), OVERFLOW)
    return array.chosen(axis, rest)


def shown(array, numbers):
    return Table(numbers.shape, [array.elements[number] for number in numbers.elements])


def carried_out(call, array):
    """The line of reply, and the array that the call leaves."""
    name, *rest = call
    numbers = Table(array.shape, range(array.size))
    if name == "ask":
        path, question = rest
        return asked(shown(array, followed(numbers, path, True)), *question), array
    if name == "keep":
        return "done", shown(array, stepped(numbers, rest[0], False))
    if name == "write":
        return "done", written(array, [(followed(numbers, rest[0], False), rest[1])])
    if name == "split":
        return "done", split(array, numbers, *rest)
    if name == "reshape":
        return "done", reshaped(array, *rest)
    if name in ("append", "push"):
        return "done", joined(array, name, *rest)
    if name in ("concat", "stack"):
        return "done", {"concat": concatenated, "stack": stacked}[name](array, *rest)
    return "done", chosen_or_less(array, name, *rest)


def reply_and_rest(call, array):
    try:
        return carried_out(call, array)
    except Refused as refused:
        return f"refused {refused.args[0]}", array
