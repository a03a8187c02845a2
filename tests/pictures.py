#!/usr/bin/env python3
"""Compares the picture program with ImageMagick and Netpbm, and runs it on mutated images.

    tests/pictures.py [MUTATED [SEED [PROGRAM [RANDOM]]]]

Pictures of 1 x 1 to 4000 x 3000, bitmaps, grey and coloured, of one byte a sample and of two, are taken through each step that
`convert` has too, and are compared byte for byte. So many small random pictures (2,000 unless told), as many of each of the six formats,
are taken through one step, and through the same step by a program of Netpbm, and as many others by `convert`. A raw image must be the
same byte for byte, and one in digits must mean the same. Then so many mutated images (100,000 unless told), half of them with a step or two, are
taken by the program and by plain Python: the picture, the first bad byte or the first step that doesn't fit must be the same, with a
line on the errors and status 1, and no other end. Before a bad byte only the beginning of an image may be written, and that only where the
steps go row by row; a quarter of the mutated images is taken through one to four steps that do. Some thousand of these images are read by Netpbm's `pamtopnm` too, and must mean the
same there. Prints a table of processor seconds for the largest picture, the least of three runs, and last `N passed, M failed`. Without
a PROGRAM it is built by `rt run`, which first proves what isn't proved yet. It wants ImageMagick 6 (`convert`) and Netpbm.
"""

import concurrent.futures
import os
import pathlib
import random
import resource
import subprocess
import sys
import tempfile

CRATE = pathlib.Path(__file__).resolve().parent.parent / "crates" / "nd_picture_program"
SIZES = [(1, 1), (1, 7), (7, 1), (2, 3), (17, 13), (640, 480), (4000, 3000)]
BLANKS = b" \t\r\n"
BESIDE = 12  # how many of the lots of mutated images are read by Netpbm too


def built():
    """The program, as `rt run` builds it."""
    ran = subprocess.run(["rt", "run", "--", "flip"], cwd=CRATE, input=b"P2 1 1 1 1", capture_output=True)
    if ran.stdout != b"P2\n1 1\n1\n1\n":
        sys.exit(f"rt run: {ran.stdout!r} {ran.stderr.decode()[-2000:]}")
    return CRATE / "out" / "nd_picture_program"


# ---- beside convert

def steps_for(width, height, maxval):
    """Each step as the program's words and as convert's."""
    top, left = height // 3, width // 3
    rows, columns = max(1, height // 2), max(1, width // 2)
    level = maxval // 3
    return [
        (f"crop {top} {left} {rows} {columns}", f"-crop {columns}x{rows}+{left}+{top} +repage"),
        ("flip", "-flip"),
        ("flop", "-flop"),
        ("rotate 90", "-rotate 90"),
        ("rotate 180", "-rotate 180"),
        ("rotate 270", "-rotate 270"),
        ("transpose", "-transpose"),
        (f"threshold {level}", f"-channel RGB -threshold {level * 65535 // maxval}"),
        ("invert", "-negate"),
        ("transpose flip crop 0 0 1 1", "-transpose +repage -flip +repage -crop 1x1+0+0 +repage"),
    ]


def timed(words, source, runs):
    """What a command writes for a file, and its processor seconds, the least of so many runs."""
    least = float("inf")
    for _ in range(runs):
        before = resource.getrusage(resource.RUSAGE_CHILDREN)
        with open(source, "rb") as file:
            ran = subprocess.run(words, stdin=file, capture_output=True)
        after = resource.getrusage(resource.RUSAGE_CHILDREN)
        least = min(least, after.ru_utime + after.ru_stime - before.ru_utime - before.ru_stime)
    return ran.stdout, least


def beside_convert(program, folder, rows):
    """Which pictures and steps differ, of how many."""
    failed, count = [], 0
    for width, height in SIZES:
        for kind, suffix, channels, maxvals in [("P4", "pbm", 1, [1]), ("P5", "pgm", 1, [255, 65535]), ("P6", "ppm", 3, [255, 65535])]:
            for maxval in maxvals:
                source = os.path.join(folder, "source")
                size = (width + 7) // 8 * height if kind == "P4" else width * height * channels * (1 if maxval < 256 else 2)
                with open(source, "wb") as file:
                    file.write(b"%s\n%d %d\n" % (kind.encode(), width, height) + (b"" if kind == "P4" else b"%d\n" % maxval) + os.urandom(size))
                for words, options in steps_for(width, height, maxval):
                    runs = 3 if (width, height) == SIZES[-1] else 1
                    ours, time = timed([program, *words.split()], source, runs)
                    depth = [] if kind == "P4" else ["-depth", "8" if maxval < 256 else "16"]
                    theirs, beside = timed(["convert", f"{suffix}:-", *options.split(), *depth, f"{suffix}:-"], source, runs)
                    count += 1
                    if ours != theirs:
                        failed.append(f"{width} x {height} {kind} {maxval}: {words}")
                    if (width, height) == SIZES[-1]:
                        rows.append((kind, maxval, words, time, beside))
    return failed, count


# ---- random pictures of each format, beside Netpbm and convert

FORMATS = [b"P1", b"P2", b"P3", b"P4", b"P5", b"P6"]
COLOURED = (b"P3", b"P6")
BITMAPS = (b"P1", b"P4")


def picture(chance, kind, maxvals):
    """A small picture: width, height, the maxval and the image's bytes."""
    width, height, maxval = chance.randint(1, 20), chance.randint(1, 12), 1 if kind in BITMAPS else chance.choice(maxvals)
    samples = [chance.randint(0, maxval) for _ in range(width * height * (3 if kind in COLOURED else 1))]
    return width, height, maxval, written(kind, width, height, maxval, samples)


def shared_steps(chance, width, height):
    """Steps that both of the others have: our words, the command of Netpbm, and the options of convert."""
    top, left = chance.randrange(height), chance.randrange(width)
    high, wide = chance.randint(1, height - top), chance.randint(1, width - left)
    cut = ["pamcut", "-left", str(left), "-top", str(top), "-width", str(wide), "-height", str(high)]
    return [
        (f"crop {top} {left} {high} {wide}", cut, f"-crop {wide}x{high}+{left}+{top} +repage"),
        ("flip", ["pamflip", "-topbottom"], "-flip"),
        ("flop", ["pamflip", "-leftright"], "-flop"),
        ("rotate 90", ["pamflip", "-cw"], "-rotate 90"),
        ("rotate 180", ["pamflip", "-rotate180"], "-rotate 180"),
        ("rotate 270", ["pamflip", "-ccw"], "-rotate 270"),
        ("transpose", ["pamflip", "-transpose"], "-transpose"),
        ("invert", ["pnminvert"], "-negate"),
        ("plain", ["pamtopnm", "-plain"], "-compress none"),
        ("raw", ["pamtopnm"], ""),
    ]


def netpbm_step(chance, kind, width, height, maxval):
    """A step that Netpbm has: our words and the command."""
    steps = [(words, command) for words, command, _ in shared_steps(chance, width, height)]
    border, factor = chance.randint(0, 5), chance.choice([k for k in range(1, 13) if width % k == 0 and height % k == 0])
    sides = [word for side in ("-left", "-right", "-top", "-bottom") for word in (side, str(border))]
    steps += [(f"border {border} 0", ["pnmpad", "-black", *sides]), (f"border {border} {maxval}", ["pnmpad", "-white", *sides])]
    if kind not in BITMAPS:
        steps += [("gray", ["ppmtopgm"]), (f"shrink {factor}", ["pamscale", "-linear", "-reduce", str(factor)])]
    return chance.choice(steps)


def convert_step(chance, kind, width, height, maxval):
    """A step that convert has: our words and the options."""
    steps = [(words, options) for words, _, options in shared_steps(chance, width, height)]
    border, value, limit = chance.randint(1, 5), chance.randint(0, maxval), chance.randint(0, maxval)
    level = value * (65535 // maxval)
    steps += [(f"border {border} {value}", f"-compose Copy -bordercolor #{f'{level:04x}' * 3} -border {border}")]
    steps += [(f"threshold {limit}", f"-channel RGB -threshold {limit * 65535 // maxval}")]
    return chance.choice(steps)


def is_half(words, image, place):
    """Whether this sample lies halfway between two numbers before it is rounded, in a step whose rounding Netpbm does in floats."""
    _, width, height, maxval, samples = read(image)
    deep = len(samples) // (width * height)
    if words == "gray":
        return maxval > 255 and sum(a * b for a, b in zip((2989, 5866, 1145), samples[3 * place:])) % 10000 == 5000
    factor, wide = int(words.split()[1]), width // int(words.split()[1])
    row, column, channel = place // deep // wide * factor, place // deep % wide * factor, place % deep
    block = sum(samples[((row + i) * width + column + j) * deep + channel] for i in range(factor) for j in range(factor))
    return 2 * block % (2 * factor ** 2) == factor ** 2


def only_halves(words, image, ours, theirs):
    """Whether two images differ only in halves that Netpbm has rounded down."""
    (*head, mine), (*beside, others) = read(written_raw(ours)), read(written_raw(theirs))
    if head != beside or words.split()[0] not in ("gray", "shrink"):
        return False
    return all(a == b or (a == b + 1 and is_half(words, image, place)) for place, (a, b) in enumerate(zip(mine, others)))


def same_picture(ours, theirs):
    """Whether both are the same image, apart from how one in digits is laid out."""
    if ours[:2] == theirs[:2] and ours[:2] in (b"P4", b"P5", b"P6"):
        return ours == theirs
    return written_raw(ours) == written_raw(theirs)


def written_raw(image):
    """The same image in bytes; one in black and white alone as a bitmap, since pamtopnm makes it one."""
    kind, width, height, maxval, samples = read(image)
    kind = {b"P1": b"P4", b"P2": b"P5", b"P3": b"P6"}.get(kind, kind)
    return written(b"P4" if (kind, maxval) == (b"P5", 1) else kind, width, height, maxval, samples)


def beside_both(program, kind, seed, count):
    """What is told of those of so many random pictures that Netpbm or convert makes otherwise, how many of them hold halves that
    Netpbm rounds down, and how many of its programs' and of convert's images were compared."""
    chance, told, halves = random.Random(f"{seed} {kind}"), [], 0
    suffix = "ppm:-" if kind in COLOURED else "pbm:-" if kind in BITMAPS else "pgm:-"
    for _ in range(count):
        width, height, maxval, image = picture(chance, kind, [1, 2, 9, 100, 255, 256, 1000, 65535])
        words, command = netpbm_step(chance, kind, width, height, maxval)
        ours = subprocess.run([program, *words.split()], input=image, capture_output=True).stdout
        theirs = subprocess.run(command, input=image, capture_output=True).stdout
        if not ours or not theirs or not same_picture(ours, theirs):
            if ours and theirs and only_halves(words, image, ours, theirs):
                halves += 1
            else:
                told.append(f"{image!r}, {words}: {command} writes {theirs!r}, here it is {ours!r}")
        width, height, maxval, image = picture(chance, kind, [255, 65535])
        words, options = convert_step(chance, kind, width, height, maxval)
        depth = [] if kind in BITMAPS else ["-depth", "8" if maxval < 256 else "16"]
        ours = subprocess.run([program, *words.split()], input=image, capture_output=True).stdout
        theirs = subprocess.run(["convert", suffix, *options.split(), *depth, suffix], input=image, capture_output=True).stdout
        if not ours or not theirs or not same_picture(ours, theirs):
            told.append(f"{image!r}, {words}: convert {options} writes {theirs!r}, here it is {ours!r}")
    return told, halves


# ---- mutated images, beside a reader in plain Python

FORMAT = "an image must begin with one of P1 to P6 and a blank"
SAMPLE = "a sample must be a number from 0 to the maxval"


class Bad(Exception):
    """The first byte at which no image can go on."""


def after_blank(text, at, flaw):
    """Where the blank or comment that stands there ends."""
    if at == len(text) or text[at] not in BLANKS + b"#":
        raise Bad(at, flaw)
    if text[at] == ord("#"):
        while at < len(text) and text[at] not in b"\r\n":
            at += 1
    return min(at + 1, len(text))


def number(text, at, limit, flaw, least=0):
    """The next number, and where the blank after it ends."""
    while at < len(text) and text[at] in BLANKS + b"#":
        at = after_blank(text, at, flaw)
    start, value = at, 0
    while at < len(text) and text[at] in b"0123456789" and value * 10 + text[at] - 48 <= limit:
        value, at = value * 10 + text[at] - 48, at + 1
    if at == start or value < least:
        raise Bad(at, flaw)
    return value, at if at == len(text) else after_blank(text, at, flaw)


def raw_sample(text, at, maxval):
    """The next sample, and where it ends."""
    sample, size = 0, 1 if maxval < 256 else 2
    for place in range(size):
        byte = text[at + place] if at + place < len(text) else 0
        sample += byte << (8 * (size - 1 - place))
        if at + place >= len(text) or sample > maxval:
            raise Bad(at + place, "the sample is above the maxval")
    return sample, at + size


def bit(text, at):
    """The next sample of a plain bitmap, and where it ends."""
    while at < len(text) and text[at] in BLANKS + b"#":
        at = after_blank(text, at, SAMPLE)
    if at == len(text) or text[at] not in b"01":
        raise Bad(at, SAMPLE)
    return ord("1") - text[at], at + 1


def packed(text, at, width, height):
    """The samples of a raw bitmap."""
    row = (width + 7) // 8
    if at + row * height > len(text):
        raise Bad(len(text), SAMPLE)
    return [1 - (text[at + y * row + x // 8] >> (7 - x % 8) & 1) for y in range(height) for x in range(width)]


def sample_at(kind, text, at, maxval):
    """The next sample of an image that isn't a raw bitmap, and where it ends."""
    if kind == b"P1":
        return bit(text, at)
    return number(text, at, maxval, SAMPLE) if kind in (b"P2", b"P3") else raw_sample(text, at, maxval)


def read(text):
    """Format, width, height, the maxval and samples of the first image."""
    kind = text[:2]
    if kind not in FORMATS:
        raise Bad(1 if text[:1] == b"P" else 0, FORMAT)
    at = after_blank(text, 2, FORMAT)
    width, at = number(text, at, 10**9, "the width must be a number from 1 to 1000000000", 1)
    height, at = number(text, at, 10**9, "the height must be a number from 1 to 1000000000", 1)
    maxval, samples = 1, []
    if kind == b"P4":
        return kind, width, height, maxval, packed(text, at, width, height)
    if kind != b"P1":
        maxval, at = number(text, at, 65535, "the maxval must be a number from 1 to 65535", 1)
    for _ in range(width * height * (3 if kind in (b"P3", b"P6") else 1)):
        sample, at = sample_at(kind, text, at, maxval)
        samples.append(sample)
    return kind, width, height, maxval, samples


class Refused(Exception):
    """The step that doesn't fit, counted from 1, and why."""


def around(at, whole):
    """A coordinate's neighbours and itself; the nearest for one that isn't there."""
    return [max(at - 1, 0), at, min(at + 1, whole - 1)]


def blurred(rows, height, width):
    def mean(row, column, channel):
        return sum(rows[r][c][channel] for r in around(row, height) for c in around(column, width)) // 9

    return [[[mean(row, column, channel) for channel in range(len(rows[0][0]))] for column in range(width)] for row in range(height)]


def lightness(maxval, pixel):
    """The lightness of a coloured pixel, and any other pixel's only sample."""
    if len(pixel) == 1:
        return pixel
    weights, whole = ((77, 150, 29), 256) if maxval < 256 else ((2989, 5866, 1145), 10000)
    return [(2 * sum(a * b for a, b in zip(weights, pixel)) + whole) // (2 * whole)]


def shrunk(rows, side):
    """The means of blocks."""
    def mean(block):
        return [(2 * sum(samples) + len(block)) // (2 * len(block)) for samples in zip(*block)]

    height, width = len(rows), len(rows[0])
    tops, lefts = range(0, height, side), range(0, width, side)
    return [[mean([pixel for row in rows[top:top + side] for pixel in row[left:left + side]]) for left in lefts] for top in tops]


def bordered(rows, border, value):
    """The picture with a border."""
    pixel, width = [value] * len(rows[0][0]), len(rows[0]) + 2 * border
    sides = [[pixel] * width for _ in range(border)]
    return sides + [[pixel] * border + row + [pixel] * border for row in rows] + sides


def after(rows, maxval, number, name, arguments):
    """Rows of pixels after one step."""
    height, width = len(rows), len(rows[0])
    if name == "gray":
        return [[lightness(maxval, pixel) for pixel in row] for row in rows]
    if name == "border":
        if arguments[1] > maxval or max(height, width) + 2 * arguments[0] > 10**9:
            raise Refused(number, "the samples must be at most the maxval, and the image at most 1000000000 high and wide")
        return bordered(rows, *arguments)
    if name == "shrink":
        if arguments[0] == 0:
            raise Refused(number, "the factor must be at least 1 and below 2^63")
        return shrunk(rows, arguments[0])
    if name == "crop":
        top, left, high, wide = arguments
        if high == 0 or wide == 0 or top + high > height or left + wide > width:
            raise Refused(number, "the part must lie in the picture, and have a row and a column")
        return [row[left:left + wide] for row in rows[top:top + high]]
    if name == "scale-down":
        if arguments[0] == 0:
            raise Refused(number, "the factor must be at least 1 and below 2^63")
        return [row[::arguments[0]] for row in rows[::arguments[0]]]
    if name == "blur":
        return blurred(rows, height, width)
    if name in ("threshold", "invert"):
        changed = (lambda x: maxval if x > arguments[0] else 0) if name == "threshold" else (lambda x: maxval - x)
        return [[[changed(x) for x in pixel] for pixel in row] for row in rows]
    if name in ("transpose", "rotate") and arguments != [180]:
        rows = [list(row) for row in zip(*rows)]
    if name == "flip" or (name == "rotate" and arguments in ([180], [270])):
        rows = rows[::-1]
    if name == "flop" or (name == "rotate" and arguments in ([90], [180])):
        rows = [row[::-1] for row in rows]
    return rows


def written(kind, width, height, maxval, samples):
    head = b"%s\n%d %d\n" % (kind, width, height)
    if kind == b"P1":
        return head + b"".join(b"%d\n" % (1 - sample) for sample in samples)
    if kind == b"P4":
        rows = ["".join(str(1 - sample) for sample in samples[k:k + width]) for k in range(0, len(samples), width)]
        return head + b"".join(int(row.ljust(-(-width // 8) * 8, "0"), 2).to_bytes(-(-width // 8), "big") for row in rows)
    head += b"%d\n" % maxval
    if kind in (b"P2", b"P3"):
        return head + b"".join(b"%d\n" % sample for sample in samples)
    return head + b"".join(sample.to_bytes(1 if maxval < 256 else 2, "big") for sample in samples)


def format_after(kind, name):
    """The format of an image after a step of this name."""
    changes = {"gray": (b"P3P2", b"P6P5"), "plain": (b"P4P1", b"P5P2", b"P6P3"), "raw": (b"P1P4", b"P2P5", b"P3P6")}
    return next((change[2:] for change in changes.get(name, ()) if change[:2] == kind), kind)


BY_ROWS = ("crop", "flop", "scale-down", "threshold", "invert", "gray", "plain", "raw")


def begun(text, steps):
    """What may be written of an image with a bad byte: nothing, or, where the steps go row by row, its header and what they make of
    so many whole rows before that byte."""
    kind = text[:2]
    if kind not in FORMATS or any(step[0] not in BY_ROWS for step in steps):
        return {b""}
    try:
        at = after_blank(text, 2, FORMAT)
        width, at = number(text, at, 10**9, "", 1)
        height, at = number(text, at, 10**9, "", 1)
        maxval, at = (1, at) if kind in (b"P1", b"P4") else number(text, at, 65535, "", 1)
    except Bad:
        return {b""}
    deep, rows = 3 if kind in (b"P3", b"P6") else 1, []
    try:
        # (each row takes a byte at least)
        while len(rows) < min(height, len(text)):
            if kind == b"P4":
                rows.append([[sample] for sample in packed(text, at, width, 1)])
                at += (width + 7) // 8
                continue
            row = []
            for _ in range(width):
                pixel = []
                for _ in range(deep):
                    sample, at = sample_at(kind, text, at, maxval)
                    pixel.append(sample)
                row.append(pixel)
            rows.append(row)
    except Bad:
        pass
    if height > 10000 or width > 10000:
        return None
    whole = len(rows)
    rows += [[[0] * deep] * width] * (height - whole)
    places = list(range(height))
    try:
        for step in steps:
            rows = after(rows, maxval, 0, step[0], step[1:])
            kind = format_after(kind, step[0])
            places = places[step[1]:step[1] + step[3]] if step[0] == "crop" else places[::step[1]] if step[0] == "scale-down" else places
    except Refused:
        return {b""}
    front = lambda n: [x for place, row in zip(places, rows) if place < n for pixel in row for x in pixel]
    return {written(kind, len(rows[0]), len(rows), maxval, front(n)) for n in range(whole + 1)}


def expected(text, steps):
    """What is to be written, on the errors, and the status."""
    try:
        kind, width, height, maxval, samples = read(text)
        deep = 3 if kind in (b"P3", b"P6") else 1
        pixels = [samples[k:k + deep] for k in range(0, len(samples), deep)]
        rows = [pixels[k:k + width] for k in range(0, len(pixels), width)]
        for number, step in enumerate(steps, 1):
            rows = after(rows, maxval, number, step[0], step[1:])
            kind = format_after(kind, step[0])
    except Bad as bad:
        at, flaw = bad.args
        flaw = flaw if at < len(text) else "the image ends too early"
        return b"", f"nd_picture_program: byte {at}: {flaw}\n".encode(), 1
    except Refused as refused:
        number, flaw = refused.args
        step = " ".join(str(word) for word in steps[number - 1])
        return b"", f"nd_picture_program: step {number}: '{step}': {flaw}\n".encode(), 1
    return written(kind, len(rows[0]), len(rows), maxval, [x for row in rows for pixel in row for x in pixel]), b"", 0


def drawn(chance):
    """A small image, with comments in it and perhaps with something after it."""
    kind = chance.choice([b"P1", b"P2", b"P3", b"P4", b"P5", b"P6"])
    bitmap, plain = kind in (b"P1", b"P4"), kind in (b"P1", b"P2", b"P3")
    width, height = chance.choice([1, 2, 3, 4, 8, 9]), chance.randint(1, 4)
    maxval = 1 if bitmap else chance.choice([1, 9, 255, 256, 65535])
    samples = [chance.randint(0, maxval) for _ in range(width * height * (3 if kind in (b"P3", b"P6") else 1))]
    blank = lambda: chance.choice([b"\n", b" ", b"\t", b"\r\n", b" # drawn\n", b"# drawn\n", b"#\r", b"\n#a\n# 1 2\n"])
    numbers = [width, height] if bitmap else [width, height, maxval]
    image = kind + b"".join(blank() + b"%d" % number for number in numbers)
    if plain:
        gap = chance.choice([blank, lambda: b""]) if bitmap else blank
        image += blank() + b"".join(b"%d" % sample + gap() for sample in samples)
    else:
        raster = written(kind, width, height, maxval, samples).split(b"\n", len(numbers))[-1]
        image += chance.choice([b"\n", b" ", b"#\r", b"# drawn\n"]) + raster
    return image + chance.choice([b"", b"", b"\n", b"x", b"P5 1 1 9 \x07"])


def drawn_steps(chance):
    """A step or two, or none; some don't fit."""
    numbers = lambda count, upto: [chance.randint(0, upto) for _ in range(count)]
    kinds = [
        lambda: ["crop", *numbers(4, 3)],
        lambda: ["flip"],
        lambda: ["flop"],
        lambda: ["rotate", chance.choice([90, 180, 270])],
        lambda: ["transpose"],
        lambda: ["scale-down", *numbers(1, 3)],
        lambda: ["threshold", chance.choice([0, 4, 127, 300, 65535])],
        lambda: ["invert"],
        lambda: ["blur"],
        lambda: ["gray"],
        lambda: ["border", *chance.choice([(0, 0), (1, 0), (2, 1), (3, 9), (1, 65535), (10**9, 0), (2**64 - 1, 1)])],
        lambda: ["shrink", *numbers(1, 4)],
        lambda: ["plain"],
        lambda: ["raw"],
    ]
    if chance.randrange(4) == 0:
        return [step for step in (chance.choice(kinds)() for _ in range(20)) if step[0] in BY_ROWS][:chance.randint(1, 4)]
    return [chance.choice(kinds)() for _ in range(chance.choice([0, 0, 1, 2]))]


def mutated(chance):
    """A small image with a few bytes changed, put in or taken out."""
    text = bytearray(drawn(chance))
    for _ in range(chance.randint(0, 3)):
        at = chance.randrange(len(text) + 1)
        way = chance.randrange(4)
        if way == 0:
            text[at:at + 1] = bytes([chance.choice(b"0123456789 \n\r\t#Px-\x00\xff")])
        elif way == 1:
            text[at:at] = bytes([chance.choice(b"0123456789 \n\r\t#")])
        elif way == 2:
            del text[at:at + chance.randint(1, 3)]
        else:
            del text[at:]
    return bytes(text)


# ---- headers and comments, beside Netpbm

# Netpbm takes any byte in place of a blank after a number or the format's name, and wants a byte after the last number.
ON_PURPOSE = ("must be a number", "and a blank")


def first_image(text):
    """The first image that pamtopnm writes of these bytes, or nothing."""
    ran = subprocess.run(["pamtopnm"], input=text, capture_output=True)
    try:
        return read(ran.stdout)[1:], b"EOF" in ran.stderr
    except Bad:
        return None, b"EOF" in ran.stderr


def beside_netpbm(seed, count):
    """What is told of those of so many mutated images that Netpbm reads otherwise, but for what differs on purpose."""
    chance, told = random.Random(seed), []
    for _ in range(count):
        text = mutated(chance)
        theirs, ends_early = first_image(text)
        try:
            ours, on_purpose = read(text)[1:], theirs is None and ends_early and text[1:2] in b"23"
        except Bad as bad:
            ours, on_purpose = None, theirs is not None and any(word in bad.args[1] for word in ON_PURPOSE)
        if ours != theirs and not on_purpose:
            told.append(f"{text!r}: Netpbm reads {theirs}, here it is {ours}")
    return told


def differing(program, seed, count):
    """What is told of those of so many mutated images that end otherwise."""
    chance, told = random.Random(seed), []
    for _ in range(count):
        text, steps = mutated(chance), drawn_steps(chance)
        ran = subprocess.run([program, *(str(word) for step in steps for word in step)], input=text, capture_output=True)
        ends, wanted = (ran.stdout, ran.stderr, ran.returncode), expected(text, steps)
        if wanted[1].startswith(b"nd_picture_program: byte "):
            outputs = begun(text, steps)
            if (outputs is None or ran.stdout in outputs) and ends[1:] == wanted[1:]:
                continue
        if ends != wanted:
            told.append(f"{text!r}, {steps}: wanted {wanted}, got {ends}")
    return told


def main():
    count = int(sys.argv[1]) if len(sys.argv) > 1 else 100_000
    seed = int(sys.argv[2]) if len(sys.argv) > 2 else 1
    program = pathlib.Path(sys.argv[3]).resolve() if len(sys.argv) > 3 else built()
    drawings = -(-(int(sys.argv[4]) if len(sys.argv) > 4 else 2_000) // len(FORMATS))
    rows = []
    with tempfile.TemporaryDirectory() as folder:
        failed, passed = beside_convert(program, folder, rows)
    print("| 4000 x 3000 | maxval | steps | seconds | convert's |\n|---|---|---|---|---|")
    for kind, maxval, words, time, beside in rows:
        print(f"| {kind} | {maxval} | `{words}` | {time:.2f} | {beside:.2f} |")
    at_once = 250
    counts = [min(at_once, count - k) for k in range(0, count, at_once)]
    seeds = [f"{seed} {k}" for k in range(len(counts))]
    with concurrent.futures.ProcessPoolExecutor(os.cpu_count()) as pool:
        found = [line for lines in pool.map(differing, [program] * len(counts), seeds, counts) for line in lines]
        beside = [line for lines in pool.map(beside_netpbm, seeds[:BESIDE], counts[:BESIDE]) for line in lines]
        random_ones = list(pool.map(beside_both, [program] * 6, FORMATS, [seed] * 6, [drawings] * 6))
    others = [line for lines, _ in random_ones for line in lines]
    print(f"{sum(halves for _, halves in random_ones)} of {6 * drawings} images of Netpbm's programs differ in halves alone, which they round down")
    failed += found + beside + others
    passed += count + sum(counts[:BESIDE]) + 12 * drawings - len(found) - len(beside) - len(others)
    for line in failed[:20]:
        print(line)
    print(f"{passed} passed, {len(failed)} failed")
    return 1 if failed else 0


sys.exit(main())
