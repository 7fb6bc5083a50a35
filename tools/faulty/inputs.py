"""Inputs by chance: pages of PBM, one or several images, whole ones and such as were cut, mixed or written over."""

import random

WORDS = [b"P1", b"P4", b"P5", b"P", b"#", b"# a comment\n", b"\n", b"\r", b"\r\n", b"\t", b" ", b"\0", b"\xff", b"\x0b"]
WORDS += [b"0", b"1", b"8", b"00", b"01", b"-1", b"+1", b"255", b"256", b"4096", b"4097", b"8191", b"8192", b"8193"]
WORDS += [b"33554432", b"4294967296", b"99999999999999999999"]
IMAGE = b"P4\n8 1\n\0"
WORDS += [IMAGE, IMAGE[:-1]]
LONGEST = 2900  # bytes, for which the server has room


def gap(rand):
    return b"".join(rand.choice((b" ", b"\n", b"\t", b"\r", b"#c\n", b"#\r", b"\n")) for _ in range(rand.choice((1, 1, 1, 2, 3))))


def raster(rand, width, height):
    """Rows of pixels: by chance, a few blocks, or of one colour."""
    kind = rand.randrange(4)
    if kind == 0:
        return [[rand.random() < 0.4 for _ in range(width)] for _ in range(height)]
    rows = [[kind == 1] * width for _ in range(height)]
    for _ in range(rand.randrange(9)):
        x, y = rand.randrange(width), rand.randrange(height)
        for row in rows[y : y + rand.randrange(3, 11)]:
            span = range(x, min(width, x + rand.randrange(3, 11)))
            for place in span:
                row[place] = kind != 1
    return rows


def page(rand, is_raw):
    """A page in one of the two forms, with gaps of any kind."""
    width, height = rand.choice((1, 2, 7, 8, 9, 17, rand.randrange(1, 49))), rand.choice((1, 2, 5, rand.randrange(1, 33)))
    rows = raster(rand, width, height)
    sizes = gap(rand) + b"%d" % width + gap(rand) + b"%d" % height + rand.choice((b"\n", b" ", b"\r", b"\t"))
    if is_raw:
        size = (width + 7) // 8
        packed = [sum(black << 8 * size - 1 - x for x, black in enumerate(row)).to_bytes(size, "big") for row in rows]
        return b"P4" + sizes + b"".join(packed)
    between = rand.choice((b"", b" ", b"\n", b"\t#c\n"))
    ends = rand.choice((b"", b"\n", b"\r\n"))
    return b"P1" + sizes + ends.join(between.join(b"01"[black : black + 1] for black in row) for row in rows)


def images(rand):
    """One page, several images, or now and then about as many as there may be."""
    count = rand.choice((1, 1, 1, 1, 2, 2, 3, 5)) if rand.randrange(200) else rand.choice((255, 256, 257))
    if count > 5:
        return IMAGE * count
    is_raw = count > 1 or rand.random() < 0.5
    return b"".join(page(rand, is_raw) for _ in range(count))


def changed(rand, data):
    """The bytes with one change."""
    at, end = sorted((rand.randrange(len(data) + 1), rand.randrange(len(data) + 1)))
    near = rand.randrange(min(len(data), 16) + 1)  # most of what may go wrong stands in a header
    kind = rand.randrange(8)
    if kind == 0:
        return data[:at]
    if kind == 1:
        return data[:at] + data[end:]
    if kind == 2:
        return data[:end] + data[at:]
    if kind == 3:
        return data[:at] + bytes([rand.randrange(256)]) + data[at + 1 :]
    if kind == 4:
        return data + rand.choice(WORDS)
    word = rand.choice(WORDS)
    return data[:near] + word + data[near + (len(word) if kind == 5 else 0) :]


def batch(seed, count):
    """So many inputs, the same ones for the same seed."""
    rand = random.Random(seed)
    found = []
    for _ in range(count):
        data = images(rand)
        for _ in range(rand.choice((0, 1, 1, 1, 2, 3, 5))):
            data = changed(rand, data)
        found.append(data[:LONGEST])
    return found
