"""Judges a short input by docs/DEFINITIONS.md, "The page" and "Several pages in one input", without any code of the programs."""

import re

LONGEST_SIDE, MOST_PIXELS, MOST_IMAGES, GREATEST_TOLD = 8192, 33_554_432, 256, 999_999_999
WHITE = b" \t\r\n"
GAP = re.compile(rb"(?:[ \t\r\n]|#[^\r\n]*[\r\n])*")
DIGITS = re.compile(rb"[0-9]*")
PIXEL = re.compile(rb"(?:[ \t\r\n]|#[^\r\n]*[\r\n])*[01]")


class Fault(Exception):
    """What stands behind `bad page: ` or `limit: `, and the status."""

    def __init__(self, line, status=3):
        super().__init__(line)
        self.line, self.status = line, status


def expect(data, at, is_there, what):
    """Goes on where something is there; else the input is truncated, or the byte is one that may not stand there."""
    if not is_there:
        if at == len(data) or data[at : at + 1] == b"#" and GAP.match(data, at).end() == at:
            raise Fault(f"bad page: truncated at {len(data)}")
        raise Fault(f"bad page: {what} at {at}")


def number(data, at):
    """The gap and the number that begin here, and where they end."""
    start = GAP.match(data, at).end()
    if start == at:
        expect(data, at, False, "header")
    end = DIGITS.match(data, start).end()
    expect(data, start, end > start, "header")
    return int(data[start:end]), end


def header(data, begins):
    """The width and the height of the image that begins here, and where its header ends. The first one alone may be plain."""
    for at, wanted in enumerate((b"P", b"4" if begins else b"14"), begins):
        if at >= len(data) or data[at] not in wanted:
            raise Fault(f"bad page: magic at {at}")
    width, at = number(data, begins + 2)
    height, at = number(data, at)
    if at == len(data):
        raise Fault(f"bad page: truncated at {at}")
    if data[at] not in WHITE:
        raise Fault(f"bad page: header at {at}")
    if width == 0 or height == 0:
        raise Fault("bad page: zero size")
    if max(width, height) > LONGEST_SIDE or width * height > MOST_PIXELS:
        raise Fault(f"limit: size {min(width, GREATEST_TOLD)} by {min(height, GREATEST_TOLD)}", 4)
    return width, height, at + 1


def raw_pixels(data, at, width, height):
    """How many pixels of a raw raster are black, and where it ends."""
    size = (width + 7) // 8
    end = at + size * height
    if len(data) < end:
        raise Fault(f"bad page: truncated at {len(data)}")
    mask = (1 << 8 * size) - (1 << 8 * size - width)
    return sum((int.from_bytes(data[row : row + size], "big") & mask).bit_count() for row in range(at, end, size)), end


def plain_pixels(data, at, width, height):
    """How many pixels of a plain raster are black, and where the input ends."""
    black = 0
    for _ in range(width * height):
        found = PIXEL.match(data, at)
        if not found:
            expect(data, GAP.match(data, at).end(), False, "pixel")
        at = found.end()
        black += data[at - 1] == ord("1")
    if at < len(data) and data[at] not in WHITE:
        raise Fault(f"bad page: trailing at {at}")
    return black, len(data)


def pages(data):
    """The width, the height and the black pixels of each page."""
    found, at = [], 0
    while not found or at < len(data):
        if len(found) == MOST_IMAGES:
            raise Fault(f"limit: over {MOST_IMAGES} images", 4)
        width, height, at, begins = *header(data, at), at
        black, at = (raw_pixels if data[begins + 1] == ord("4") else plain_pixels)(data, at, width, height)
        found.append((width, height, black))
    return found


def judge(data):
    """The status that a run on this input has to have, and the line of standard error, or the titles of the pages in the document."""
    assert len(data) <= 65536, "a long header has faults of its own"
    try:
        told = pages(data)
    except Fault as fault:
        return fault.status, f"{fault.line}\n".encode()
    titles = (f"title='bbox 0 0 {width} {height}; ppageno {place}; x_black {black}'" for place, (width, height, black) in enumerate(told))
    return 0, [title.encode() for title in titles]
