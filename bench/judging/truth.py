"""The true lines of a page of a PDF: where they stand in pixels, their text, their order, and the white between columns."""

import re
import subprocess
import unicodedata
from dataclasses import dataclass
from statistics import median_low

import numpy as np
from lxml import etree

RESOLUTION = 300  # dots per inch of the pixels in which everything is judged
TURNED = 1.5  # a line of three characters and more that is higher than this many of its widths is turned
SHORT = 3  # a line of fewer characters is not judged
LEADERS = 5  # so many lines with a row of dots make a page one of contents
FORMULAS = 5  # so many lines of mathematics make a page one of mathematics
CLASSES = ("text", "columns", "contents", "mathematics")


class NoTruth(Exception):
    """The PDF tells no lines of the page."""


@dataclass
class Line:
    """A line: its box (x0, y0, x1, y1), text, the number of its block, and 'line', or why it is not judged."""

    box: tuple
    text: str
    block: int
    kind: str

    @property
    def letters(self):
        return len(self.text.replace(" ", ""))


@dataclass
class Truth:
    """A page: its size in pixels, its lines in pdftotext's order, and the gutters (x0, x1, y0, y1) between its columns.

    `unclear` counts the strips between blocks in which other lines stand, as in a table: gutters of such a page are not judged."""

    width: int
    height: int
    lines: list
    gutters: list
    unclear: int

    @property
    def judged(self):
        return [line for line in self.lines if line.kind == "line"]

    @property
    def kind(self):
        """The class of the page."""
        if sum(bool(re.search(r"(?:[.·]\s*){4}", line.text)) for line in self.lines) >= LEADERS:
            return "contents"
        if self.gutters:
            return "columns"
        if sum(line.kind == "formula" for line in self.lines) >= FORMULAS:
            return "mathematics"
        return "text"


def overlap(first0, first1, second0, second1):
    """How many pixels two ranges share; negative where there is a gap."""
    return min(first1, second1) - max(first0, second0)


def around(boxes):
    """The least box round boxes."""
    return min(b[0] for b in boxes), min(b[1] for b in boxes), max(b[2] for b in boxes), max(b[3] for b in boxes)


def kind_of(box, text):
    """'line', or why the line is not judged: 'turned', 'short', 'formula'."""
    letters = text.replace(" ", "")
    width, height = box[2] - box[0], box[3] - box[1]
    if len(letters) < SHORT:
        return "short"
    if height > TURNED * width:
        return "turned"
    greek = any(unicodedata.category(c) in ("Sm", "Co") or "\u0370" <= c <= "\u03ff" or "\U0001d400" <= c <= "\U0001d7ff" for c in letters)
    in_words = sum(len(word) for word in re.findall(r"[^\W\d_]{3,}", text))
    return "formula" if greek and 2 * in_words < len(letters) else "line"


def told(pdf, page):
    """The page's width and height in points, and its blocks: lists of lines (box, text)."""
    words = ["pdftotext", "-bbox-layout", "-f", str(page), "-l", str(page), pdf, "-"]
    text = subprocess.run(words, capture_output=True, check=False).stdout
    text = re.sub(rb"<head>.*?</head>|[\x00-\x08\x0b\x0c\x0e-\x1f]", b"", text, flags=re.DOTALL)
    try:
        root = etree.fromstring(text, etree.XMLParser(recover=True, load_dtd=False, no_network=True))
    except etree.XMLSyntaxError as fault:
        raise NoTruth(str(fault)) from fault
    node = None if root is None else root.find(".//{*}page")
    if node is None:
        raise NoTruth("it tells no page")
    blocks = [
        [(box_of(line), " ".join(word.text or "" for word in line.iter("{*}word"))) for line in block.iter("{*}line")]
        for block in node.iter("{*}block")
    ]
    return float(node.get("width")), float(node.get("height")), blocks


def box_of(node):
    return [float(node.get(name)) for name in ("xMin", "yMin", "xMax", "yMax")]


def shrunk(box, ink):
    """The box in pixels, shrunk to the ink in it, or None where there is none."""
    x0, y0, x1, y1 = max(0, int(box[0])), max(0, int(box[1])), int(np.ceil(box[2])), int(np.ceil(box[3]))
    if ink is None:
        return x0, y0, x1, y1
    part = ink[y0:y1, x0:x1]
    columns, rows = np.flatnonzero(part.any(axis=0)), np.flatnonzero(part.any(axis=1))
    if not len(columns):
        return None
    return x0 + int(columns[0]), y0 + int(rows[0]), x0 + int(columns[-1]) + 1, y0 + int(rows[-1]) + 1


def lines_of(blocks, ink):
    """All lines in pixels, each once: a letter that is set twice to look bold is told twice."""
    scale, seen, found = RESOLUTION / 72, set(), []
    for number, block in enumerate(blocks):
        for box, text in block:
            place = shrunk([side * scale for side in box], ink)
            if place is None:
                continue
            key = (place[0] // 4, place[1] // 4, place[2] // 4, text)
            if key not in seen:
                seen.add(key)
                found.append(Line(place, text, number, kind_of(box, text)))
    return found


def body_blocks(lines, width):
    """The boxes of the blocks that can be columns, with the height of their lines: three lines and more, and wide enough."""
    blocks = {}
    for line in lines:
        if line.kind in ("line", "formula"):
            blocks.setdefault(line.block, []).append(line)
    for block in blocks.values():
        box = around([line.box for line in block])
        letters = median_low([line.letters for line in block])
        if len(block) >= 3 and letters >= 12 and box[2] - box[0] >= 0.12 * width:
            yield box, median_low([line.box[3] - line.box[1] for line in block])


def strips_between(body):
    """The strips (x0, x1, y0, y1) between blocks side by side with no other between them, the narrowest first."""
    strips = []
    for left, left_height in body:
        for right, right_height in body:
            low, high = max(left[1], right[1]), min(left[3], right[3])
            if left[2] > right[0] or high - low < 3 * max(left_height, right_height):
                continue
            if not any(c[0] >= left[2] and c[2] <= right[0] and overlap(c[1], c[3], low, high) > 0 for c, _ in body):
                strips.append((left[2], right[0], low, high))
    return sorted(strips, key=lambda strip: strip[1] - strip[0])


def gutters_of(lines, width, height):
    """The true gutters, and how many strips are unclear."""
    joined = []
    for x0, x1, y0, y1 in strips_between(list(body_blocks(lines, width))):
        same = next((s for s in joined if overlap(s[0], s[1], x0, x1) > 0), None)
        if same is None:
            joined.append([x0, x1, y0, y1])
        else:
            same[:] = max(same[0], x0), min(same[1], x1), min(same[2], y0), max(same[3], y1)
    clear, unclear = [], 0
    for x0, x1, y0, y1 in joined:
        if y1 - y0 < 0.10 * height:
            continue
        within = sum(overlap(b[1], b[3], y0, y1) > 0 and 10 * overlap(b[0], b[2], x0, x1) > x1 - x0 for b in (line.box for line in lines))
        if within >= 3:
            unclear += 1
        else:
            clear.append((x0, x1, y0, y1))
    return clear, unclear


def truth_of(pdf, page, ink=None):
    """What is true of a page of a PDF; `ink` has a one for each black pixel. Raises NoTruth."""
    width, height, blocks = told(pdf, page)
    width, height = round(width * RESOLUTION / 72), round(height * RESOLUTION / 72)
    lines = lines_of(blocks, ink)
    return Truth(width, height, lines, *gutters_of(lines, width, height))
