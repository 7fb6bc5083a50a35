"""A document as areas of lines of words, in reading order, on the page that came in."""

import os
import sys
from dataclasses import dataclass, field

sys.path.insert(0, os.path.dirname(os.path.dirname(os.path.realpath(__file__))))

from viewer.document import LINE_CLASSES, Box, NotHocr, chosen, read_pages  # noqa: E402


@dataclass
class Word:
    """A word's text, its box, and how sure its recogniser is, from 0 to 100, or None."""

    id: str
    box: Box
    text: str
    sure: int | None = None


@dataclass
class Line:
    """A line's box, both ends (x, y) of its baseline where it tells one, its words, and how far below the baseline its descenders end."""

    id: str
    box: Box
    baseline: tuple | None
    words: list = field(default_factory=list)
    depth: float = 0

    @property
    def text(self):
        return " ".join(word.text for word in self.words if word.text)


@dataclass
class Area:
    """An area's box and its lines. A line outside all areas stands in one of its own."""

    id: str
    box: Box
    lines: list = field(default_factory=list)


@dataclass
class Sheet:
    """A page: its number, the name of its picture where the document tells one, its size in pixels, and its areas in reading order, or by
    numbers where there is none."""

    number: int
    picture: str
    width: int
    height: int
    areas: list
    gutters: list
    whites: list
    cycle: list

    @property
    def lines(self):
        return [line for area in self.areas for line in area.lines]


def moved(box, transform):
    """The box on the page that came in."""
    return box if transform is None else Box(*transform.box(box.x0, box.y0, box.x1, box.y1))


def baseline_of(element, transform):
    ends = element.baseline()
    if ends is None or transform is None:
        return ends
    return tuple(transform.at(*end) for end in ends)


def depth_of(element, transform):
    """The depth of a line's descenders, in pixels of the page that came in."""
    return element.depth() if transform is None else element.depth() * transform.e


def sheet_of(page, transform=None):
    """The page of a document; with a transform on the page that came in."""
    areas, whites, gutters, known = [], [], [], {}
    for element in page.elements:
        box = moved(element.box, transform)
        if element.hocr_class == "ocr_carea":
            known[element.id] = Area(element.id, box)
            areas.append(known[element.id])
        elif element.hocr_class in LINE_CLASSES:
            line = Line(element.id, box, baseline_of(element, transform), depth=depth_of(element, transform))
            if element.area not in known:
                areas.append(Area(f"area-of-{element.id}", box, [line]))
            else:
                known[element.area].lines.append(line)
            last = line
        elif element.hocr_class == "ocrx_word":
            sure = element.properties.get("x_wconf", "")
            last.words.append(Word(element.id, box, element.text, int(float(sure)) if sure else None))
        elif element.hocr_class == "ocrx_whitespace":
            whites.append(box)
        elif element.hocr_class == "ocr_separator":
            gutters.append(box)
    width, height = (page.box.width, page.box.height) if transform is None else (transform.width, transform.height)
    picture = page.properties.get("image", "").strip("\"'")
    return Sheet(page.number, picture, width, height, [area for area in areas if area.lines], gutters, whites, page.cycle)


def sheets_of(text, transforms=(), place=None):
    """All pages of a document, or the one at this place, from 0; with transforms, one a page, as they lie on the pages that came in.
    A single transform may also be that of the one page that is wanted. Raises NotHocr, and ValueError where they are too many or too few."""
    pages = read_pages(text)
    if len(transforms) == len(pages):
        pairs = list(zip(pages, transforms))
    elif len(transforms) > 1 or transforms and place is None:
        raise ValueError(f"there are transforms of {len(transforms)} page(s), and the document has {len(pages)}")
    else:
        pairs = [(page, *(transforms or [None])) for page in pages]
    return [sheet_of(*pair) for pair in (pairs if place is None else [chosen(pairs, place)])]
