"""What is drawn of a page, in layers: boxes, baselines at their real slope, and the reading order as numbered arrows."""

import math
import re
from dataclasses import dataclass, field

from viewer.document import LINE_CLASSES


@dataclass
class Layer:
    """One layer of the overlay, which can be switched by itself. The colours are Okabe and Ito's, or near them."""

    key: str
    title: str
    colour: str
    always: bool  # told even where the document has nothing of it
    first: bool  # shown when the view is opened
    shapes: list = field(default_factory=list)


@dataclass
class Shape:
    """A box of the document, with what is told of it."""

    element: object
    facts: list
    label: str = ""
    label_size: float = 0.0

    @property
    def box(self):
        return self.element.box


@dataclass
class Stroke:
    """A line's baseline, or the line on which its descenders stand, from its left to its right end."""

    element: object
    left: tuple
    right: tuple


@dataclass
class Badge:
    """The number of a line in the reading order, or in the cycle, and where it stands."""

    element: object
    number: int
    x: float
    y: float
    half: float  # half the width; its half height is the drawing's unit


@dataclass
class Arrow:
    """An arrow between two badges: a shaft and a head of three corners. `is_jump` where it leaves an area."""

    start: tuple
    neck: tuple
    head: list
    is_jump: bool
    number: int


@dataclass
class Drawing:
    """All that the overlay of a page shows, from the lowest layer to the highest, in pixels of the page."""

    page: object
    layers: list
    unit: float  # the half height of a badge
    badges: list
    arrows: list

    def layer(self, key):
        return next(layer for layer in self.layers if layer.key == key)


KINDS = {"ocrx_whitespace": "white", "ocr_separator": "gutter", "ocrx_block": "block", "ocrx_cell": "cell"}
KINDS.update({"ocr_carea": "area", "ocr_par": "paragraph", "ocrx_word": "word"})
KINDS.update({name: "line" for name in LINE_CLASSES})
NAMES = {"white": "white rectangle", "area": "area", "paragraph": "paragraph", "line": "text line"}  # the others are named by their kind


def kind_of(element):
    """Which layer shows the element."""
    return KINDS.get(element.hocr_class, "other")


def empty_layers(cycle):
    order = "Cycle: no reading order" if cycle else "Reading order"
    return [
        Layer("white", "White rectangles", "#56b4e9", True, False),
        Layer("gutter", "Gutters", "#e69f00", True, False),
        Layer("block", "Blocks", "#a06a2c", False, False),
        Layer("cell", "Cells", "#5b4fb5", False, False),
        Layer("other", "Other elements", "#777777", False, False),
        Layer("paragraph", "Paragraphs", "#8a7a00", False, False),
        Layer("area", "Areas", "#009e73", True, False),
        Layer("word", "Words", "#999999", False, False),
        Layer("line", "Text lines", "#0072b2", True, True),
        Layer("baseline", "Baselines", "#d55e00", True, True),
        Layer("descender", "Feet of descenders", "#cc79a7", False, True),
        Layer("order", order, "#c0182b" if cycle else "#8f2a83", True, True),
    ]


def facts_of(element, place, count):
    """What is told of an element, one sentence an entry. `place` is its place in the reading order, from 1, or None."""
    box = element.box
    kind = kind_of(element)
    facts = [element.hocr_class if kind == "other" else NAMES.get(kind, kind)]
    if kind == "white" and (number := re.search(r"_(\d+)$", element.id)):
        facts[0] += f", found after {number[1]} others"
    if place is not None:
        facts[0] += f", number {place} of {count} in the reading order"
    facts.append(f"box {box}: {box.width} by {box.height} pixels, {box.width * box.height:,} in all")
    if element.area:
        facts.append(f"in {element.area}")
    facts.extend(f"{name} {value}" for name, value in element.properties.items() if name != "bbox")
    if element.text:
        facts.append(f"“{element.text}”")
    return facts


def unit_of(page):
    """The half height of a badge: a little below half of the usual line's, within what suits the page."""
    longer = max(page.box.width, page.box.height)
    heights = sorted(line.box.height for line in page.lines())
    usual = heights[len(heights) // 2] if heights else longer / 60
    return min(max(0.42 * usual, longer / 260), longer / 25)


def label_of(element):
    """What is written into the element's box: a white rectangle's number, and a cell's path."""
    if kind_of(element) == "white" and (number := re.search(r"_(\d+)$", element.id)):
        return number[1]
    return element.properties.get("x_path", "") if kind_of(element) == "cell" else ""


def shape_of(element, unit, place, count):
    shape = Shape(element, facts_of(element, place, count), label_of(element))
    if shape.label:
        shape.label_size = min(1.6 * unit, 0.6 * min(element.box.width / len(shape.label) * 1.6, element.box.height))
    return shape


def badge_of(line, number, unit, page):
    """The badge left of the line, or at the page's edge where there is no room."""
    half = unit * max(1.0, 0.35 + 0.35 * len(str(number)))
    middle = (line.box.y0 + line.box.y1) / 2
    return Badge(line, number, max(page.box.x0 + half, line.box.x0 - half - 0.4 * unit), middle, half)


def arrow_between(start, end, unit, number):
    """The arrow from the edge of one badge to the edge of another; None where they stand upon each other."""
    across, down = end.x - start.x, end.y - start.y
    length = math.hypot(across, down)
    upright = abs(down) >= abs(across)
    free = length - 2 * unit if upright else length - start.half - end.half
    if free <= 0:
        return None
    step_x, step_y = across / length, down / length
    before, behind = (unit, unit) if upright else (start.half, end.half)
    tip = length - behind
    neck = max(before, tip - 0.9 * unit)

    def at(along, aside=0.0):
        return start.x + step_x * along - step_y * aside, start.y + step_y * along + step_x * aside

    head = [at(tip), at(neck, 0.55 * unit), at(neck, -0.55 * unit)]
    return Arrow(at(before), at(neck), head, start.element.area != end.element.area, number)


def badges_and_arrows(page, unit):
    """The numbered lines and the arrows from each to the next; round a cycle where there is no order."""
    lines = page.lines()
    if page.cycle:
        by_id = {line.id: line for line in lines}
        lines = [by_id[name] for name in page.cycle if name in by_id]
    badges = [badge_of(line, place + 1, unit, page) for place, line in enumerate(lines)]
    pairs = list(zip(badges, badges[1:]))
    if page.cycle and len(badges) > 1:
        pairs.append((badges[-1], badges[0]))
    arrows = [arrow_between(start, end, unit, start.number) for start, end in pairs]
    return badges, [arrow for arrow in arrows if arrow is not None]


def draw(page):
    """The drawing of a page of a document."""
    unit = unit_of(page)
    drawing = Drawing(page, empty_layers(page.cycle), unit, *badges_and_arrows(page, unit))
    lines = page.lines()
    places = {} if page.cycle else {line.id: place + 1 for place, line in enumerate(lines)}
    for element in page.elements:
        shape = shape_of(element, unit, places.get(element.id), len(lines))
        drawing.layer(kind_of(element)).shapes.append(shape)
    for line in lines:
        ends = line.baseline()
        if ends is not None:
            drawing.layer("baseline").shapes.append(Stroke(line, *ends))
            if line.depth() > 0:
                below = [(x, y + line.depth()) for x, y in ends]
                drawing.layer("descender").shapes.append(Stroke(line, *below))
    drawing.layer("order").shapes = drawing.badges
    drawing.layers = [layer for layer in drawing.layers if layer.always or layer.shapes]
    return drawing
