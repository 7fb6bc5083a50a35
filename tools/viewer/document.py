"""An hOCR document as pages of elements with boxes, read by its classes and properties as hOCR 1.2 has them."""

import math
import re
from dataclasses import dataclass, field

from lxml import etree, html

# The classes of text lines in hOCR 1.2; tesseract writes the last four in place of `ocr_line` where it thinks it knows more.
LINE_CLASSES = {"ocr_line", "ocrx_line", "ocr_header", "ocr_footer", "ocr_caption", "ocr_textfloat"}

HOCR_CLASS = re.compile(r"ocrx?_[a-z_]+$")


class NotHocr(Exception):
    """The text is no hOCR document with the page that was asked for; the message says why."""


@dataclass(frozen=True)
class Box:
    """A half-open box of pixels: x0 <= x < x1 and y0 <= y < y1, y downwards from the page's upper edge."""

    x0: int
    y0: int
    x1: int
    y1: int

    @property
    def width(self):
        return self.x1 - self.x0

    @property
    def height(self):
        return self.y1 - self.y0

    def __str__(self):
        return f"{self.x0} {self.y0} {self.x1} {self.y1}"


@dataclass
class Element:
    """One element of the document that has a box."""

    id: str
    hocr_class: str
    box: Box
    properties: dict
    text: str = ""
    area: str = ""  # the id of the area round it, where there is one

    def baseline(self):
        """Both ends (x, y) of a text line's baseline, or None where the element tells none that is a straight line.

        `baseline SLOPE CONST` is measured from the lower left corner of the line's box, y downwards.
        """
        numbers = numbers_of(self.properties.get("baseline", ""))
        if len(numbers) != 2 or "textangle" in self.properties:
            return None
        slope, constant = numbers
        left = self.box.y1 + constant
        return (self.box.x0, left), (self.box.x1, left + slope * self.box.width)

    def depth(self):
        """How many pixels the feet of a text line's descenders stand below its baseline; 0 where the element tells none."""
        numbers = numbers_of(self.properties.get("x_depth", ""))
        return max(0, numbers[0]) if len(numbers) == 1 else 0


@dataclass
class Page:
    """A page of the document: its box, its own properties, and its elements in the document's order."""

    number: int
    id: str
    box: Box
    properties: dict
    elements: list
    cycle: list = field(default_factory=list)  # ids of lines that stand each before the next, where there is no order
    system: str = ""

    def lines(self):
        """The text lines in the document's order, which is the reading order where there is one."""
        return [element for element in self.elements if element.hocr_class in LINE_CLASSES]


def numbers_of(text):
    """The numbers of a property's value, or none where a word of it is no finite number."""
    try:
        numbers = [float(word) for word in text.split()]
    except ValueError:
        return []
    return numbers if all(map(math.isfinite, numbers)) else []


def properties_of(title):
    """The properties of a `title` attribute: `name value; name value`, where a value may have a `;` between quotes."""
    found = {}
    for part in re.findall(r"""(?:[^;"']|"[^"]*"|'[^']*')+""", title or ""):
        name, _, value = part.strip().partition(" ")
        if name:
            found[name] = value.strip()
    return found


def box_of(properties):
    """The box that `bbox X0 Y0 X1 Y1` tells, or None."""
    numbers = numbers_of(properties.get("bbox", ""))
    return Box(*(int(number) for number in numbers)) if len(numbers) == 4 else None


def class_of(node):
    """The first class of the node that hOCR or an engine gives, or None."""
    return next((name for name in (node.get("class") or "").split() if HOCR_CLASS.match(name)), None)


def metadata(root, name):
    """The contents of all `meta` elements of this name."""
    return [node.get("content") or "" for node in root.iter("meta") if node.get("name") == name]


def cycles_of(root):
    """By the numbers of the pages whose `layout-order` tells a cycle, the ids of the lines of it."""
    cycles = {}
    for content in metadata(root, "layout-order"):
        words = content.split()
        if words[1:2] == ["cycle"]:
            cycles[words[0]] = [f"line_{words[0]}_{line}" for line in words[2:]]
    return cycles


def element_of(node, hocr_class, properties, box, places):
    """The element of a node; one without an id is given one by the places of its page and of itself."""
    text = " ".join("".join(node.itertext()).split()) if hocr_class == "ocrx_word" else ""
    areas = (outer.get("id") or "" for outer in node.iterancestors() if class_of(outer) == "ocr_carea")
    return Element(node.get("id") or "-".join(map(str, (hocr_class, *places))), hocr_class, box, properties, text, next(areas, ""))


def elements_of(page_node, page_place):
    """All elements with boxes below a page, in the document's order."""
    elements = []
    for node in page_node.iterdescendants(etree.Element):
        hocr_class = class_of(node)
        if hocr_class is None:
            continue
        properties = properties_of(node.get("title"))
        box = box_of(properties)
        if box is not None:
            elements.append(element_of(node, hocr_class, properties, box, (page_place, len(elements))))
    return elements


def page_of(node, place, cycles, system):
    """The page of a node, which stands at this place, from 0; raises NotHocr."""
    properties = properties_of(node.get("title"))
    box = box_of(properties)
    if box is None:
        raise NotHocr(f"its page at place {place}, counted from 0, has no bbox")
    numbers = numbers_of(properties.get("ppageno", ""))
    number = int(numbers[0]) if numbers else place
    name = node.get("id") or f"page-{place}"
    return Page(number, name, box, properties, elements_of(node, place), cycles.get(str(number), []), system)


def read_pages(text):
    """All pages of the hOCR document that the bytes spell, one at least; raises NotHocr."""
    try:
        root = html.fromstring(text)
    except (etree.ParserError, etree.XMLSyntaxError, ValueError) as fault:
        raise NotHocr(f"it cannot be read as HTML ({fault})") from fault
    nodes = [node for node in root.iter(etree.Element) if class_of(node) == "ocr_page"]
    if not nodes:
        raise NotHocr("no element in it has the class ocr_page")
    if not text.rstrip().lower().endswith(b"</html>"):
        raise NotHocr("it does not end with </html>: it was cut off")
    cycles, system = cycles_of(root), next(iter(metadata(root, "ocr-system")), "")
    return [page_of(node, place, cycles, system) for place, node in enumerate(nodes)]


def chosen(pages, place):
    """The page at this place, from 0; raises NotHocr."""
    if not 0 <= place < len(pages):
        raise NotHocr(f"it has {len(pages)} page(s), counted from 0, and page {place} was asked for")
    return pages[place]
