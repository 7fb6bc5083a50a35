"""A document in other forms: ALTO, PAGE, XHTML, JSON and tesseract's zones."""

import json
import os
from datetime import datetime, timezone

from jinja2 import Environment, FileSystemLoader

from .version import VERSION

TEMPLATES = {"alto": "alto.xml", "page": "page.xml", "xhtml": "page.xhtml"}
ENDINGS = {"uzn": "uzn", "alto": "xml", "page": "xml", "xhtml": "xhtml", "json": "json"}
FORMS = tuple(ENDINGS)
SINGLE = ("uzn", "page")  # of which a file holds one page


def place(box):
    """A box in ALTO's attributes."""
    return f'HPOS="{box.x0}" VPOS="{box.y0}" WIDTH="{box.width}" HEIGHT="{box.height}"'


def points(ends):
    """Points as whole pixels."""
    return " ".join(f"{max(0, round(x))},{max(0, round(y))}" for x, y in ends)


def outline(box):
    """The corners of a box, of which PAGE takes the last pixels inside."""
    right, bottom = box.x1 - 1, box.y1 - 1
    return f"{box.x0},{box.y0} {right},{box.y0} {right},{bottom} {box.x0},{bottom}"


def slope(line):
    """A baseline as hOCR has it: from the lower left corner of the line's box, y downwards."""
    (x0, y0), (x1, y1) = line.baseline
    fall = (y1 - y0) / (x1 - x0) if x1 != x0 else 0.0
    return f"{fall:.3f} {round(y0 + fall * (line.box.x0 - x0)) - line.box.y1}"


def by_template(form, sheets, picture):
    """The text of a form that has a template."""
    environment = Environment(
        loader=FileSystemLoader(os.path.dirname(os.path.realpath(__file__))), autoescape=True, keep_trailing_newline=True
    )
    from markupsafe import Markup

    environment.globals.update(place=lambda box: Markup(place(box)), points=points, outline=outline, slope=slope)
    time = datetime.now(timezone.utc).strftime("%Y-%m-%dT%H:%M:%SZ")
    return environment.get_template(TEMPLATES[form]).render(sheets=sheets, picture=picture, version=VERSION, time=time)


def zones(sheets):
    """Tesseract's zones of a page, which it reads from NAME.uzn beside NAME.png with --psm 4: one line an area."""
    return "".join(f"{area.box.x0} {area.box.y0} {area.box.width} {area.box.height} Text\n" for sheet in sheets for area in sheet.areas)


def as_json(sheets, picture):
    """All that the document tells, with boxes as [x0, y0, x1, y1], half-open."""

    def sides(box):
        return [box.x0, box.y0, box.x1, box.y1]

    def line_of(line):
        told = {"id": line.id, "bbox": sides(line.box), "baseline": [list(end) for end in line.baseline] if line.baseline else None}
        if line.depth:
            told["depth"] = round(line.depth, 1)
        if line.words:
            told["words"] = [{"bbox": sides(word.box), "text": word.text, "confidence": word.sure} for word in line.words]
        return told

    def page_of(sheet):
        return {
            "number": sheet.number,
            "picture": picture or sheet.picture,
            "width": sheet.width,
            "height": sheet.height,
            "cycle": sheet.cycle,
            "areas": [{"id": area.id, "bbox": sides(area.box), "lines": [line_of(line) for line in area.lines]} for area in sheet.areas],
            "gutters": [sides(box) for box in sheet.gutters],
            "whites": [sides(box) for box in sheet.whites],
        }

    return json.dumps({"picture": picture or sheets[0].picture, "pages": [page_of(sheet) for sheet in sheets]}, indent=1, ensure_ascii=False) + "\n"


def written(form, sheets, picture=""):
    """The pages in this form, a single one in a form that holds one. Where no picture's name is given it is the one that the page tells."""
    if form == "uzn":
        return zones(sheets)
    if form == "json":
        return as_json(sheets, picture)
    return by_template(form, sheets, picture)
