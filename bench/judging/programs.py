"""The programs that are judged, each on one page, with their lines on the page at 300 dots per inch."""

import ctypes
import hashlib
import os
import re
import subprocess
import sys
from dataclasses import dataclass
from functools import cache

TOP = os.path.dirname(os.path.dirname(os.path.dirname(os.path.realpath(__file__))))
sys.path.insert(0, os.path.join(TOP, "tools"))

from scan.inputs import SET_AT  # noqa: E402
from scan.leptonica import Picture  # noqa: E402
from scan.preparing import STEPS, prepared  # noqa: E402
from scan.reading import sheets_of  # noqa: E402
from scan.transform import Transform  # noqa: E402

from .measures import Layout  # noqa: E402
from .truth import RESOLUTION  # noqa: E402

LINES_AT = 150_000  # pixTextlineSelect's widths of a page that leptonica would reduce: none is


class Failed(Exception):
    """The program gave no layout."""


@dataclass(frozen=True)
class Condition:
    """A way to find the lines of a page: its name in the tables, the call, and by which files it finds other lines when they change."""

    name: str
    call: object
    mark: str = ""

    @property
    def folder(self):
        """The name of the folder in which its answers are kept."""
        return self.name.replace("/", "-") + (f"@{self.mark}" if self.mark else "")


@cache
def mark_of(program, *more):
    """Twelve digits that change where layout1, what prepares its pages, or one more file of tools/scan does."""
    digest = hashlib.sha256()
    preparing = os.path.join(TOP, "tools", "scan")
    for file in (program, *(os.path.join(preparing, name) for name in ("leptonica.py", "preparing.py", "transform.py", *more))):
        with open(file, "rb") as opened:
            digest.update(opened.read())
    return digest.hexdigest()[:12]


def layout_of(document, transform=None):
    """The layout that an hOCR document tells."""
    sheet = sheets_of(document, [transform], 0)[0]
    boxes = [(line.box.x0, line.box.y0, line.box.x1, line.box.y1) for line in sheet.lines]
    return Layout(boxes, [(box.x0, box.y0, box.x1, box.y1) for box in sheet.gutters], bool(sheet.cycle))


def layout1(program, content, transform, rects=None):
    """What layout1 finds on the bytes of a page; None where it refuses."""
    words = [program] + ([] if rects is None else ["--rects", str(rects)])
    done = subprocess.run(words, input=content, capture_output=True, check=False)
    return layout_of(done.stdout, transform) if done.returncode == 0 else None


def plain(program, resolution):
    """layout1 on the page as pdftoppm -mono draws it."""

    def call(page):
        with open(page.picture(resolution), "rb") as file:
            content = file.read()
        scale = RESOLUTION / resolution
        return layout1(program, content, Transform(*page.size, a=scale, e=scale))

    return Condition(f"layout1, {resolution} dots per inch", call, mark_of(program))


def through_pages(program, name, steps=STEPS, rects=None):
    """layout1 on the page as tools/pages prepares it."""

    def call(page):
        with open(page.picture(SET_AT, "gray"), "rb") as file:
            made = prepared(Picture.read(file.read()), SET_AT, steps)
        return layout1(program, made.pbm(), made.transform, rects)

    return Condition(name, call, mark_of(program))


def tesseract(page):
    words = ["tesseract", page.picture(), "-", "--psm", "3", "hocr"]
    done = subprocess.run(words, capture_output=True, check=False, env={**os.environ, "OMP_THREAD_LIMIT": "1"})
    return layout_of(done.stdout) if done.returncode == 0 else None


def ocrad(page):
    """The lines of `ocrad -l` by the boxes of their letters."""
    done = subprocess.run(["ocrad", "-l", "-x", "-", page.picture()], capture_output=True, check=False)
    lines = []
    for row in done.stdout.decode("utf-8", "replace").splitlines():
        if row.startswith("line "):
            lines.append([])
        letter = re.match(r"\s*(-?\d+)\s+(-?\d+)\s+(\d+)\s+(\d+);\s*\d+(.*)", row)
        if letter and lines and letter[5].strip(", ")[:3] != "' '":
            x, y, width, height = (int(letter[i]) for i in range(1, 5))
            lines[-1].append((x, y, x + width, y + height))
    found = [(min(b[0] for b in l), min(b[1] for b in l), max(b[2] for b in l), max(b[3] for b in l)) for l in lines if l]
    return Layout(found, [])


def leptonica(page):
    """Leptonica's masks of text lines, which have no order."""
    with open(page.picture(), "rb") as file:
        picture = Picture.read(file.read())
    lept = Picture.lept
    lept.pixExtractTextlines.restype = ctypes.c_void_p
    lept.pixExtractTextlines.argtypes = [ctypes.c_void_p] + 6 * [ctypes.c_int] + [ctypes.c_void_p]
    lept.pixaGetBoxGeometry.argtypes = [ctypes.c_void_p, ctypes.c_int] + 4 * [ctypes.POINTER(ctypes.c_int)]
    lept.pixaGetCount.argtypes = [ctypes.c_void_p]
    lept.pixaDestroy.argtypes = [ctypes.POINTER(ctypes.c_void_p)]
    found = ctypes.c_void_p(lept.pixExtractTextlines(picture.address, LINES_AT, LINES_AT, 0, 0, 5, 5, None))
    lines = []
    for number in range(lept.pixaGetCount(found) if found else 0):
        x, y, width, height = (ctypes.c_int() for _ in range(4))
        lept.pixaGetBoxGeometry(found, number, *(ctypes.byref(side) for side in (x, y, width, height)))
        lines.append((x.value, y.value, x.value + width.value, y.value + height.value))
    lept.pixaDestroy(ctypes.byref(found))
    return Layout(lines, [])


def conditions(program):
    """All of them; the first five are the programs, the others what a user may choose."""
    every = [
        plain(program, 300),
        through_pages(program, "tools/pages"),
        Condition("tesseract", tesseract),
        Condition("ocrad -l", ocrad),
        Condition("leptonica's masks", leptonica),
    ]
    every += [plain(program, resolution) for resolution in (150, 200, 400)]
    every.append(through_pages(program, "no step", ()))
    every += [through_pages(program, f"{step} alone", (step,)) for step in STEPS]
    return every + [through_pages(program, f"--rects {rects}", rects=rects) for rects in (8, 64, 256)]
