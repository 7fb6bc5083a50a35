"""The steps that make a page for `layout1` of a scan or of a page of a PDF: each can be left out, and each says what it did."""

import math
from dataclasses import dataclass, field

from .leptonica import PNM
from .transform import Transform

TARGET = 150  # dots per inch at which the lines of print are found best
LEAST_SKEW = 1.0  # degrees; below this turning a page tears more lines than it mends
LEAST_SURE = 3.0  # leptonica's measure of how sure a skew is
LEVEL = 170  # a grey pixel below this is black where paper is white: a stroke of one pixel at 300 dots per inch is 128 or so at 150
PAPER = 250  # a grey pixel from this on is pure white
DIGITAL = 0.5  # the least share of pure white pixels of a page that was set, and not scanned
WINDOW, FACTOR = 20, 0.35  # Sauvola's threshold at the target resolution
MOST_DOT = 9  # pixels of a mark at the target resolution: grain, leaders, and the dots of i and j
RULE_LENGTH, RULE_WIDTH = 60, 5  # pixels at the target resolution: a line at least this long and at most this wide is a rule
STEPS = ("margins", "screens", "rules", "dots", "deskew")


@dataclass
class Prepared:
    """A page of one bit a pixel, how it lies on the page that came in, and what was done."""

    picture: object
    transform: Transform
    done: list = field(default_factory=list)

    def pbm(self):
        """The page as raw PBM."""
        return self.picture.encoded(PNM)


def resolution_of(picture, told):
    """Dots per inch: as told, as the file says where that can be, or by the longer side of a sheet of A4."""
    if told:
        return told
    if 72 <= picture.resolution <= 1200:
        return picture.resolution
    return max(72, round(max(picture.size) / 11.69))


def reduced(picture, dots):
    """The picture at the target resolution, and how often its sides go into the sides that it had. A coarser one stays as it is."""
    factor = min(1.0, TARGET / dots)
    if factor > 0.95:
        return picture
    if picture.depth == 1 and abs(factor - 0.5) < 0.02:
        return picture.halved(2)
    return (picture.grey() if picture.depth == 1 else picture).scaled(factor)


def thresholded(picture, done):
    """Black and white, by one level where the paper is pure white, and else by Sauvola's threshold."""
    if picture.depth == 1:
        return picture
    grey = picture if picture.depth == 8 else picture.grey()
    width, height = grey.size
    if grey.below(PAPER).black <= (1 - DIGITAL) * width * height:
        return grey.below(LEVEL)
    done.append("Sauvola's threshold")
    return grey.sauvola(WINDOW, FACTOR)


def without_screens(picture, done):
    """The page without photographs, which a printer's screen makes a field of dots."""
    mask = picture.halftone()
    if mask is None:
        return picture
    done.append("photographs taken out")
    return picture.without(mask.dilated(5, 5))


def without_margins(picture, done):
    """The page without what touches its edge: the black round a sheet on the glass, the shadow of a fold."""
    kept = picture.without_border()
    if kept.black < picture.black:
        done.append("the edge made white")
    return kept


def without_rules(picture, done):
    """The page without long thin lines, across and down: rules, frames, the grid of a table."""
    found = False
    for across in (True, False):
        lines = picture.opened(*((RULE_LENGTH, 1) if across else (1, RULE_LENGTH)))
        thick = lines.opened(*((1, RULE_WIDTH + 1) if across else (RULE_WIDTH + 1, 1)))
        thin = lines.without(thick.filled_in(lines))
        if thin.black:
            found = True
            picture = picture.without(thin.dilated(*((1, 3) if across else (3, 1))))
    if found:
        done.append("rules taken out")
    return picture


def without_dots(picture, done):
    """The page without marks of a few pixels where they are more than all others, as grain is, so that the usual mark would be no letter.
    Where they are fewer they stay: a row of dots belongs to its line."""
    kept = picture.without_small(MOST_DOT)
    if 2 * kept.count() >= picture.count():
        return picture
    done.append("dots taken out")
    return kept


def prepared(picture, resolution=0, steps=STEPS):
    """The page that `layout1` finds lines on best, by these steps."""
    width, height = picture.size
    page = Prepared(picture, Transform(width, height))
    dots = resolution_of(picture, resolution)
    if dots < 0.95 * TARGET:
        page.done.append(f"only {dots} dots per inch: {TARGET} or more give better lines")
    small = thresholded(reduced(picture, dots), page.done)
    page.transform = page.transform.scaled(small.size[0] / width, small.size[1] / height)
    clean = {"screens": without_screens, "margins": without_margins, "rules": without_rules, "dots": without_dots}
    for name in STEPS:
        if name in steps and name in clean:
            small = clean[name](small, page.done)
    if "deskew" in steps:
        angle, sure = small.skew()
        if abs(angle) >= LEAST_SKEW and sure >= LEAST_SURE:
            page.transform = page.transform.turned(math.radians(angle), small.size)
            small = small.turned(math.radians(angle))
            page.done.append(f"turned by {angle:.2f} degrees")
    page.picture = small
    return page
