"""The text of a page: tesseract reads the areas of the layout, and its words are put into the layout's lines."""

import os
import re
import subprocess
from collections import defaultdict

from .forms import written
from .reading import Area, Box, Line, sheets_of
from .trouble import Trouble

LEAST_OVERLAP = 0.5  # of the lesser height: a word that shares this many rows with a line may be of it
MOST_SHARED = 0.5  # of the lesser box: two that share more are one word that was read twice
ROW = 64  # pixels: words are looked for in strips of this height
MOST_GAP = 3  # heights of a line: a word that stands no farther off may be of it


def shared(first0, first1, second0, second1):
    """How many rows or columns two ranges share."""
    return max(0, min(first1, second1) - max(first0, second0))


def tesseract(picture, stem, language):
    """Tesseract's hOCR of the picture, by the zones that stand in STEM.uzn beside it; raises Trouble."""
    words = ["tesseract", picture, stem, "-l", language, "--psm", "4", "hocr"]
    environment = {**os.environ, "OMP_THREAD_LIMIT": "1"}
    try:
        done = subprocess.run(words, stdin=subprocess.DEVNULL, capture_output=True, check=False, env=environment)
    except FileNotFoundError as fault:
        raise Trouble("tesseract is not there: tools/setup installs it") from fault
    if done.returncode != 0:
        said = done.stderr.decode(errors="replace").strip()
        strange = re.search(r"Failed loading language '(\w+)'", said)
        if strange:
            package = "tesseract-ocr-" + strange[1].replace("_", "-")
            raise Trouble(f"tesseract has no language {strange[1]}: Debian's package {package} brings it")
        raise Trouble("tesseract: " + (said.splitlines() or ["it failed"])[-1])
    with open(stem + ".hocr", "rb") as file:
        return file.read()


def fits(word, line):
    """How well a word fits into a line: the rows that they share, or 0 where those are too few or the word is not beside the line."""
    rows = shared(word.y0, word.y1, line.y0, line.y1)
    if rows < LEAST_OVERLAP * min(word.height, line.height):
        return 0
    gap = max(line.x0 - word.x1, word.x0 - line.x1, 0)
    return rows if gap <= MOST_GAP * line.height else 0


def places(words, lines):
    """For each word of a line that tesseract read the line of the layout that it goes into, or None.

    The words stay together as far as they fit: the line into which most of them fit comes first."""
    ranked = sorted(lines, key=lambda line: -sum(fits(word.box, line.box) for word in words))
    return [next((line for line in ranked if fits(word.box, line.box)), None) for word in words]


def around(boxes):
    """The least box round boxes."""
    return Box(min(b.x0 for b in boxes), min(b.y0 for b in boxes), max(b.x1 for b in boxes), max(b.y1 for b in boxes))


def are_one(first, second):
    """Whether two boxes are those of one word: they share most of the lesser."""
    across, down = shared(first.x0, first.x1, second.x0, second.x1), shared(first.y0, first.y1, second.y0, second.y1)
    return across * down > MOST_SHARED * min(first.width * first.height, second.width * second.height)


def once(areas):
    """The identities of the words but for those that were read twice, where two areas overlap: of two in one place the surer stays."""
    words = [(word, area) for area in areas for line in area.lines for word in line.words if word.text.strip()]
    kept, rows = set(), defaultdict(list)
    for word, area in sorted(words, key=lambda pair: -(pair[0].sure or 0)):
        its_rows = range(word.box.y0 // ROW, word.box.y1 // ROW + 1)
        others = (other for row in its_rows for other, its_area in rows[row] if its_area is not area)
        if not any(are_one(word.box, other.box) for other in others):
            kept.add(id(word))
            for row in its_rows:
                rows[row].append((word, area))
    return kept


def area_for(line, areas):
    """The area in which a line of tesseract's lies for the most part, or None."""
    def part(area):
        return shared(line.x0, line.x1, area.box.x0, area.box.x1) * shared(line.y0, line.y1, area.box.y0, area.box.y1)

    best = max(areas, key=part, default=None)
    return best if best is not None and part(best) > 0 else None


def with_words(sheet, read):
    """The page with the words that tesseract read in the layout's lines. What it found outside all lines is put into lines of its own,
    each in its area by its height on the page."""
    lines = sheet.lines
    for line in lines:
        line.words = []
    kept = once(read.areas)
    for found in read.lines:
        words = [word for word in found.words if id(word) in kept]
        rest = []
        for word, line in zip(words, places(words, lines)):
            (line.words if line else rest).append(word)
        if rest:
            box = around([word.box for word in rest])
            extra = Line(f"more-{found.id}", box, found.baseline, rest)
            area = area_for(box, sheet.areas)
            if area is None:
                sheet.areas.append(Area(f"area-of-{extra.id}", box, [extra]))
            else:
                place = sum(line.box.y0 + line.box.y1 <= box.y0 + box.y1 for line in area.lines)
                area.lines.insert(place, extra)
    for line in sheet.lines:
        line.words.sort(key=lambda word: word.box.x0)
    return sheet


def numbered(sheet, number):
    """The page as one of several: it has this number, which stands in each id in place of that of the only page of a document."""
    sheet.number = number
    for named in (*sheet.areas, *sheet.lines, *(word for line in sheet.lines for word in line.words)):
        named.id = re.sub(r"\d+", str(number), named.id, count=1)
    return sheet


def text_of(sheet):
    """The text in reading order: a line of print a line, an empty one between areas."""
    areas = ("\n".join(line.text for line in area.lines if line.text) for area in sheet.areas)
    return "\n\n".join(text for text in areas if text) + "\n"


def recognised(document, transform, picture, stem, language):
    """The page of the document, on the picture that came in, with its words. STEM.png is the picture's file."""
    sheet = sheets_of(document, [transform])[0]
    if not sheet.areas:
        return sheet
    with open(stem + ".uzn", "w", encoding="ascii") as file:
        file.write(written("uzn", [sheet]))
    return with_words(sheet, sheets_of(tesseract(picture, stem, language))[0])
