"""What tools/faults runs the programs on: pages and words, with all that a run without a fault has to write."""

import gzip
import os
import subprocess

from running import PATIENCE, TOP, load_programs

PROGRAMS = load_programs()
IMAGE, MOST_IMAGES = PROGRAMS.LEAST_IMAGE, PROGRAMS.MOST_IMAGES
IMAGES = [
    # images of one input, and what the document has of each
    (PROGRAMS.CORNER_BLOCK, ("bbox 0 0 16 16; ppageno 0; x_black 9", ["3 0 16 16"])),
    (PROGRAMS.THREE_GLYPHS, (PROGRAMS.SECOND_THREE_TITLE, PROGRAMS.THREE_WHITES, PROGRAMS.ONE_LINE_OF_THE_SECOND)),
    (PROGRAMS.BLANK, ("bbox 0 0 16 16; ppageno 2; x_black 0", ["0 0 16 16"])),
]


class Case:
    """An input and words. `texts` has the document of the first image, that of the first two and so on, or the last of them alone; where
    the run ends with another status than 0, it writes just the line."""

    def __init__(self, name, words, given, texts, status=0, line=b""):
        self.name, self.words, self.given, self.texts = name, words, given, texts
        self.status, self.line = status, line

    @property
    def text(self):
        """What standard output has of it in the end."""
        return self.texts[-1] if self.status == 0 else b""

    def whole(self):
        """The status, standard output and standard error of a run that nothing hindered."""
        return self.status, self.text, self.line


def known_cases(short):
    """Pages with documents that were worked out by hand."""
    wanted = ("three glyphs",) if short else ("three glyphs", "two columns", "comments", "two words")
    return [Case(name, words, given, [text]) for name, words, given, text in PROGRAMS.DOCUMENTS if name in wanted]


def images(shows, count, more=b"", status=0, line=b""):
    """The first so many images in one input, with more bytes behind them."""
    given = b"".join(image for image, _ in IMAGES[:count])
    texts = [PROGRAMS.document_of(*(page for _, page in IMAGES[: place + 1])) for place in range(count)]
    return Case(shows, [], given + more, texts, status, line)


def several_cases(short):
    """Inputs of two and three images, and with a fault in a later one."""
    two, begun = images("two images", 2), b"P4\n16 2\n\0\0\0"
    if short:
        return [two]
    cut = images("a third image cut off", 2, begun, 3, b"bad page: truncated at %d\n" % len(two.given + begun))
    plain = images("a plain image behind two", 2, b"P1\n1 1\n0", 3, b"bad page: magic at %d\n" % (len(two.given) + 1))
    return [two, images("three images", 3), cut, plain]


def many_cases():
    """As many images as an input may have, and one more."""
    most = Case(f"{MOST_IMAGES} images", [], IMAGE * MOST_IMAGES, [PROGRAMS.document_of(*PROGRAMS.blanks(MOST_IMAGES))])
    over = Case(f"{MOST_IMAGES + 1} images", [], IMAGE * (MOST_IMAGES + 1), [], 4, b"limit: over %d images\n" % MOST_IMAGES)
    return [most, over]


def large_cases(command):
    """A page of print, with and without its words, blocks and cells, whose document is that of a run without a fault, and a made one."""
    with gzip.open(os.path.join(TOP, "examples", "article.pbm.gz")) as file:
        article = file.read()

    def whole(name, words):
        done = subprocess.run([*command, *words], input=article, capture_output=True, timeout=PATIENCE, check=True)
        return Case(name, words, article, [done.stdout])

    made = [Case(name, words, b"", [text]) for name, words, text in PROGRAMS.SUMMARIES if name == "seed 7"]
    return [whole("article", []), whole("words, blocks and cells of the article", ["--words", "--blocks", "--xy"]), *made]
