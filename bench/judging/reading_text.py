"""How well a page's text is read in reading order: by tools/ocr, and by tesseract alone on the same picture."""

import os
import re
import subprocess
import unicodedata
from collections import Counter

import numpy as np

from .programs import TOP, mark_of

LATIN = 0.98  # the share of letters in ASCII from which on a page is judged, since tesseract reads it as English


def plain_text(text):
    """The text with its ligatures taken apart and all white space as one space."""
    return " ".join(unicodedata.normalize("NFKC", text.replace("\u00ad", "")).split())


def distance(first, second):
    """How many letters must be put in, taken out or changed to make one text of the other."""
    if not first or not second:
        return len(first) + len(second)
    given = np.frombuffer(second.encode("utf-32-le"), np.uint32)
    places = np.arange(len(given) + 1)
    row = places.copy()
    for number, letter in enumerate(np.frombuffer(first.encode("utf-32-le"), np.uint32), 1):
        changed = np.minimum(row[:-1] + (given != letter), row[1:] + 1)
        # What is put in costs one a letter: the least of all places before, as a running minimum.
        row = np.minimum.accumulate(np.concatenate(([number], changed)) - places) + places
    return int(row[-1])


def by_tools_ocr(program, page):
    """The text that tools/ocr writes."""
    folder = os.path.join(page.work, "text", f"ocr@{mark_of(program, 'reading.py', 'recognise.py')}")
    file = os.path.join(folder, page.name + ".txt")
    if not os.path.exists(file):
        words = [os.path.join(TOP, "tools", "ocr"), "--no-pdf", "--layout1", program, "-o", folder, page.alone()]
        subprocess.run(words, check=True, capture_output=True)
    return file


def by_tesseract(page):
    """The text that tesseract writes by itself."""
    file = os.path.join(page.work, "text", "tesseract", page.name + ".txt")
    if not os.path.exists(file):
        os.makedirs(os.path.dirname(file), exist_ok=True)
        words = ["tesseract", page.picture(kind="gray"), file.removesuffix(".txt"), "--psm", "3"]
        subprocess.run(words, check=True, capture_output=True, env={**os.environ, "OMP_THREAD_LIMIT": "1"})
    return file


def words_found(text, true):
    """How many of the true words are there, in any order."""
    return sum((Counter(re.findall(r"\w+", text)) & Counter(re.findall(r"\w+", true))).values())


def texts_judged(program, page):
    """The row of one page, or none where it is hardly in English letters."""
    truth = page.truth()
    true = plain_text(" ".join(line.text for line in truth.lines if line.kind != "turned"))
    letters = [letter for letter in true if letter.isalpha()]
    if sum(letter.isascii() for letter in letters) < LATIN * len(letters):
        return []
    row = {"page": page.name, "class": truth.kind, "letters": len(true), "words": len(re.findall(r"\w+", true))}
    for name, file in (("ocr", by_tools_ocr(program, page)), ("tesseract", by_tesseract(page))):
        with open(file, encoding="utf-8") as opened:
            text = plain_text(opened.read())
        row |= {f"{name}_errors": distance(true, text), f"{name}_words": words_found(text, true)}
    return [row]
