"""The pages of PDF files, by poppler's programs."""

import re
import subprocess

from .trouble import Trouble


def run(words):
    """What a program writes; raises Trouble with the last line of what it complains of."""
    try:
        done = subprocess.run(words, stdin=subprocess.DEVNULL, capture_output=True, check=False)
    except FileNotFoundError as fault:
        raise Trouble(f"{words[0]} is not there: tools/setup installs it") from fault
    if done.returncode != 0:
        lines = done.stderr.decode(errors="replace").strip().splitlines() or [f"it ended with status {done.returncode}"]
        raise Trouble(f"{words[0]}: {lines[-1]}")
    return done.stdout


def is_pdf(content):
    """Whether the bytes begin as those of a PDF file do."""
    return content[:1024].lstrip().startswith(b"%PDF-")


def count_of_pages(file):
    """How many pages a PDF file has; raises Trouble."""
    found = re.search(rb"^Pages:\s*(\d+)", run(["pdfinfo", file]), re.MULTILINE)
    if not found:
        raise Trouble("pdfinfo tells no number of pages")
    return int(found.group(1))


def drawn(file, number, *words):
    """A page of a PDF file, from 1, as pdftoppm draws it by these words; raises Trouble."""
    return run(["pdftoppm", *words, "-f", str(number), "-l", str(number), file])
