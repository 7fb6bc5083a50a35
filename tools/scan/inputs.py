"""The pages of pictures, of PDF files and of folders of them."""

import os
from dataclasses import dataclass

from .leptonica import NoPicture, Picture
from .netpbm import KINDS, image_at, images_in, simplest
from .poppler import count_of_pages, drawn, is_pdf
from .trouble import Trouble

OTHERS = {b"\x89PNG": "a PNG", b"\xff\xd8\xff": "a JPEG", b"II*\0": "a TIFF", b"MM\0*": "a TIFF", b"%PDF-": "a PDF file", b"GIF8": "a GIF"}
OTHERS.update({b"P2": "a PGM", b"P5": "a PGM", b"P3": "a PPM", b"P6": "a PPM", b"BM": "a BMP"})
SET_AT = 300  # dots per inch at which a page of a PDF is drawn
NAMES = (".pdf", ".tif", ".tiff", ".png", ".jpg", ".jpeg", ".pbm", ".pgm", ".ppm", ".pnm", ".bmp", ".gif", ".webp")


@dataclass(frozen=True)
class Source:
    """One page: the file that it is in, its number there from 1, and how many pages the file has."""

    file: str
    number: int = 1
    count: int = 1

    def __str__(self):
        return self.file if self.count == 1 else f"{self.file}, page {self.number}"

    def stem(self):
        """The name of what is made of it, without an ending."""
        stem = os.path.splitext(os.path.basename(self.file))[0]
        return stem if self.count == 1 else f"{stem}-{self.number:0{max(3, len(str(self.count)))}}"


def read_by(reader, file):
    """What a function reads of the opened file; raises Trouble."""
    try:
        with open(file, "rb") as opened:
            return reader(opened)
    except OSError as fault:
        raise Trouble(f"it cannot be read: {fault.strerror}") from fault


def content_of(file, most=-1):
    """The bytes of a file, or so many of the first; raises Trouble."""
    return read_by(lambda opened: opened.read(most), file)


def is_tiff(content):
    return content[:4] in (b"II*\0", b"MM\0*")


def sources_of(file):
    """The pages of one file; raises Trouble where it cannot be read."""
    head = content_of(file, 1024)
    if not head:
        raise Trouble("it is empty")
    if is_pdf(head):
        count = count_of_pages(file)
    elif is_tiff(head):
        count, content = 0, content_of(file)
        while Picture.read_tiff_page(content, count):
            count += 1
        if count == 0:
            raise Trouble("it begins as a TIFF and has no page that can be read: save it again")
    else:
        count = len(read_by(images_in, file)) or 1
    return [Source(file, number + 1, count) for number in range(count)]


def image_of(source):
    """The bytes of a picture, those of the other images of a file of raw Netpbm images left out; raises Trouble."""
    try:
        return read_by(lambda opened: image_at(opened, source.number - 1), source.file)
    except IndexError as fault:
        raise Trouble(f"it has no page {source.number}") from fault


def plain_page(source):
    """The bytes of a PBM page as they are; raises Trouble."""
    content = image_of(source)
    kind = next((told for front, told in OTHERS.items() if content.startswith(front)), None)
    if kind:
        raise Trouble(f"it is {kind}, and --plain takes PBM pages alone: leave --plain out")
    return content


def picture_of(source):
    """The picture of a page, and its dots per inch where they are known, or 0; raises Trouble."""
    content = image_of(source)
    if is_pdf(content):
        return read_picture(drawn(source.file, source.number, "-gray", "-r", str(SET_AT))), SET_AT
    if is_tiff(content):
        picture = Picture.read_tiff_page(content, source.number - 1)
        if picture is None:
            raise Trouble(f"it has no page {source.number} that can be read")
        return picture, 0
    if source.number > 1 and content_of(source.file, 2) not in KINDS:
        raise Trouble(f"it has no page {source.number}")
    return read_picture(simplest(content)), 0


def read_picture(content):
    try:
        return Picture.read(content)
    except NoPicture as fault:
        raise Trouble(f"{fault}: PNG, JPEG, TIFF, PBM, PGM, PPM and PDF are") from fault


def files_in(names):
    """The files that the words name, those of folders with an ending that a page has, sorted; and what is wrong with other names."""
    files, wrong = [], []

    def closed(fault):
        wrong.append((fault.filename, f"the folder cannot be read: {fault.strerror}"))

    for name in names:
        if os.path.isdir(name):
            for folder, _, inside in sorted(os.walk(name, onerror=closed)):
                files += [os.path.join(folder, file) for file in sorted(inside) if file.lower().endswith(NAMES)]
        elif os.path.lexists(name):
            files.append(name)
        else:
            wrong.append((name, "it is not there"))
    return list(dict.fromkeys(files)), wrong
