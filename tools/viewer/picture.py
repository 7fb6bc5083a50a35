"""The pictures of pages: read by Pillow (PBM both ways, and whatever else it knows) and poppler, written as PNG."""

import base64
import gzip
import io
import zlib
from dataclasses import dataclass

from PIL import Image, UnidentifiedImageError

from scan.netpbm import images_in, simplest, size_of_image
from scan.poppler import count_of_pages, drawn, is_pdf
from scan.trouble import Trouble


def opened(content, place=0):
    """The picture that the bytes are, of a TIFF of several pages that of the page at this place, from 0; raises Trouble."""
    try:
        picture = Image.open(io.BytesIO(simplest(content)))
        if place:
            picture.seek(place)
        picture.load()
        return picture
    except UnidentifiedImageError as fault:
        raise Trouble("it is neither PBM nor of another kind that Pillow reads") from fault
    except (OSError, EOFError, ValueError, SyntaxError) as fault:
        raise Trouble(str(fault)) from fault


def content_of(path):
    """The bytes of a file, unpacked where gzip packed it; raises Trouble or OSError."""
    with open(path, "rb") as file:
        content = file.read()
    try:
        return gzip.decompress(content) if content[:2] == b"\x1f\x8b" else content
    except (OSError, EOFError, zlib.error) as fault:
        raise Trouble(str(fault)) from fault


@dataclass(frozen=True)
class PagePicture:
    """A picture of a file, by its place there from 0; it is made when it is asked for."""

    path: str
    place: int
    count: int  # of the file's pictures
    content: bytes  # of the file, or of this picture where it stands among others by itself

    def __str__(self):
        return self.path if self.count == 1 else f"{self.path}, page {self.place + 1}"

    def read(self, size):
        """The picture. A page of a PDF is drawn black and white, with as many columns as the size has; raises Trouble."""
        try:
            if is_pdf(self.content):
                return self.drawn(*size)
            return opened(self.content, 0 if size_of_image(self.content) else self.place)
        except Trouble as fault:
            raise Trouble(f"{self} is no picture of a page: {fault}") from fault

    def drawn(self, width, height):
        """The page of a PDF, cut or filled up where it is a row or two higher or lower than it should be, as by rounding."""
        picture = opened(drawn(self.path, self.place + 1, "-mono", "-scale-to-x", str(width), "-scale-to-y", "-1"))
        if abs(picture.height - height) > 2:
            return picture
        page = Image.new("1", (width, height), 1)
        page.paste(picture)
        return page


def pictures_in(path):
    """The pictures of a file: raw Netpbm images one behind another, a TIFF of several pages, a PDF file, or one picture of another kind.
    Raises Trouble or OSError."""
    try:
        content = content_of(path)
        images = images_in(io.BytesIO(content))
        if images:
            parts = [content[at : at + size] for at, size in images]
        elif is_pdf(content):
            parts = count_of_pages(path) * [content]
        else:
            picture = opened(content)
            parts = (picture.n_frames if picture.format == "TIFF" else 1) * [content]
    except Trouble as fault:
        raise Trouble(f"{path} is no picture of a page: {fault}") from fault
    return [PagePicture(path, place, len(parts), part) for place, part in enumerate(parts)]


def data_address(picture):
    """The picture as the address of a PNG that stands in the text itself."""
    buffer = io.BytesIO()
    picture.save(buffer, "PNG", optimize=True)
    return "data:image/png;base64," + base64.b64encode(buffer.getvalue()).decode("ascii")


def overlay_png(overlay, width, height):
    """The overlay, an SVG text, as a picture of this size that is clear where nothing is drawn."""
    import cairosvg  # needed for this alone

    shown = cairosvg.svg2png(bytestring=overlay.encode("utf-8"), output_width=width, output_height=height)
    return Image.open(io.BytesIO(shown)).convert("RGBA")


def over_page(overlay, picture):
    """The overlay on the picture of the page, which is brought to the overlay's size; 128 colours are enough for both."""
    way = Image.Resampling.LANCZOS if overlay.width < picture.width else Image.Resampling.NEAREST
    page = picture.convert("L").resize(overlay.size, way).convert("RGBA")
    return Image.alpha_composite(page, overlay).convert("RGB").quantize(128, dither=Image.Dither.NONE)
