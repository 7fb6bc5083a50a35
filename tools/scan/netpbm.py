"""Raw Netpbm images that stand one behind another in a file, as `pdftoppm -mono paper.pdf` writes them to standard output."""

import re

COMMENT = rb"#[^\r\n]*[\r\n]"
GAP = rb"(?:[ \t\r\n]|" + COMMENT + rb")+"
NUMBER = rb"0*([0-9]{1,9})"
KINDS = {b"P4": 2, b"P5": 3, b"P6": 3}  # numbers of a header: width, height and, but for black and white, the greatest value of a pixel
HEADERS = {kind: re.compile(kind + (GAP + NUMBER) * count + rb"[ \t\r\n]") for kind, count in KINDS.items()}
PLAIN_HEADER = re.compile(b"P1" + (GAP + NUMBER) * 2 + rb"[ \t\r\n]")
LONGEST_HEADER = 65536


def size_of_image(head):
    """How many bytes the raw image has that begins with these, which are its first 65,536 or all of the file; None where none begins so."""
    kind = head[:2]
    found = HEADERS[kind].match(head) if kind in HEADERS else None
    if not found:
        return None
    width, height, *greatest = map(int, found.groups())
    if kind == b"P4":
        return found.end() + (width + 7) // 8 * height
    return found.end() + width * height * (1 if greatest[0] < 256 else 2) * (3 if kind == b"P6" else 1)


def images_in(file):
    """Where each image of an open file begins and how many bytes it has; none where the file does not begin with a raw image.

    What stands behind the last whole image is taken for one more, of which a reader will say what is wrong, unless it is white space.
    """
    images, at, end = [], 0, file.seek(0, 2)
    while at < end:
        file.seek(at)
        head = file.read(LONGEST_HEADER)
        size = size_of_image(head)
        if size is None or at + size > end:
            if size is not None or images and head.strip():
                images.append((at, end - at))
            break
        images.append((at, size))
        at += size
    return images


def image_at(file, place):
    """The bytes of the image at this place, from 0, and of a file that does not begin with a raw image all bytes."""
    images = images_in(file)
    at, size = images[place] if images else (0, -1)
    file.seek(at)
    return file.read(size)


def simplest(content):
    """A whole page in PBM as the raw form with the shortest header, which every program reads; other bytes as they are.

    Comments and white space may stand where few readers but layout1 take them."""
    raw, plain = HEADERS[b"P4"].match(content), PLAIN_HEADER.match(content)
    if not raw and not plain:
        return content
    width, height = map(int, (raw or plain).groups())
    size = (width + 7) // 8
    if width == 0 or height == 0:
        return content
    if raw:
        raster = content[raw.end() :]
        return b"P4\n%d %d\n" % (width, height) + raster if len(raster) >= size * height else content
    pixels = re.sub(rb"[ \t\r\n]|" + COMMENT, b"", content[plain.end() :])[: width * height]
    if len(pixels) < width * height or pixels.strip(b"01"):
        return content
    rows = (pixels[at : at + width].ljust(8 * size, b"0") for at in range(0, width * height, width))
    return b"P4\n%d %d\n" % (width, height) + b"".join(int(row, 2).to_bytes(size, "big") for row in rows)
