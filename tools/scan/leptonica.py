"""Leptonica's pictures and the few of its calls that the preparation of a page needs, over the C library itself."""

import ctypes
import ctypes.util
from ctypes import POINTER, byref, c_float, c_int, c_size_t, c_void_p

WHITE = 1  # L_BRING_IN_WHITE: what comes in from outside a rotated page
AREA_MAP = 1  # L_ROTATE_AREA_MAP
SAMPLING = 3  # L_ROTATE_SAMPLING
PNM = 11  # IFF_PNM: raw PBM for a picture of one bit
PNG = 3  # IFF_PNG
GREATER = 2  # L_SELECT_IF_GT
QUIET = 6  # L_SEVERITY_NONE: no messages of the library on standard error


class NoLibrary(Exception):
    """Leptonica's shared library is not there."""


class NoPicture(Exception):
    """The bytes are no picture that leptonica reads, or a call of it had no answer."""


def library():
    """The shared library, with the types of the calls below."""
    name = ctypes.util.find_library("lept") or "liblept.so.5"
    try:
        lept = ctypes.CDLL(name)
    except OSError as fault:
        raise NoLibrary(str(fault)) from fault
    pictures = {
        "pixReadMem": [c_void_p, c_size_t],
        "pixReadMemTiff": [c_void_p, c_size_t, c_int],
        "pixRemoveAlpha": [c_void_p],
        "pixConvertTo8": [c_void_p, c_int],
        "pixThresholdToBinary": [c_void_p, c_int],
        "pixScale": [c_void_p, c_float, c_float],
        "pixReduceRankBinary2": [c_void_p, c_int, c_void_p],
        "pixRotate": [c_void_p, c_float, c_int, c_int, c_int, c_int],
        "pixOpenBrick": [c_void_p, c_void_p, c_int, c_int],
        "pixDilateBrick": [c_void_p, c_void_p, c_int, c_int],
        "pixSeedfillBinary": [c_void_p, c_void_p, c_void_p, c_int],
        "pixSubtract": [c_void_p, c_void_p, c_void_p],
        "pixSelectByArea": [c_void_p, c_float, c_int, c_int, c_void_p],
        "pixSelectBySize": [c_void_p, c_int, c_int, c_int, c_int, c_int, c_void_p],
        "pixRemoveBorderConnComps": [c_void_p, c_int],
        "pixGenerateHalftoneMask": [c_void_p, c_void_p, POINTER(c_int), c_void_p],
    }
    for call, arguments in pictures.items():
        function = getattr(lept, call)
        function.restype = c_void_p
        function.argtypes = arguments
    lept.pixDestroy.argtypes = [POINTER(c_void_p)]
    for call in ("pixGetWidth", "pixGetHeight", "pixGetDepth", "pixGetXRes"):
        getattr(lept, call).argtypes = [c_void_p]
    lept.pixSauvolaBinarizeTiled.argtypes = [c_void_p, c_int, c_float, c_int, c_int, c_void_p, POINTER(c_void_p)]
    lept.pixFindSkew.argtypes = [c_void_p, POINTER(c_float), POINTER(c_float)]
    lept.pixCountPixels.argtypes = [c_void_p, POINTER(c_int), c_void_p]
    lept.pixCountConnComp.argtypes = [c_void_p, c_int, POINTER(c_int)]
    lept.pixWriteMem.argtypes = [POINTER(c_void_p), POINTER(c_size_t), c_void_p, c_int]
    lept.lept_free.argtypes = [c_void_p]
    lept.setMsgSeverity(QUIET)
    return lept


class Picture:
    """A picture that leptonica holds. Each call makes a picture of its own; none changes the one that it is called on."""

    lept = None

    def __init__(self, address):
        if not address:
            raise NoPicture("leptonica made no picture")
        self.address = address

    def __del__(self):
        if getattr(self, "address", None):
            self.lept.pixDestroy(byref(c_void_p(self.address)))

    @classmethod
    def read(cls, content):
        """The picture that the bytes are: PNG, JPEG, TIFF (its first page), PBM, PGM, PPM, BMP, GIF or WebP."""
        cls.lept = cls.lept or library()
        address = cls.lept.pixReadMem(content, len(content))
        if not address:
            raise NoPicture("it is no picture that leptonica reads")
        return cls(address)

    @classmethod
    def read_tiff_page(cls, content, number):
        """The page of a TIFF at this place, from 0, or None where it has no more."""
        cls.lept = cls.lept or library()
        address = cls.lept.pixReadMemTiff(content, len(content), number)
        return cls(address) if address else None

    @property
    def size(self):
        """Width and height in pixels."""
        return self.lept.pixGetWidth(self.address), self.lept.pixGetHeight(self.address)

    @property
    def depth(self):
        """Bits a pixel."""
        return self.lept.pixGetDepth(self.address)

    @property
    def resolution(self):
        """Dots per inch as the file tells them, or 0."""
        return self.lept.pixGetXRes(self.address)

    @property
    def black(self):
        """The number of black pixels of a picture of one bit."""
        count = c_int()
        self.lept.pixCountPixels(self.address, byref(count), None)
        return count.value

    def count(self):
        """The number of its components, by eight neighbours."""
        count = c_int()
        self.lept.pixCountConnComp(self.address, 8, byref(count))
        return count.value

    def grey(self):
        """Eight bits a pixel, without colour and without a transparent layer."""
        flat = Picture(self.lept.pixRemoveAlpha(self.address)) if self.depth == 32 else self
        return Picture(self.lept.pixConvertTo8(flat.address, 0))

    def below(self, level):
        """Black where a grey pixel is below the level, from 0 to 255."""
        return Picture(self.lept.pixThresholdToBinary(self.address, level))

    def sauvola(self, window, factor):
        """Black by Sauvola's threshold, over windows of twice this size and one pixel."""
        width, height = self.size
        made = c_void_p()
        tiles = max(1, width // 1000), max(1, height // 1000)
        self.lept.pixSauvolaBinarizeTiled(self.address, window, factor, *tiles, None, byref(made))
        return Picture(made.value)

    def scaled(self, factor):
        """The picture scaled by the factor."""
        return Picture(self.lept.pixScale(self.address, factor, factor))

    def halved(self, level):
        """One pixel for four of a picture of one bit: black where at least this many, from 1 to 4, are."""
        return Picture(self.lept.pixReduceRankBinary2(self.address, level, None))

    def skew(self):
        """By how many degrees the page is to be turned clockwise, and how sure that is (at least 2 to be of use)."""
        angle, sure = c_float(), c_float()
        if self.lept.pixFindSkew(self.address, byref(angle), byref(sure)) != 0:
            return 0.0, 0.0
        return angle.value, sure.value

    def turned(self, radians):
        """The picture turned clockwise about its middle, of the size that it has."""
        kind = SAMPLING if self.depth == 1 else AREA_MAP
        return Picture(self.lept.pixRotate(self.address, radians, kind, WHITE, 0, 0))

    def opened(self, width, height):
        """The parts of a picture of one bit in which a box of this size fits."""
        return Picture(self.lept.pixOpenBrick(None, self.address, width, height))

    def dilated(self, width, height):
        """The picture with each black pixel grown to a box of this size."""
        return Picture(self.lept.pixDilateBrick(None, self.address, width, height))

    def filled_in(self, mask):
        """Its black pixels, and those of the mask that are connected to them."""
        return Picture(self.lept.pixSeedfillBinary(None, self.address, mask.address, 8))

    def without(self, other):
        """The picture without the black pixels of the other."""
        return Picture(self.lept.pixSubtract(None, self.address, other.address))

    def without_small(self, most):
        """The components of more black pixels than this."""
        return Picture(self.lept.pixSelectByArea(self.address, float(most), 8, GREATER, None))

    def without_border(self):
        """The components that do not touch the edge of the page."""
        return Picture(self.lept.pixRemoveBorderConnComps(self.address, 8))

    def halftone(self):
        """The mask of photo screens of a picture of one bit at 150 to 200 dots per inch, or None where there are none."""
        found = c_int()
        address = self.lept.pixGenerateHalftoneMask(self.address, None, byref(found), None)
        mask = Picture(address) if address else None
        return mask if found.value else None

    def encoded(self, form):
        """The picture as a file of this form, PNM or PNG."""
        data, size = c_void_p(), c_size_t()
        if self.lept.pixWriteMem(byref(data), byref(size), self.address, form) != 0:
            raise NoPicture("leptonica wrote no picture")
        try:
            return ctypes.string_at(data.value, size.value)
        finally:
            self.lept.lept_free(data)
