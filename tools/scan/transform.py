"""Where a point of a prepared page stands on the page that came in."""

import json
import math
from dataclasses import asdict, dataclass


@dataclass(frozen=True)
class Transform:
    """The point (x, y) of the prepared page is (a x + b y + c, d x + e y + f) on the page that came in, which has this size in pixels."""

    width: int
    height: int
    a: float = 1.0
    b: float = 0.0
    c: float = 0.0
    d: float = 0.0
    e: float = 1.0
    f: float = 0.0

    def at(self, x, y):
        """The point on the page that came in."""
        return self.a * x + self.b * y + self.c, self.d * x + self.e * y + self.f

    def after(self, a, b, c, d, e, f):
        """This transform behind one more step: the step's own point (x, y) is (a x + b y + c, d x + e y + f) before it."""
        return Transform(
            self.width,
            self.height,
            self.a * a + self.b * d,
            self.a * b + self.b * e,
            self.a * c + self.b * f + self.c,
            self.d * a + self.e * d,
            self.d * b + self.e * e,
            self.d * c + self.e * f + self.f,
        )

    def scaled(self, across, down):
        """Behind a step after which the page is this many times as wide and as high."""
        return self.after(1 / across, 0, 0, 0, 1 / down, 0)

    def turned(self, radians, size):
        """Behind a step that turned a page of this size clockwise about its middle."""
        cosine, sine = math.cos(radians), math.sin(radians)
        x, y = size[0] / 2, size[1] / 2
        return self.after(cosine, sine, x - cosine * x - sine * y, -sine, cosine, y + sine * x - cosine * y)

    def box(self, x0, y0, x1, y1):
        """The least half-open box of pixels, within the page that came in, round a box of the prepared page."""
        corners = [self.at(x, y) for x in (x0, x1) for y in (y0, y1)]
        across = sorted(min(max(x, 0), self.width) for x, _ in corners)
        down = sorted(min(max(y, 0), self.height) for _, y in corners)
        slack = 1e-6
        left, top = math.floor(across[0] + slack), math.floor(down[0] + slack)
        right, bottom = math.ceil(across[-1] - slack), math.ceil(down[-1] - slack)
        return left, top, max(right, left + 1), max(bottom, top + 1)


def text_of(transforms, is_list):
    """As JSON, which `transforms_in` reads: one transform, or a list of one for each page."""
    told = [asdict(transform) for transform in transforms]
    return json.dumps(told if is_list else told[0], indent=1) + "\n"


def transforms_in(text):
    """The transforms that the text tells, one for each page; raises ValueError where it tells none."""
    try:
        found = json.loads(text)
    except ValueError as fault:
        raise ValueError(f"it is no transform that tools/prepare wrote: {fault}") from fault
    names = Transform.__dataclass_fields__
    every = found if isinstance(found, list) else [found]
    if not every or not all(isinstance(one, dict) and names.keys() <= one.keys() for one in every):
        raise ValueError("it is no transform that tools/prepare wrote")
    return [Transform(**{name: one[name] for name in names}) for one in every]
