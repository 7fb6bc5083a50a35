"""The pages that are judged: which they are, by a rule that looks at no result, and where their files are."""

import csv
import hashlib
import os
import re
import subprocess
from dataclasses import dataclass

import numpy as np

from .truth import RESOLUTION, NoTruth, truth_of

FIELDS = ("name", "package", "version", "member", "page")
WANTED = {"one column": 36, "columns": 28}
MOST_OF_PACKAGE = 7  # pages of one column, so that a package of many documents leaves room for others
LEAST_LINES = 20
HEAD = re.compile(rb"P4\s+(\d+)\s+(\d+)\s")  # as pdftoppm writes it
LONGEST, MOST_PIXELS = 8192, 33_554_432  # at 300 dots per inch, as layout1 takes them


@dataclass(frozen=True)
class Page:
    """A page of a PDF that a package of Debian brings."""

    name: str
    package: str
    version: str
    member: str
    page: int
    work: str

    @property
    def pdf(self):
        return os.path.join(self.work, "pdf", self.package, self.member)

    def picture(self, resolution=RESOLUTION, kind="mono"):
        """The file of the page as pdftoppm draws it, made where it is missing."""
        file = os.path.join(self.work, "pages", f"{self.name}.{resolution}.{'pbm' if kind == 'mono' else 'pgm'}")
        if not os.path.exists(file):
            os.makedirs(os.path.dirname(file), exist_ok=True)
            words = ["pdftoppm", f"-{kind}", "-r", str(resolution), "-f", str(self.page), "-l", str(self.page), self.pdf]
            with open(file + ".part", "wb") as drawn:
                subprocess.run(words, stdout=drawn, stderr=subprocess.DEVNULL, check=True)
            os.rename(file + ".part", file)
        return file

    def alone(self):
        """A PDF of this page alone."""
        file = os.path.join(self.work, "pages", f"{self.name}.pdf")
        if not os.path.exists(file):
            os.makedirs(os.path.dirname(file), exist_ok=True)
            words = ["pdfseparate", "-f", str(self.page), "-l", str(self.page), self.pdf, file]
            subprocess.run(words, stderr=subprocess.DEVNULL, check=True)
        return file

    @property
    def size(self):
        """Width and height in pixels."""
        with open(self.picture(), "rb") as file:
            return tuple(map(int, HEAD.match(file.read(100)).groups()))

    def ink(self):
        """A one for each black pixel of the page."""
        with open(self.picture(), "rb") as file:
            data = file.read()
        width, height = self.size
        row = (width + 7) // 8
        raster = np.frombuffer(data, np.uint8, row * height, HEAD.match(data).end())
        return np.unpackbits(raster.reshape(height, row), axis=1)[:, :width]

    def truth(self):
        return truth_of(self.pdf, self.page, self.ink())


def listed(file, work):
    """The pages of a list."""
    with open(file, encoding="utf-8") as opened:
        rows = csv.DictReader((line for line in opened if not line.startswith("#")), delimiter="\t")
        return [Page(row["name"], row["package"], row["version"], row["member"], int(row["page"]), work) for row in rows]


def fetch(pages, work):
    """Downloads the packages of these pages by apt-get and unpacks their PDF files; nothing is installed."""
    folder = os.path.join(work, "deb")
    os.makedirs(folder, exist_ok=True)
    for package, version in sorted({(page.package, page.version) for page in pages}):
        wanted = [page for page in pages if page.package == package and not os.path.exists(page.pdf)]
        if not wanted:
            continue
        if not any(name.startswith(package + "_") for name in os.listdir(folder)):
            if subprocess.run(["apt-get", "download", "-q", f"{package}={version}"], cwd=folder, check=False).returncode != 0:
                subprocess.run(["apt-get", "download", "-q", package], cwd=folder, check=True)
        deb = next(os.path.join(folder, name) for name in os.listdir(folder) if name.startswith(package + "_"))
        unpack(deb, os.path.join(work, "pdf", package))


def unpack(deb, target):
    """The PDF files of a package, those that are packed by gzip unpacked."""
    os.makedirs(target, exist_ok=True)
    with subprocess.Popen(["dpkg-deb", "--fsys-tarfile", deb], stdout=subprocess.PIPE) as tar:
        words = ["tar", "-x", "-C", target, "--wildcards", "*.pdf", "*.pdf.gz"]
        subprocess.run(words, stdin=tar.stdout, stderr=subprocess.DEVNULL, check=False)
    for folder, _, names in os.walk(target):
        packed = [name for name in names if name.endswith(".gz") and not os.path.islink(os.path.join(folder, name))]
        if packed:
            subprocess.run(["gunzip", "-f", *packed], cwd=folder, check=True)


def candidates(work):
    """Each PDF file of the unpacked packages, by the SHA-256 of its path: an order that has nothing to do with what is in it."""
    top = os.path.join(work, "pdf")
    found = []
    for folder, _, names in os.walk(top):
        for name in names:
            file = os.path.join(folder, name)
            if name.endswith(".pdf") and os.path.isfile(file) and not os.path.islink(file):
                path = os.path.relpath(file, top)
                found.append((hashlib.sha256(path.encode()).hexdigest(), path))
    return sorted(found)


def page_by_rule(work, digest, path):
    """The page of this file that the digest picks, and its class by columns, or None where it has too few lines or is too large."""
    pdf = os.path.join(work, "pdf", path)
    told = subprocess.run(["pdfinfo", pdf], capture_output=True, check=False).stdout
    count = re.search(rb"^Pages:\s+(\d+)", told, re.MULTILINE)
    if not count:
        return None
    number = 1 + int(digest[:8], 16) % int(count[1])
    try:
        truth = truth_of(pdf, number)
    except NoTruth:
        return None
    if max(truth.width, truth.height) > LONGEST or truth.width * truth.height > MOST_PIXELS or len(truth.judged) < LEAST_LINES:
        return None
    return number, "columns" if truth.gutters else "one column"


def choose(work):
    """The rows of the list by the rule: one page a folder and few a package, until there are as many of each kind as are wanted."""
    versions = {name.split("_")[0]: name.split("_")[1].replace("%3a", ":") for name in os.listdir(os.path.join(work, "deb"))}
    left, folders, full, rows = dict(WANTED), set(), {}, []
    for digest, path in candidates(work):
        folder = os.path.dirname(path)
        package, member = path.split("/", 1)
        chosen = None if folder in folders else page_by_rule(work, digest, path)
        if chosen is None or left[chosen[1]] == 0:
            continue
        number, kind = chosen
        if kind == "one column":
            full[package] = full.get(package, 0) + 1
            if full[package] > MOST_OF_PACKAGE:
                continue
        folders.add(folder)
        left[kind] -= 1
        stem = re.sub(r"[^A-Za-z0-9]+", "-", os.path.splitext(os.path.basename(path))[0])[:28].strip("-").lower()
        rows.append((f"{stem}-{number}", package, versions[package], member, str(number)))
        if not any(left.values()):
            break
    return sorted(rows)
