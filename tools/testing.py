"""What the tests of the tools share: cases with what they need, runs of programs, pages and documents."""

import ctypes.util
import importlib.util
import os
import re
import shutil
import subprocess
import sys
import tempfile
import traceback

TOOLS = os.path.dirname(os.path.realpath(__file__))
TOP = os.path.dirname(TOOLS)
PACKAGES = {name: f"python3-{name.lower()}" for name in ("lxml", "PIL", "jinja2", "cairosvg", "numpy")}
VIEW, PREPARE, PAGES, TO, OCR = (os.path.join(TOOLS, name) for name in ("view", "prepare", "pages", "to", "ocr"))
CASES = []


def built(name):
    """Where rt leaves a program of the repository."""
    return os.path.join(TOP, "crates", name, "out", name)


def case(*needs):
    """Makes a function a case, which is skipped where one of the needs is missing."""

    def keep(function):
        CASES.append((function, needs))
        return function

    return keep


def missing(need):
    """Why the need is not met, or None."""
    if need in PACKAGES:
        return None if importlib.util.find_spec(need) else f"{PACKAGES[need]} is not installed"
    if need in ("layout1", "layout"):
        return None if os.access(built(need), os.X_OK) else f"{need} is not built"
    if need == "chromium":
        return None if shutil.which(need) and opens() else "no chromium that starts"
    if need == "leptonica":
        return None if ctypes.util.find_library("lept") else "libleptonica-dev is not installed"
    if need.startswith("tesseract-ocr-"):
        listed = shutil.which("tesseract") and subprocess.run(["tesseract", "--list-langs"], capture_output=True, text=True, check=False).stdout
        return None if need.removeprefix("tesseract-ocr-") in (listed or "").split() else f"{need} is not installed"
    if need == "ocrmypdf":
        return None if importlib.util.find_spec(need) else "ocrmypdf is not installed"
    return None if shutil.which(need) else f"{need} is not installed"


def run(*words, given=None, status=0):
    """The run of a command; its standard output, or where the status is no 0 its standard error without what it says when it takes long."""
    done = subprocess.run(words, input=given, capture_output=True, timeout=170, check=False)
    assert done.returncode == status, f"{words[0]} ended with {done.returncode}, wanted {status}: {done.stderr.decode()[-300:]}"
    return done.stdout.decode() if status == 0 else re.sub(r"^\w+: .* \.\.\n", "", done.stderr.decode(), flags=re.MULTILINE)


def chromium(folder, *words):
    """Standard output of a headless browser; its profile lies in the folder."""
    quiet = ("--headless", "--no-sandbox", "--disable-gpu", "--disable-dev-shm-usage", "--hide-scrollbars", "--window-size=1400,900")
    quiet += ("--virtual-time-budget=20000",)  # what a page waits for has come when it is asked
    done = subprocess.run(("chromium", *quiet, f"--user-data-dir={folder}/profile", *words), capture_output=True, timeout=60, check=False)
    return done.stdout.decode()


def opens():
    """Whether the browser starts on this machine at all."""
    with tempfile.TemporaryDirectory() as folder:
        page = os.path.join(folder, "page.html")
        write(page, "<p>here")
        try:
            return "<p>here" in chromium(folder, "--dump-dom", f"file://{page}")
        except subprocess.TimeoutExpired:
            return False


def write(name, text):
    with open(name, "w", encoding="utf-8") as file:
        file.write(text)


def read(name):
    with open(name, encoding="utf-8") as file:
        return file.read()


def stored(name):
    return os.path.join(TOP, "tools", "cases", name)


def example(name):
    return os.path.join(TOP, "examples", name)


def page_of_lines(count=12, size=(1240, 1754), letters=30):
    """A page of rows of blocks of 12 by 20 pixels, as letters at 150 dots per inch are: black on white, one bit a pixel."""
    from PIL import Image, ImageDraw

    page = Image.new("1", size, 1)
    draw = ImageDraw.Draw(page)
    for row in range(count):
        for letter in range(letters):
            x, y = 150 + 30 * letter, 200 + 60 * row
            draw.rectangle((x, y, x + 11, y + 19), fill=0)
    return page


def build():
    """Builds layout1 where it is missing and rt is there, as the demo does."""
    if not os.access(built("layout1"), os.X_OK) and shutil.which("rt"):
        folder = os.path.join(TOP, "crates", "layout1")
        with open(os.path.join(folder, "stdin"), "rb") as given:
            subprocess.run(["rt", "run"], cwd=folder, stdin=given, capture_output=True, check=False)


def main(words, told):
    """Runs all cases that were made; `told` is what the program says of itself where the words are wrong."""
    if words not in ([], ["--build"]):
        print(told, file=sys.stderr)
        return 2
    if words:
        build()
    passed = failed = skipped = 0
    reasons = {need: missing(need) for need in dict.fromkeys(need for _, needs in CASES for need in needs)}
    for function, needs in CASES:
        name = "tools: " + function.__name__.replace("_", " ")
        reason = next((reasons[need] for need in needs if reasons[need]), None)
        if reason:
            skipped += 1
            print(f"{name}: skipped, {reason}", flush=True)
            continue
        try:
            with tempfile.TemporaryDirectory() as folder:
                function(folder)
            passed += 1
            print(f"{name}: passed", flush=True)
        except (AssertionError, OSError, subprocess.SubprocessError, KeyError, ValueError) as fault:
            failed += 1
            print(f"{name}: FAILED: {str(fault) or traceback.extract_tb(fault.__traceback__)[-1].line}", flush=True)
    print(f"{passed} passed, {failed} failed" + (f", {skipped} skipped" if skipped else ""))
    return 0 if failed == 0 else 1
