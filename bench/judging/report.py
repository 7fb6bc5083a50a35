"""The tables and the plot of what was measured."""

import csv
import os
import subprocess
import time

from .measures import shares
from .truth import CLASSES

PROGRAMS = ("tools/pages", "layout1, 300 dots per inch", "tesseract", "ocrad -l", "leptonica's masks")
UNORDERED = ("leptonica's masks",)
COLOURS = ("#0072b2", "#56b4e9", "#d55e00", "#009e73", "#999999")
WORST = 10


def read_rows(file):
    """The rows of a table, with numbers as numbers."""
    with open(file, encoding="utf-8") as opened:
        rows = list(csv.DictReader(opened, delimiter="\t"))
    return [{name: int(cell) if cell.lstrip("-").isdigit() else cell for name, cell in row.items()} for row in rows]


def total(rows, name):
    return sum(row[name] for row in rows)


def share(part, whole):
    """Three decimals of a share, without the zero before the point."""
    return f"{part / whole:.3f}".lstrip("0") if whole and part < whole else "1" if whole else ""


def told(number):
    return f"{number:.3f}".lstrip("0")


def table(heads, lines):
    yield "| " + " | ".join(heads) + " |"
    yield "|" + "---|" * len(heads)
    yield from ("| " + " | ".join(map(str, cells)) + " |" for cells in lines)
    yield ""


def f1(rows, hit="hit", found="found", true="true"):
    return shares(total(rows, hit), total(rows, found), total(rows, true))


def line_cells(name, rows):
    """Precision, recall, F1, F1 strict, and how lines fail, by 100 true lines; the order."""
    precision, recall, both = map(told, f1(rows))
    true = total(rows, "true")
    failed = [f"{100 * total(rows, key) / true:.1f}" for key in ("merged", "across", "split", "nothing")]
    order = ["", ""] if name in UNORDERED else [share(total(rows, key), total(rows, "pairs")) for key in ("kept", "direct")]
    strict, by_row = told(f1(rows, "strict")[2]), told(f1(rows, "rows_hit", "rows_found", "rows")[2])
    return [name, precision, recall, both, strict, by_row, *failed, *order]


LINE_HEADS = (
    "", "precision", "recall", "F1", "strict", "by rows", "merged", "across", "split", "of nothing", "in order", "direct",
)  # fmt: skip


def fate_cells(name, rows):
    """What becomes of 100 true lines."""
    return [name, *(f"{100 * total(rows, key) / total(rows, 'true'):.1f}" for key in ("hit", "joined", "cut", "unseen"))]


def gutter_cells(name, rows):
    return [
        name,
        f"{total(rows, 'gutters_hit')} of {total(rows, 'gutters')}",
        total(rows, "gutters_false"),
        f"{total(rows, 'single_false')} of {total(rows, 'single')}",
    ]


def class_table(of):
    heads = ["class", "pages", "lines", *(f"{name}" for name in PROGRAMS)]
    lines = []
    for kind in CLASSES:
        rows = {name: [row for row in of[name] if row["class"] == kind] for name in PROGRAMS}
        first = rows[PROGRAMS[0]]
        cells = []
        for name in PROGRAMS:
            order = "" if name in UNORDERED else ", " + share(total(rows[name], "direct"), total(rows[name], "pairs"))
            cells.append(told(f1(rows[name])[2]) + order)
        lines.append([kind, len(first), total(first, "true"), *cells])
    return table(heads, lines)


def worst_table(of):
    """The pages on which tools/pages is worst."""
    tesseract = {row["page"]: row for row in of["tesseract"]}
    ranked = sorted(of["tools/pages"], key=lambda row: f1([row])[2])[:WORST]
    names = ("true", "hit", "found", "merged", "split", "nothing")

    def cells(row):
        own, others = (told(f1([one])[2]) for one in (row, tesseract[row["page"]]))
        return [row["page"], row["class"], own, others, *(row[name] for name in names)]

    return table(["page", "class", "F1", "tesseract's", "true", "hit", "found", "merged", "split", "of nothing"], map(cells, ranked))


def text_table(rows):
    heads = ["class", "pages", "letters", "errors, tools/ocr", "errors, tesseract", "words, tools/ocr", "words, tesseract"]
    lines = []
    for kind in (*CLASSES, "all"):
        some = [row for row in rows if kind in (row["class"], "all")]
        letters, words = total(some, "letters"), total(some, "words")
        cells = [share(total(some, key), letters) for key in ("ocr_errors", "tesseract_errors")]
        cells += [share(total(some, key), words) for key in ("ocr_words", "tesseract_words")]
        lines.append([kind, len(some), f"{letters:,}", *cells])
    return table(heads, lines)


def version_of(*words):
    """The first line that a program tells of itself."""
    done = subprocess.run(words, capture_output=True, check=False)
    return (done.stdout + done.stderr).decode(errors="replace").splitlines()[0].strip()


def versions():
    yield time.strftime("%Y-%m-%d")
    yield version_of("tesseract", "--version")
    yield version_of("ocrad", "--version")
    yield version_of("pdftotext", "-v")
    yield version_of("dpkg-query", "-W", "-f", "leptonica ${Version}\n", "liblept5")


def plot(of, file):
    """The F1 of each page, the best first, for each program."""
    import matplotlib

    matplotlib.use("Agg")
    from matplotlib import pyplot

    figure, axes = pyplot.subplots(figsize=(8, 4.2), dpi=110)
    for name, colour in zip(PROGRAMS, COLOURS):
        values = sorted((f1([row])[2] for row in of[name]), reverse=True)
        axes.plot(range(1, len(values) + 1), values, color=colour, label=name, linewidth=1.8)
    axes.set(xlabel="pages, by each program's own F1", ylabel="F1 of lines", ylim=(0, 1.02), xlim=(1, len(values)))
    axes.grid(alpha=0.3)
    axes.legend(loc="lower left")
    figure.tight_layout()
    figure.savefig(file)


def tables(of):
    """All tables of the lines, as Markdown."""
    there = [name for name in PROGRAMS if name in of]
    yield from table(LINE_HEADS, [line_cells(name, of[name]) for name in there])
    yield from class_table(of)
    ours = [name for name in of if name not in PROGRAMS[2:]]
    heads = ["of 100 true lines", "hit", "joined to another that is hit", "cut into pieces", "not found"]
    yield from table(heads, [fate_cells(name, of[name]) for name in there])
    heads = ["", "gutters found", "others on these pages", "pages of one column with one"]
    yield from table(heads, [gutter_cells(name, of[name]) for name in ours])
    yield from table(LINE_HEADS, [line_cells(name, of[name]) for name in ours])
    yield from worst_table(of)


def report(plan):
    """Prints the tables, and draws the plot where the words name one."""
    of = {}
    for row in read_rows(os.path.join(plan.work, "results.tsv")):
        of.setdefault(row["condition"], []).append(row)
    print("; ".join(versions()) + "\n")
    print("\n".join(tables(of)))
    text = os.path.join(plan.work, "text.tsv")
    if os.path.exists(text):
        print("\n".join(text_table(read_rows(text))))
    if plan.plot:
        plot(of, plan.plot)
