"""How a layout that was found agrees with what is true of the page. All are counts of one page, so that they can be summed."""

from dataclasses import dataclass

from .truth import around, overlap

NEAR = 3  # heights: two lines of one row at most this far apart are two cells or a label and its text


@dataclass
class Layout:
    """What a program found: boxes of lines in its order, boxes of gutters, and whether its order is a cycle."""

    lines: list
    gutters: list
    cycle: bool = False


def same_rows(first, second):
    """They share half of the lesser height."""
    return 2 * overlap(first[1], first[3], second[1], second[3]) >= min(first[3] - first[1], second[3] - second[1])


def meets(found, true):
    """A found line hits a true one: half of the lesser height and half of the true width."""
    return same_rows(found, true) and 2 * overlap(found[0], found[2], true[0], true[2]) >= true[2] - true[0]


def inside(found, true):
    """Half of the found line's width stands on the true line."""
    return same_rows(found, true) and 2 * overlap(found[0], found[2], true[0], true[2]) >= found[2] - found[0]


def both(found, true):
    return meets(found, true) and inside(found, true)


def likeness(first, second):
    """The share of the area of both that they have in common."""
    width, height = overlap(first[0], first[2], second[0], second[2]), overlap(first[1], first[3], second[1], second[3])
    if width <= 0 or height <= 0:
        return 0.0
    areas = sum((box[2] - box[0]) * (box[3] - box[1]) for box in (first, second))
    return width * height / (areas - width * height)


def matched(found, true, good=meets):
    """The found line of each true one, by numbers: as many pairs as there can be, one to one, the likest first."""
    near = [sorted((f for f, box in enumerate(found) if good(box, line)), key=lambda f: -likeness(found[f], line)) for line in true]
    of_true, of_found = {}, {}
    for _, t, f in sorted(((likeness(found[f], true[t]), t, f) for t, places in enumerate(near) for f in places), reverse=True):
        if t not in of_true and f not in of_found:
            of_true[t], of_found[f] = f, t

    def freed(t, seen):
        """Gives the true line another found one, and moves those that are in the way."""
        for f in near[t]:
            if f not in seen:
                seen.add(f)
                if f not in of_found or freed(of_found[f], seen):
                    of_true[t], of_found[f] = f, t
                    return True
        return False

    for t in range(len(true)):
        if t not in of_true:
            freed(t, set())
    return of_true


def lines_measured(truth, layout):
    """Lines that are true, found and hit, and how the others fail."""
    judged, others = [line.box for line in truth.judged], [line.box for line in truth.lines if line.kind != "line"]
    found = layout.lines
    of_true = matched(found, judged)
    hit = set(of_true.values())
    loose = [f for f in range(len(found)) if f not in hit and not any(inside(found[f], line) for line in judged)]
    ignored = sum(any(meets(found[f], line) or inside(found[f], line) for line in others) for f in loose)
    stacked = across = 0
    for box in found:
        met = [line for line in judged if meets(box, line)]
        stacked += any(not same_rows(a, b) for a in met for b in met)
        across += any(a[2] <= (g[0] + g[1]) / 2 <= b[0] for a in met for b in met if a is not b and same_rows(a, b) for g in truth.gutters)
    missed = [line for number, line in enumerate(judged) if number not in of_true]
    joined = sum(any(meets(box, line) for box in found) for line in missed)
    unseen = sum(not any(meets(box, line) or inside(box, line) for box in found) for line in missed)
    return {
        "true": len(judged),
        "found": len(found) - ignored,
        "hit": len(of_true),
        "strict": len(matched(found, judged, both)),
        "joined": joined,
        "cut": len(missed) - joined - unseen,
        "unseen": unseen,
        "merged": stacked,
        "across": across,
        "split": sum(sum(inside(box, line) for box in found) >= 2 for line in judged),
        "nothing": sum(not any(inside(box, line) or meets(box, line) for line in judged + others) for box in found),
        **rows_measured(truth, found, ignored),
        **order_measured(truth.judged, of_true),
    }


def rows_of(truth):
    """The true lines with those of one row joined that stand near each other with no gutter between: cells, labels."""
    rows = []
    for line in sorted((line.box for line in truth.judged), key=lambda box: box[0]):
        for row in rows:
            near = line[0] - row[2] <= NEAR * max(line[3] - line[1], row[3] - row[1])
            parted = any(row[2] <= (g[0] + g[1]) / 2 <= line[0] and overlap(g[2], g[3], line[1], line[3]) > 0 for g in truth.gutters)
            if same_rows(row, line) and near and not parted:
                row[:] = around([row, line])
                break
        else:
            rows.append(list(line))
    return [tuple(row) for row in rows]


def rows_measured(truth, found, ignored):
    rows = rows_of(truth)
    return {"rows": len(rows), "rows_found": len(found) - ignored, "rows_hit": len(matched(found, rows))}


def order_measured(judged, of_true):
    """Pairs of consecutive lines of one block: how many are found in that order, and with no line of another block between."""
    pairs = kept = direct = 0
    of_found = {f: t for t, f in of_true.items()}
    for number, (first, second) in enumerate(zip(judged, judged[1:])):
        # Two pieces of one row, as a label and its text, say nothing of the order of lines.
        if first.block != second.block or same_rows(first.box, second.box):
            continue
        pairs += 1
        start, end = of_true.get(number), of_true.get(number + 1)
        if start is None or end is None or start > end:
            continue
        kept += 1
        direct += not any(f in of_found and judged[of_found[f]].block != first.block for f in range(start + 1, end))
    return {"pairs": pairs, "kept": kept, "direct": direct}


def gutters_measured(truth, layout):
    """True gutters that are hit, and found ones that stand elsewhere; nothing where the page is unclear."""
    if truth.unclear:
        return {"gutters": 0, "gutters_hit": 0, "gutters_false": 0, "columned": 0, "single": 0, "single_false": 0}

    def at(found, true):
        return true[0] - 3 <= (found[0] + found[2]) / 2 <= true[1] + 3

    hit = sum(any(at(g, t) and 2 * overlap(g[1], g[3], t[2], t[3]) >= t[3] - t[2] for g in layout.gutters) for t in truth.gutters)
    elsewhere = sum(not any(at(g, t) and overlap(g[1], g[3], t[2], t[3]) > 0 for t in truth.gutters) for g in layout.gutters)
    single = not truth.gutters
    return {
        "gutters": len(truth.gutters),
        "gutters_hit": hit,
        "gutters_false": 0 if single else elsewhere,
        "columned": int(not single),
        "single": int(single),
        "single_false": int(single and elsewhere > 0),
    }


def measured(truth, layout):
    """All counts of one page. A page that a program refused has found nothing."""
    refused = layout is None
    layout = layout or Layout([], [])
    return {
        "refused": int(refused),
        "cycle": int(layout.cycle),
        **lines_measured(truth, layout),
        **gutters_measured(truth, layout),
    }


def shares(hit, found, true):
    """Precision, recall and F1."""
    precision, recall = hit / found if found else 0.0, hit / true if true else 0.0
    return precision, recall, 2 * precision * recall / (precision + recall) if precision + recall else 0.0
