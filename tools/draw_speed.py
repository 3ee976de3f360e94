#!/usr/bin/env python3
"""Makes the pictures and the tables of speed in README and docs/SPEED.md from the raw tables in bench/runs.

    python3 tools/draw_speed.py            writes docs/speed.svg, docs/scaling.svg and the tables
    python3 tools/draw_speed.py --check    says which of them differ from what it would write; the status is 1 then

A kind of run is a folder of bench/runs whose name ends in it, and the newest one that has the file counts: `formulas`
with right and balanced, `circuits`, `operations` and `scaling` with table. A raw table is a CSV, or what the benchmark
writes by `--table` (Markdown); of `scaling` it is what tools/check_scaling.py prints. What has no raw table is left
out.

docs/speed.svg has a row a table: the ratios of CPU time to BuDDy as dots on a logarithmic axis, and their geometric
mean as a line. docs/scaling.svg has a field for each family of inputs, with the seconds over the sizes, both
logarithmic, and by how much the time over what is made rises from one size to the next. A table stands between the lines `<!-- made by tools/draw_speed.py: NAME -->` and `<!-- end -->`. Standard
library alone.
"""
import csv
import glob
import math
import os
import re
import sys

TOP = os.path.join(os.path.dirname(os.path.abspath(__file__)), "..")
# how a row is named in README, its kind of run, the file, what it is called in the picture
ROWS = [
    ("clauses joined, right tree", "formulas", "right", "clauses, right tree"),
    ("clauses joined, balanced tree, the default", "formulas", "balanced", "clauses, balanced tree"),
    ("`and`, `or`, `not` of scripts, right tree", "operations", "table", "operations of scripts"),
    ("circuits gate by gate (`--aag`), right tree", "circuits", "table", "circuits gate by gate"),
]
WIDTH, LEFT, RIGHT, HEIGHT = 760, 190, 30, 64
LEAST, MOST = 0.02, 20
# Memory is compared where BuDDy takes more than so many megabytes.
LEAST_MEMORY = 16


def read(path):
    with open(os.path.join(TOP, path), encoding="utf-8") as file:
        return file.read()


def newest(kind, name):
    """The newest raw table of a kind of run, or None."""
    found = sorted(glob.glob("%s/bench/runs/*-%s/%s.*" % (TOP, kind, name)))
    return os.path.relpath(found[-1], TOP) if found else None


def cells(line):
    return [cell.strip() for cell in line.strip().strip("|").split("|")]


def table_in(text):
    """The rows of a table in Markdown, by the names of the columns."""
    lines = [line for line in text.splitlines() if line.startswith("|")]
    head = cells(lines[0])
    return [dict(zip(head, cells(line))) for line in lines[2:]]


def raw(kind, name):
    """The rows of a raw table under one set of names, those alone whose ratio is a number."""
    path = newest(kind, name)
    if path is None:
        return []
    if path.endswith(".csv"):
        rows = list(csv.DictReader(read(path).splitlines()))
    else:
        rows = table_in(read(path))
        ratio = [name for name in rows[0] if name.endswith(" /buddy")][0]
        names = {"workload": "file", "V": "variables", "SDD size": "size", "buddy s": "buddy_seconds",
                 "buddy MB": "buddy_megabytes", ratio: "ratio", ratio.split()[0] + " MB": "megabytes"}
        rows = [{names.get(name, name): cell for name, cell in row.items()} for row in rows]
    for row in rows:
        row["file"] = re.sub(r"^aag-", "", row["file"])
    return [row for row in rows if re.fullmatch(r"[\d.]+", row.get("ratio", ""))]


def mean_of(rows):
    return math.exp(sum(math.log(float(row["ratio"])) for row in rows) / len(rows))


# The tables

def memory_of(rows, buddy):
    """The greatest ratio of memory, where BuDDy takes much."""
    ratios = [float(row["megabytes"]) / float(buddy[row["file"]]) for row in rows
              if float(buddy.get(row["file"], 0)) > LEAST_MEMORY]
    return "%.1f" % max(ratios) if ratios else ""


def summary():
    """README's table: a row for each raw table."""
    lines = ["| work, beside BuDDy on the same files | files | CPU time, mean | from | to | memory, most | raw table |",
             "|---|---:|---:|---|---|---:|---|"]
    for name, kind, file, _ in ROWS:
        rows = raw(kind, file)
        if rows:
            ratios = sorted((float(row["ratio"]), row["file"]) for row in rows)
            known = rows if "buddy_megabytes" in rows[0] else raw(kind, "right")
            buddy = {row["file"]: row["buddy_megabytes"] for row in known}
            folder = os.path.dirname(newest(kind, file))
            ends = ["%.2g, %s" % ratios[at] for at in (0, -1)]
            lines.append("| %s | %d | %.2f | %s | %s | %s | [%s](%s) |" % (
                name, len(rows), mean_of(rows), ends[0], ends[1], memory_of(rows, buddy),
                os.path.basename(folder), folder))
    return lines


def joined(first, others, heads):
    """Tables of the same files as one: all columns of the first, and some of the others where they have the file."""
    others = [({row["file"]: row for row in rows}, names) for rows, names in others if rows]
    lines = ["| " + " | ".join(heads) + " |", "|---|" + "---:|" * (len(heads) - 1)]
    for row in first:
        line = [row[name] for name in ("file", "variables", "groups", "buddy_seconds", "buddy_megabytes", "size",
                                       "ratio", "megabytes")]
        for found, names in others:
            line += [found.get(row["file"], {}).get(name, "") for name in names]
        lines.append("| " + " | ".join(line) + " |")
    return lines


def formulas():
    return joined(raw("formulas", "right"), [(raw("formulas", "balanced"), ("size", "ratio", "megabytes"))],
                  ["file", "variables", "groups", "BuDDy s", "MB", "right: size", "ratio", "MB", "balanced: size",
                   "ratio", "MB"])


def circuits():
    operations = raw("operations", "table")
    heads = ["file", "inputs", "gates", "BuDDy s", "MB", "size", "`--aag`: ratio", "MB"]
    return joined(raw("circuits", "table"), [(operations, ("ratio", "megabytes"))],
                  heads + (["script: ratio", "MB"] if operations else []))


TABLES = {"README.md": {"summary": summary}, "docs/SPEED.md": {"formulas": formulas, "circuits": circuits}}


def with_tables(document):
    """The document with its tables as they are made."""
    text = read(document)
    for name, made in TABLES[document].items():
        begin = "<!-- made by tools/draw_speed.py: %s -->\n" % name
        head, found, rest = text.partition(begin)
        if not found:
            sys.exit("draw_speed: %s has no place for the table %s" % (document, name))
        text = head + begin + "\n".join(made()) + "\n" + rest[rest.index("<!-- end -->"):]
    return text


# The pictures

def line(x1, y1, x2, y2, style):
    return '<line x1="%.1f" y1="%.1f" x2="%.1f" y2="%.1f" %s/>' % (x1, y1, x2, y2, style)


def text(x, y, words, style=""):
    return '<text x="%.1f" y="%.1f" %s>%s</text>' % (x, y, style, words)


def begun(width, height, size):
    return ['<svg xmlns="http://www.w3.org/2000/svg" viewBox="0 0 %d %d" font-family="sans-serif" font-size="%d">'
            % (width, height, size), '<rect width="100%" height="100%" fill="white"/>']


def place(ratio):
    share = (math.log(ratio) - math.log(LEAST)) / (math.log(MOST) - math.log(LEAST))
    return LEFT + share * (WIDTH - LEFT - RIGHT)


def speed():
    shown = [(name, raw(kind, file)) for _, kind, file, name in ROWS if raw(kind, file)]
    bottom = 30 + HEIGHT * len(shown)
    parts = begun(WIDTH, bottom + 40, 13)
    for tick in (0.03, 0.1, 0.3, 1, 3, 10):
        x = place(tick)
        parts.append(line(x, 20, x, bottom, 'stroke="%s"' % ("#666" if tick == 1 else "#ddd")))
        parts.append(text(x, bottom + 16, "%g" % tick, 'text-anchor="middle" fill="#444"'))
    parts.append(text(place(1), bottom + 34, "CPU time, sddc / BuDDy", 'text-anchor="middle" fill="#444"'))
    for number, (name, rows) in enumerate(shown):
        middle = 30 + HEIGHT * number + HEIGHT // 2
        mean = mean_of(rows)
        parts.append(text(10, middle + 4, name))
        for row in rows:
            ratio = float(row["ratio"])
            parts.append('<circle cx="%.1f" cy="%d" r="4" fill="#2a6f97" fill-opacity="0.55">'
                         '<title>%s %g</title></circle>' % (place(ratio), middle, row["file"], ratio))
        x = place(mean)
        parts.append(line(x, middle - 16, x, middle + 16, 'stroke="#c1121f" stroke-width="2"'))
        parts.append(text(x, middle - 20, "%.2f" % mean, 'text-anchor="middle" fill="#c1121f"'))
    return "\n".join(parts + ["</svg>"]) + "\n"


def field(family, left, top):
    """One family: its seconds over its sizes."""
    sizes, seconds = ([float(word) for word in family[name].split(", ")] for name in ("sizes", "seconds"))
    points = list(zip(sizes, seconds))
    wide, high = 170, 90
    least = min(seconds)
    across = max(math.log10(sizes[-1] / sizes[0]), 0.1)
    up = max(math.log10(max(seconds) / least), 0.1)
    spots = [(left + 8 + (wide - 20) * math.log10(size / sizes[0]) / across,
              top + 24 + (high - 32) * (1 - math.log10(second / least) / up)) for size, second in points]
    parts = [text(left, top + 10, family["family"], 'font-weight="bold"'),
             line(left, top + high, left + wide - 8, top + high, 'stroke="#999"'),
             line(left, top + 16, left, top + high, 'stroke="#999"')]
    parts += [line(*first, *second, 'stroke="#2a6f97"') for first, second in zip(spots, spots[1:])]
    parts += ['<circle cx="%.1f" cy="%.1f" r="3" fill="#2a6f97"/>' % spot for spot in spots]
    parts.append(text(left, top + high + 13, "%g to %g: %.3g to %.3g s" % (sizes[0], sizes[-1], seconds[0], seconds[-1]),
                      'fill="#444"'))
    parts.append(text(left + wide - 8, top + high - 5, "\u00d7 " + family["mean rise"], 'fill="#c1121f" text-anchor="end"'))
    return parts


def scaling():
    families = [family for family in table_in(read(newest("scaling", "table"))) if ", " in family["seconds"]]
    columns, wide, high = 4, 190, 122
    parts = begun(columns * wide + 10, (len(families) + columns - 1) // columns * high + 10, 10)
    for number, family in enumerate(families):
        parts += field(family, 10 + number % columns * wide, 10 + number // columns * high)
    return "\n".join(parts + ["</svg>"]) + "\n"


def made():
    """What each file is to hold."""
    files = {document: with_tables(document) for document in TABLES}
    files["docs/speed.svg"] = speed()
    if newest("scaling", "table"):
        files["docs/scaling.svg"] = scaling()
    return files


def main(words):
    differ = [path for path, content in made().items()
              if not os.path.exists(os.path.join(TOP, path)) or read(path) != content]
    if words == ["--check"]:
        for path in differ:
            print("%s differs from what tools/draw_speed.py makes of bench/runs" % path)
        return 1 if differ else 0
    files = made()
    for path in differ:
        with open(os.path.join(TOP, path), "w", encoding="utf-8") as file:
            file.write(files[path])
    return 0


if __name__ == "__main__":
    sys.exit(main(sys.argv[1:]))
