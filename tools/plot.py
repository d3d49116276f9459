#!/usr/bin/env python3
"""plot.py SPEED.csv OUT.svg: draws what `oracle/compare speed --csv SPEED.csv` measured.

Left, how the time of a sheet grows with its cabinets, both axes logarithmic: the proved renderer solid, the Rust dashed. Right, how many
times as fast the proved renderer is, for every sheet. Pure Python; ends with 1 and a message where its input is bad.
"""
import csv, math, sys

WIDTH, HEIGHT = 1100, 520
COLOURS = ["#0b5fa5", "#c1440e", "#2e7d32", "#6a1b9a"]
NUMBERS = ["cabinets", "library_us", "rust_us"]


def fail(message):
    print("plot.py: " + message, file=sys.stderr)
    sys.exit(1)


def read(path):
    try:
        with open(path, newline="") as f:
            rows = list(csv.DictReader(f))
    except OSError as e:
        fail("%s: %s" % (path, e.strerror))
    if not rows:
        fail("%s: no rows" % path)
    for i, row in enumerate(rows):
        try:
            row.update({k: float(row[k]) for k in NUMBERS})
        except (KeyError, TypeError, ValueError):
            fail("%s: row %d: %s are wanted" % (path, i + 1, ", ".join(NUMBERS)))
        if not row.get("series") or row["library_us"] <= 0 or row["rust_us"] <= 0:
            fail("%s: row %d: a name and times above 0 are wanted" % (path, i + 1))
    return rows


def escape(s):
    return s.replace("&", "&amp;").replace("<", "&lt;").replace(">", "&gt;")


def text(x, y, s, anchor="middle", extra=""):
    return '<text x="%.1f" y="%.1f" text-anchor="%s"%s>%s</text>' % (x, y, anchor, extra, escape(s))


def line(x1, y1, x2, y2, colour, extra=""):
    return '<line x1="%.1f" y1="%.1f" x2="%.1f" y2="%.1f" stroke="%s"%s/>' % (x1, y1, x2, y2, colour, extra)


def power_range(values):
    """the powers of ten that enclose the values"""
    low = math.floor(math.log10(min(values)))
    return low, max(low + 1, math.ceil(math.log10(max(values))))


def duration(us):
    if us >= 1000:
        return "%g ms" % (us / 1000)
    return "%g µs" % us


def series_of(rows):
    """the sheets that grow, in the order in which they come"""
    names = list(dict.fromkeys(r["series"] for r in rows if r["cabinets"] > 0))
    return [(n, [r for r in rows if r["series"] == n]) for n in names]


def growth(rows, left, top, width, height):
    grown = [r for r in rows if r["cabinets"] > 0]
    if not grown:
        return []
    x_low, x_high = power_range([r["cabinets"] for r in grown])
    y_low, y_high = power_range([r[k] for r in grown for k in ("library_us", "rust_us")])

    def x(v):
        return left + width * (math.log10(v) - x_low) / (x_high - x_low)

    def y(v):
        return top + height - height * (math.log10(v) - y_low) / (y_high - y_low)

    out = [text(left + width / 2, top - 16, "Time of a sheet", extra=' font-weight="bold"')]
    for p in range(x_low, x_high + 1):
        out += [line(x(10 ** p), top, x(10 ** p), top + height, "#ddd"), text(x(10 ** p), top + height + 18, "%g" % 10 ** p)]
    for p in range(y_low, y_high + 1):
        out += [line(left, y(10 ** p), left + width, y(10 ** p), "#ddd"), text(left - 8, y(10 ** p) + 4, duration(10 ** p), "end")]
    out.append(text(left + width / 2, top + height + 38, "cabinets"))
    for i, (name, of) in enumerate(series_of(rows)):
        colour = COLOURS[i % len(COLOURS)]
        for key, dash in (("library_us", ""), ("rust_us", ' stroke-dasharray="6 4"')):
            points = " ".join("%.1f,%.1f" % (x(r["cabinets"]), y(r[key])) for r in of)
            out.append('<polyline points="%s" fill="none" stroke="%s" stroke-width="2"%s/>' % (points, colour, dash))
            out += ['<circle cx="%.1f" cy="%.1f" r="3" fill="%s"/>' % (x(r["cabinets"]), y(r[key]), colour) for r in of]
    return out + legend([name for name, _ in series_of(rows)], left + width - 180, top + height)


def legend(names, left, bottom):
    """in the lower right corner, where no line comes"""
    at = bottom - 18 * len(names) - 14
    out = []
    for i, name in enumerate(names):
        out += [line(left, at, left + 30, at, COLOURS[i % len(COLOURS)], ' stroke-width="2"'), text(left + 36, at + 4, name, "start")]
        at += 18
    return out + [text(left, at + 4, "solid: proved, dashed: Rust", "start")]


def label(row):
    return row["series"] if row["cabinets"] == 0 else "%s, %d" % (row["series"], row["cabinets"])


def ratios(rows, left, top, width, height):
    values = [r["rust_us"] / r["library_us"] for r in rows]
    most = max(values + [1.0]) * 1.12
    names = [n for n, _ in series_of(rows)]
    step = height / len(rows)
    out = [text(left + width / 2, top - 16, "Times as fast as the Rust", extra=' font-weight="bold"')]
    for i, (row, value) in enumerate(zip(rows, values)):
        y = top + step * i
        colour = COLOURS[names.index(row["series"]) % len(COLOURS)] if row["series"] in names else "#666"
        out.append('<rect x="%.1f" y="%.1f" width="%.1f" height="%.1f" fill="%s"/>' % (left, y + step * 0.15, width * value / most, step * 0.7, colour))
        out += [text(left - 8, y + step / 2 + 4, label(row), "end"), text(left + width * value / most + 5, y + step / 2 + 4, "%.1f" % value, "start")]
    one = left + width / most
    out += [line(one, top, one, top + height, "#000", ' stroke-dasharray="3 3"'), text(one, top + height + 18, "1")]
    return out


def main():
    if len(sys.argv) != 3:
        fail("usage: plot.py SPEED.csv OUT.svg")
    rows = read(sys.argv[1])
    parts = growth(rows, 80, 50, 400, 400) + ratios(rows, 680, 50, 380, 400)
    svg = ['<svg xmlns="http://www.w3.org/2000/svg" width="%d" height="%d" viewBox="0 0 %d %d" font-family="sans-serif" font-size="12">' % (WIDTH, HEIGHT, WIDTH, HEIGHT)]
    svg += ['<rect width="%d" height="%d" fill="#fff"/>' % (WIDTH, HEIGHT)] + parts + ["</svg>", ""]
    try:
        with open(sys.argv[2], "w", encoding="utf-8") as f:
            f.write("\n".join(svg))
    except OSError as e:
        fail("%s: %s" % (sys.argv[2], e.strerror))


main()
