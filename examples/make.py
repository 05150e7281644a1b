#!/usr/bin/env python3
"""Makes the listings of this folder, what the programs write for them, and the pictures.

  python3 examples/make.py                     makes all of it; needs a C compiler and the built library, for draw.out
  python3 examples/make.py --pictures FOLDER   draws the pictures alone, by the outputs that are here, and puts them into FOLDER

For each drawing below NAME.txt is its listing, NAME.out the program's output (by ../flatten) and NAME.svg a picture of both: the drawing as
it is meant in brown, exact but for rational curves, which are drawn as 200 short lines, and over it the flattened points, joined as the knife
joins them, a red ring around the last point of a contour. The program has the screen setting alone, so the pictures of the drawings in TWICE have
a second side, whose points are those of draw.out: what draw.c prints, which flattens in the knife setting by the library. Any browser shows them.
"""
import math
import os
import struct
import subprocess
import sys
import tempfile

HERE = os.path.dirname(os.path.abspath(__file__))
HALF = math.sqrt(0.5)  # the weight of a quarter circle

KEYS = {
    "move": ["x", "y"],
    "line": ["x", "y"],
    "quad": ["x1", "y1", "x2", "y2"],
    "rquad": ["x1", "y1", "x2", "y2", "w"],
    "cubic": ["x1", "y1", "x2", "y2", "x3", "y3"],
    "rcubic": ["x1", "y1", "x2", "y2", "x3", "y3", "w1", "w2"],
}

DRAWINGS = {
    # the program's example: a point is given twice, and so the corner at it is lost in the screen setting
    "doubled-point": [("move", 0, 0), ("line", 10, 0), ("line", 10, 0), ("line", 10, 10)],
    # a quarter round from the origin, closed by its chord, which lies at forty-five degrees
    "quarter-round": [("move", 0, 0), ("rquad", 100, 0, 100, 100, HALF)],
    # the end of a belt: two straights, a half round of two quarter circles, and a hole for the buckle
    "belt-end": [
        ("move", 0, 0), ("line", 180, 0), ("rquad", 210, 0, 210, 30, HALF), ("rquad", 210, 60, 180, 60, HALF), ("line", 0, 60),
        ("move", 165, 30), ("rquad", 165, 37, 158, 37, HALF), ("rquad", 151, 37, 151, 30, HALF), ("rquad", 151, 23, 158, 23, HALF),
        ("rquad", 165, 23, 165, 30, HALF),
    ],
    # the tongue of a buckle: it tapers to a tip of cubics, and its slot is cut out of the broad end
    "buckle-tongue": [
        ("move", 0, 20), ("cubic", 60, 20, 90, 34, 150, 36), ("cubic", 168, 37, 168, 43, 150, 44), ("cubic", 90, 46, 60, 60, 0, 60),
        ("quad", 8, 40, 0, 20),
        ("move", 20, 34), ("line", 44, 34), ("quad", 50, 34, 50, 40), ("quad", 50, 46, 44, 46), ("line", 20, 46), ("quad", 14, 46, 14, 40),
        ("quad", 14, 34, 20, 34),
    ],
    # a saddle flap: long sweeps of cubics, one of them rational, and two straights where it is stitched on
    "saddle-flap": [
        ("move", 40, 0), ("line", 240, 0), ("cubic", 290, 30, 300, 120, 270, 200), ("rcubic", 250, 260, 190, 330, 130, 340, 1.5, 0.75),
        ("cubic", 60, 345, 10, 290, 6, 220), ("quad", 0, 120, 30, 60), ("line", 40, 0),
    ],
    # a square with a slit from its right side to its middle: a line out and the same line back
    "slit": [("move", 0, 0), ("line", 10, 0), ("line", 10, 5), ("line", 5, 5), ("line", 10, 5), ("line", 10, 10), ("line", 0, 10)],
    # a small belt end of lines and quads: each straight runs smoothly into the round
    "straight-and-round": [("move", 0, 0), ("line", 10, 0), ("quad", 12, 0, 12, 2), ("quad", 12, 4, 10, 4), ("line", 0, 4)],
    # two quads that make one sweep, whose sums are 2 and 3, and after a turn a third
    "sweep": [
        ("move", -1, 0), ("quad", -0.5, 0, 0, 0), ("quad", 0.25830078125, 0, 2.058837890625, 0.88427734375),
        ("quad", 2.058837890625, 1.88427734375, 2.058837890625, 2.88427734375),
    ],
}

# the drawings that are drawn in both settings: what is said under each side, and the part that is drawn once more, enlarged (x, y, width, height)
TWICE = {
    "slit": (["the slit's far end is lost"], ["the slit's far end is kept"], None),
    "straight-and-round": (
        ["a chord where straight", "meets round (green rings)"],
        ["a vertex where straight", "meets round (green rings)"],
        (9.0, -0.25, 2.8, 1.1),
    ),
    "sweep": (["after the turn the path", "runs back to (0,0)"], ["after the turn the path", "goes on to (2.06, 1.88)"], None),
}


def single(v):
    return struct.unpack(">f", struct.pack(">f", v))[0]


def listing(drawing):
    lines = []
    for op, *numbers in drawing:
        lines.append(f"op={op}")
        lines += [f"{key}={struct.pack('>f', v).hex()}" for key, v in zip(KEYS[op], numbers, strict=True)]
    return "".join(line + "\n" for line in lines)


def points(output):
    lines = output.split("\n")
    rows = lines[3:-1]
    of = lambda text: struct.unpack(">f", bytes.fromhex(text.split("=")[1]))[0]
    return [(of(rows[i]), of(rows[i + 1]), rows[i + 2] == "end=1") for i in range(0, len(rows), 3)]


def curve(start, control, weights, t):
    """A point of a rational curve of any degree, by its Bernstein form."""
    all_points, all_weights = [start, *control], [1.0, *weights, 1.0]
    n = len(all_points) - 1
    terms = [math.comb(n, i) * t**i * (1 - t) ** (n - i) * w for i, w in enumerate(all_weights)]
    return tuple(sum(b * p[k] for b, p in zip(terms, all_points)) / sum(terms) for k in (0, 1))


def path(drawing):
    """SVG path data of the drawing as it is meant, each contour closed."""
    d, at, opened = ["M 0 0"], (0.0, 0.0), False
    for op, *v in drawing:
        if op == "move":
            d.append((" Z" if opened else "") + f" M {v[0]} {v[1]}")
            at, opened = (v[0], v[1]), False
            continue
        opened = True
        if op == "line":
            d.append(f" L {v[0]} {v[1]}")
            at = (v[0], v[1])
            continue
        count = {"quad": 2, "rquad": 2, "cubic": 3, "rcubic": 3}[op]
        control, weights = [tuple(v[2 * i : 2 * i + 2]) for i in range(count)], v[2 * count :]
        if weights:
            for i in range(1, 201):
                d.append(" L {:.3f} {:.3f}".format(*curve(at, control, weights, i / 200)))
        else:
            d.append((" Q " if count == 2 else " C ") + ", ".join(f"{x} {y}" for x, y in control))
        at = control[-1]
    return "".join(d) + (" Z" if opened else "")


def knife(text, name):
    """The points that draw.c prints under this heading."""
    rows = text[text.index(f"{name}:"):].split("\n")[1:]
    rows = [row.split() for row in rows[: next(i for i, row in enumerate(rows) if not row.startswith(" "))]]
    return [(float(row[0]), float(row[1]), row[2:] == ["end"]) for row in rows]


def extent(drawing, found):
    at = [(x, y) for x, y, _ in found] + [(v[i], v[i + 1]) for _, *v in drawing for i in range(0, min(len(v) // 2 * 2, 6), 2)]
    return min(x for x, _ in at), min(y for _, y in at), max(x for x, _ in at), max(y for _, y in at)


def meetings(drawing):
    """The points where a line and a curve follow each other."""
    found = []
    for (first, *v), (second, *_) in zip(drawing, drawing[1:]):
        if "move" not in (first, second) and (first == "line") != (second == "line"):
            last = min(len(v) // 2 * 2, 6)
            found.append((v[last - 2], v[last - 1]))
    return found


def ring(x, y, dot, colour):
    return f'<circle cx="{x:.4f}" cy="{y:.4f}" r="{2.2 * dot:.3f}" fill="none" stroke="{colour}" stroke-width="{0.6 * dot:.3f}"/>'


def side(drawing, found, dot, ringed=()):
    """The drawing and its points, where the dots have the radius dot; the points that are ringed get a green ring."""
    runs, run = [], []
    for x, y, end in found:
        run.append(f"{x:.4f},{y:.4f}")
        if end:
            runs.append(run)
            run = []
    out = [
        f'<path d="{path(drawing)}" fill="#e8d3b5" fill-rule="evenodd" stroke="#b98a52" stroke-width="{2.4 * dot:.3f}" stroke-linejoin="round"/>',
    ]
    for run in runs:
        out.append(f'<polyline points="{" ".join(run)}" fill="none" stroke="#1d3557" stroke-width="{0.5 * dot:.3f}"/>')
    for x, y, end in found:
        out.append(f'<circle cx="{x:.4f}" cy="{y:.4f}" r="{dot:.3f}" fill="#1d3557"/>')
        if end:
            out.append(ring(x, y, dot, "#c1121f"))
    return out + [ring(x, y, dot, "#2a7d4f") for x, y in ringed]


def label(x, y, size, text):
    return f'<text x="{x:.3f}" y="{y:.3f}" font-family="sans-serif" font-size="{size:.3f}" fill="#1d3557">{text}</text>'


def sheet(name, left, top, wide, high, shapes):
    head = [
        f'<svg xmlns="http://www.w3.org/2000/svg" viewBox="{left:.3f} {top:.3f} {wide:.3f} {high:.3f}" width="720">',
        f"<title>{name}</title>",
        '<rect x="-10000" y="-10000" width="20000" height="20000" fill="#faf6ef"/>',
    ]
    return "\n".join([*head, *shapes, "</svg>"]) + "\n"


def picture(name, drawing, found):
    left, top, right, bottom = extent(drawing, found)
    wide = max(right - left, bottom - top)
    m, contours = wide * 0.06, sum(end for _, _, end in found)
    text = f"{name}: {len(found)} points, {contours} contour{'s' if contours != 1 else ''}"
    shapes = [*side(drawing, found, wide * 0.006), label(left, bottom + 1.6 * m, wide * 0.035, text)]
    return sheet(name, left - m, top - m, right - left + 2 * m, bottom - top + 3 * m, shapes)


def frame(x, y, wide, high, line):
    return f'<rect x="{x:.3f}" y="{y:.3f}" width="{wide:.3f}" height="{high:.3f}" fill="none" stroke="#7a7a7a" stroke-width="{line:.3f}"/>'


def two_sides(name, drawing, sides, part):
    """The drawing once for each list of points, side by side, with lines of text under each. A part of it, if one is given, comes once more under the
    drawing, enlarged to its width; then green rings mark where straight meets round."""
    left, top, right, bottom = extent(drawing, [p for found, _ in sides for p in found])
    wide = right - left
    m, step, shapes = wide * 0.09, wide * 1.25, []
    dot, ringed, under = wide * 0.013, (), bottom
    if part:
        x, y, part_wide, part_high = part
        dot, ringed, scale, at = wide * 0.009, meetings(drawing), wide / part_wide, bottom + 0.7 * m
        under = at + part_high * scale
    for i, (found, lines) in enumerate(sides):
        shapes.append(f'<g transform="translate({i * step:.3f} 0)">')
        shapes += side(drawing, found, dot, ringed)
        if part:
            shapes.append(frame(*part, 0.3 * dot))
            shapes.append(f'<svg x="{left:.3f}" y="{at:.3f}" width="{wide:.3f}" height="{part_high * scale:.3f}" viewBox="{x} {y} {part_wide} {part_high}">')
            shapes += [*side(drawing, found, dot * 1.3 / scale, ringed), "</svg>", frame(left, at, wide, part_high * scale, 0.3 * dot)]
        shapes += [label(left, under + (1.2 + 0.8 * k) * m, wide * 0.055, text) for k, text in enumerate(lines)]
        shapes.append("</g>")
    return sheet(name, left - m, top - m, (len(sides) - 1) * step + wide + 2 * m, under - top + (2 + 0.8 * len(sides[0][1])) * m, shapes)


def read(name):
    with open(os.path.join(HERE, name), encoding="ascii", newline="") as f:
        return f.read()


def write(folder, name, text):
    with open(os.path.join(folder, name), "w", encoding="utf8", newline="") as f:
        f.write(text)


def drawn(name, drawing):
    found = points(read(name + ".out"))
    if name not in TWICE:
        return picture(name, drawing, found)
    before, after, part = TWICE[name]
    kept = knife(read("draw.out"), name.replace("-", " ") + ", knife setting")
    return two_sides(name, drawing, [
        (found, ["before, and still in the screen setting:", f"{len(found)} points; {before[0]}", *before[1:]]),
        (kept, ["after, in the knife setting:", f"{len(kept)} points; {after[0]}", *after[1:]]),
    ], part)


def outputs():
    for name, drawing in DRAWINGS.items():
        write(HERE, name + ".txt", listing(drawing))
        stem = os.path.join(HERE, name)
        output = subprocess.run([os.path.join(HERE, "..", "flatten"), stem + ".txt"], check=True, stdout=subprocess.PIPE, text=True).stdout
        assert output.startswith("answer=0\n"), (name, output[:40])
        write(HERE, name + ".out", output)
        print(name, output.split("\n")[2])
    library = os.path.join(HERE, "..", "target", "staticlib", "libabi.a")
    if not os.path.exists(library):
        subprocess.run([os.path.join(HERE, "..", "bindings", "build")], check=True, stdout=subprocess.DEVNULL)
    with tempfile.TemporaryDirectory() as made:
        program = os.path.join(made, "draw")
        subprocess.run([os.environ.get("CC", "cc"), "-O2", "-o", program, os.path.join(HERE, "draw.c"), library], check=True)
        write(HERE, "draw.out", subprocess.run([program], check=True, stdout=subprocess.PIPE, text=True).stdout)


def main():
    args = sys.argv[1:]
    if args and (args[0] != "--pictures" or len(args) != 2):
        sys.exit(__doc__)
    if not args:
        outputs()
    folder = args[1] if args else HERE
    for name, drawing in DRAWINGS.items():
        write(folder, name + ".svg", drawn(name, drawing))


main()
