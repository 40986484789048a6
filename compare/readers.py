"""What three public readers say of binary STL that the station wrote, beside what the station says (`read DIR`); solids for public programs to write as binary
STL (`make DIR`), and what the station says of what they wrote (`told DIR`); see compare/readers."""

import ast
import math
import re
import sys
from collections import Counter
from pathlib import Path

import numpy
from stl import Mode, mesh

NEAR = 1e-5

wrong = 0


def said(stone, reader, what, value, expected):
    """One row; near is within a part in 100,000, for sums that a reader makes in binary32."""
    global wrong
    value, expected = (numpy.asarray(x, dtype=float) for x in (value, expected))
    near = value.shape == expected.shape and numpy.all(numpy.abs(value - expected) <= NEAR * numpy.maximum(1, numpy.abs(expected)))
    wrong += not near
    print(f"{stone:6} {reader:10} {what:20} {value.tolist()} {'' if near else f'WRONG, expected {expected.tolist()}'}")


def numbers(text, pattern):
    found = re.search(pattern, text, re.S)
    assert found, f"no {pattern!r} in:\n{text}"
    return [float(x) for x in found.groups()]


def read(folder):
    for line in (folder / "told").read_text().splitlines():
        stone, count, volume, box = re.fullmatch(r"(\w+) (\d+) \[(.*)\] (\[.*\])", line).groups()
        count, volume, box = int(count), float(volume), ast.literal_eval(box)

        text = (folder / f"{stone}.admesh").read_text()
        said(stone, "admesh", "facets", numbers(text, r"Number of facets\s*:\s*(\d+)"), [count])
        said(stone, "admesh", "disconnected", numbers(text, r"Total disconnected facets\s*:\s*(\d+)"), [0])
        said(stone, "admesh", "parts", numbers(text, r"Number of parts\s*:\s*(\d+)"), [1])
        # It turns facets that disagree, and all of them where the volume is below 0.
        said(stone, "admesh", "facets reversed", numbers(text, r"Facets reversed\s*:\s*(\d+)"), [0])
        said(stone, "admesh", "volume", numbers(text, r"Volume\s*:\s*(-?[\d.]+)"), [volume])
        axes = [numbers(text, rf"Min {axis}\s*=\s*(-?[\d.]+), Max {axis}\s*=\s*(-?[\d.]+)") for axis in "XYZ"]
        said(stone, "admesh", "box", [a[0] for a in axes] + [a[1] for a in axes], box)

        text = (folder / f"{stone}.assimp").read_text()
        said(stone, "assimp", "faces", numbers(text, r"Faces:\s*(\d+)"), [count])
        point = r"\(\s*(-?[\d.]+)\s+(-?[\d.]+)\s+(-?[\d.]+)\s*\)"
        corners = numbers(text, rf"Minimum point\s*{point}") + numbers(text, rf"Maximum point\s*{point}")
        said(stone, "assimp", "box", corners, box)

        opened = mesh.Mesh.from_file(str(folder / f"{stone}.stl"), mode=Mode.BINARY)
        said(stone, "python-stl", "triangles", [len(opened.vectors)], [count])
        # Watertight and outward: each way along an edge as often as the way back.
        ways = Counter()
        for triangle in opened.vectors:
            a, b, c = (tuple(corner) for corner in triangle.tolist())
            ways.update([(a, b), (b, c), (c, a)])
        open_ways = sum(ways[way] != ways[way[::-1]] for way in ways)
        said(stone, "python-stl", "open edges", [open_ways], [0])
        said(stone, "python-stl", "is_closed", [opened.is_closed()], [True])
        said(stone, "python-stl", "volume", [opened.get_mass_properties()[0]], [volume])
        said(stone, "python-stl", "box", [*opened.min_, *opened.max_], box)
        said(stone, "python-stl", "attributes", [numpy.count_nonzero(opened.attr)], [0])


def around(n):
    return [(math.cos(2 * math.pi * k / n), math.sin(2 * math.pi * k / n)) for k in range(n)]


def cube():
    points = [(x, y, z) for z in (0, 10) for y in (0, 10) for x in (0, 10)]
    return points, [(0, 2, 3, 1), (4, 5, 7, 6), (0, 1, 5, 4), (2, 6, 7, 3), (0, 4, 6, 2), (1, 3, 7, 5)]


def sphere(n=25, m=11):
    """Of n points around, and m rings less one: 2 n (m - 1) triangles."""
    heights = [math.pi * ring / m for ring in range(1, m)]
    points = [(0, 0, 10)] + [(10 * x * math.sin(h), 10 * y * math.sin(h), 10 * math.cos(h)) for h in heights for x, y in around(n)] + [(0, 0, -10)]
    at = lambda ring, k: 1 + ring * n + k % n
    faces = [(0, at(0, k), at(0, k + 1)) for k in range(n)]
    faces += [(at(ring, k), at(ring + 1, k), at(ring + 1, k + 1), at(ring, k + 1)) for ring in range(m - 2) for k in range(n)]
    faces += [(len(points) - 1, at(m - 2, k + 1), at(m - 2, k)) for k in range(n)]
    return points, faces


def block():
    """With a square hole through it."""
    square = [(-1, -1), (1, -1), (1, 1), (-1, 1)]
    points = [(size * x, size * y, z) for z in (0, 20.25) for size in (40, 12.5) for x, y in square]
    faces = []
    for k in range(4):
        to = (k + 1) % 4
        faces += [(4 + k, 4 + to, to, k), (8 + k, 8 + to, 12 + to, 12 + k), (k, to, 8 + to, 8 + k), (4 + to, 4 + k, 12 + k, 12 + to)]
    return points, faces


def solids():
    """Each by its name: its points as binary32 values, and its triangles as places among them."""
    for name, (points, faces) in (("cube", cube()), ("sphere", sphere()), ("block", block())):
        triangles = [(face[0], face[k], face[k + 1]) for face in faces for k in range(1, len(face) - 1)]
        yield name, numpy.asarray(points, dtype=numpy.float32), triangles


def make(folder):
    """Text for admesh and assimp, and python3-stl's own file."""
    for name, points, triangles in solids():
        digits = [" ".join(f"{x:.9g}" for x in point) for point in points]
        lines = [f"v {point}" for point in digits] + ["f " + " ".join(str(k + 1) for k in t) for t in triangles]
        (folder / f"{name}.obj").write_text("\n".join(lines) + "\n")
        lines = [f"solid {name}"]
        for t in triangles:
            lines += ["facet normal 0 0 0", "outer loop", *(f"vertex {digits[k]}" for k in t), "endloop", "endfacet"]
        (folder / f"{name}.ascii").write_text("\n".join(lines) + f"\nendsolid {name}\n")
        solid = mesh.Mesh(numpy.zeros(len(triangles), dtype=mesh.Mesh.dtype))
        solid.vectors[:] = points[numpy.asarray(triangles)]
        solid.save(str(folder / f"{name}-python.stl"), mode=Mode.BINARY)


def told(folder):
    rows = {line.split()[0]: line.split()[1:] for line in (folder / "told").read_text().splitlines()}
    for name, points, triangles in solids():
        edges = {frozenset(pair) for a, b, c in triangles for pair in ((a, b), (b, c), (c, a))}
        for writer in ("admesh", "assimp", "python"):
            number, *counts, reasons = rows[f"{name}-{writer}"]
            said(name, writer, "number", [number], [0])
            said(name, writer, "faces, edges, points", counts, [len(triangles), len(edges), len(points)])
            # No reason but 9, since there are no surfaces yet.
            said(name, writer, "reasons", [x for one in reasons.split(",") for x in one.split(":")], [9, len(triangles)])


def main():
    mode, folder = sys.argv[1:]
    {"read": read, "make": make, "told": told}[mode](Path(folder))
    if mode != "make":
        print(f"{wrong} rows differ")
    sys.exit(1 if wrong else 0)


main()
