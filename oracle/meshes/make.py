#!/usr/bin/env python3
"""Makes what the program crate test_mesh_tables runs on, and what it is held to.

    make.py TABLES

writes crates/test_mesh_tables/data/cases (src/main.rt says in which form) and crates/test_mesh_tables/stdout.
No number of a line is computed here: TABLES, built from tables.rs, has FLURSYS's own
`UnstructuredMesh::from_cells` build each case and prints its tables.
"""
import math
import os
import random
import re
import struct
import subprocess
import sys

HERE = os.path.dirname(os.path.abspath(__file__))
CRATE = os.path.join(HERE, "..", "..", "crates", "test_mesh_tables")
TOP = 2**32 - 1
FAR = 1048576.0
EPS = 2.0**-52


def u32(*numbers):
    return struct.pack("<%dI" % len(numbers), *numbers)


class Mesh:
    """Points, and cells as (kind, numbers) or (5, faces)."""

    def __init__(self, dimension, points, cells):
        self.dimension, self.points, self.cells = dimension, [list(p) for p in points], list(cells)

    def words(self):
        out = []
        for kind, v in self.cells:
            out.append(kind)
            if kind == 0:
                out += [len(v), *v]
            elif kind == 5:
                out.append(len(v))
                for f in v:
                    out += [len(f), *f]
            else:
                out += v
        return out

    def faces(self):
        return sum({0: len(v), 1: 4, 2: 6, 3: 5, 4: 5, 5: len(v)}.get(k, 0) for k, v in self.cells)

    def bytes(self, words=None, trailer=None):
        w = self.words() if words is None else words
        p, c = len(self.points), len(self.cells)
        body = b"".join(struct.pack("<3d", *x) for x in self.points) + u32(*w) + b"\xdd" * (32 * c)
        if trailer is None:
            trailer = (self.dimension, p, len(w), c, 0, 24 * p, 24 * p + 4 * len(w), 24 * p + 4 * len(w) + 24 * c)
        return body + u32(*trailer)

    def moved(self, change):
        return Mesh(self.dimension, [change(p) for p in self.points], self.cells)

    def scaled(self, x, y=None, z=None):
        y, z = x if y is None else y, x if z is None else z
        return self.moved(lambda p: (p[0] * x, p[1] * y, p[2] * z))

    def shifted(self, x, y, z):
        return self.moved(lambda p: (p[0] + x, p[1] + y, p[2] + z))

    def perturbed(self, r, by):
        return self.moved(lambda p: [x + (r.uniform(-by, by) if k < self.dimension else 0.0) for k, x in enumerate(p)])

    def with_cells(self, *cells):
        return Mesh(self.dimension, self.points, cells)

    def with_point(self, i, p):
        return Mesh(self.dimension, [*self.points[:i], p, *self.points[i + 1:]], self.cells)


CASES = []
PLENTY = (131072, 65536)


def add(name, case, shown=False, lent=PLENTY):
    data = case.bytes() if isinstance(case, Mesh) else case
    assert len(data) < 65536, (name, len(data))
    CASES.append((name, shown, lent, data))


# ---- meshes

def quads(nx, ny, dx=1.0, dy=1.0):
    n = nx + 1
    points = [(i * dx, j * dy, 0.0) for j in range(ny + 1) for i in range(n)]
    return Mesh(2, points, [(0, [j * n + i, j * n + i + 1, j * n + i + 1 + n, j * n + i + n]) for j in range(ny) for i in range(nx)])


def triangles(nx, ny, r):
    m = quads(nx, ny)
    cells = []
    for _, (a, b, c, d) in m.cells:
        cells += [(0, [a, b, c]), (0, [a, c, d])] if r.random() < 0.5 else [(0, [a, b, d]), (0, [b, c, d])]
    return m.with_cells(*cells)


def polygon(n, k=1):
    points = [(math.cos(2 * math.pi * i / n), math.sin(2 * math.pi * i / n), 0.0) for i in range(n)]
    return Mesh(2, points, [(0, [i * k % n for i in range(n)])])


def ring(n):
    m = polygon(n)
    points = m.points + [[2 * x for x in p] for p in m.points]
    return Mesh(2, points, m.cells + [(0, [i, (i + 1) % n, (i + 1) % n + n, i + n]) for i in range(n)])


def fan(n):
    m = polygon(n)
    return Mesh(2, [(0.0, 0.0, 0.0)] + m.points, [(0, [0, 1 + i, 1 + (i + 1) % n]) for i in range(n)])


def hexahedra(nx, ny, nz, d=(1.0, 1.0, 1.0)):
    points = [(i * d[0], j * d[1], k * d[2]) for k in range(nz + 1) for j in range(ny + 1) for i in range(nx + 1)]
    at = lambda i, j, k: (k * (ny + 1) + j) * (nx + 1) + i
    cells = []
    for k in range(nz):
        for j in range(ny):
            for i in range(nx):
                low = [at(i, j, k), at(i + 1, j, k), at(i + 1, j + 1, k), at(i, j + 1, k)]
                cells.append((2, low + [at(i, j, k + 1), at(i + 1, j, k + 1), at(i + 1, j + 1, k + 1), at(i, j + 1, k + 1)]))
    return Mesh(3, points, cells)


HEX_FACES = [[0, 3, 2, 1], [4, 5, 6, 7], [0, 1, 5, 4], [1, 2, 6, 5], [2, 3, 7, 6], [3, 0, 4, 7]]


def hex_faces(v):
    return [[v[i] for i in f] for f in HEX_FACES]


def split(m, kind, r=None):
    """Hexahedra cut into tetrahedra, prisms or pyramids, or written as polyhedra."""
    points, cells = [list(p) for p in m.points], []
    for _, v in m.cells:
        if kind == 1:
            cells += [(1, [v[i] for i in t]) for t in ([0, 1, 2, 6], [0, 2, 3, 6], [0, 3, 7, 6], [0, 7, 4, 6], [0, 4, 5, 6], [0, 5, 1, 6])]
        elif kind == 3:
            cells += [(3, [v[i] for i in t]) for t in ([0, 1, 2, 4, 5, 6], [0, 2, 3, 4, 6, 7])]
        elif kind == 4:
            cells += [(4, f + [len(points)]) for f in hex_faces(v)]
            points.append([sum(m.points[i][k] for i in v) / 8.0 for k in range(3)])
        else:
            faces = hex_faces(v)
            if r is not None:
                r.shuffle(faces)
                turns = [r.randrange(len(f)) for f in faces]
                faces = [(f[t:] + f[:t])[::r.choice((1, -1))] for f, t in zip(faces, turns)]
            cells.append((5, faces))
    return Mesh(3, points, cells)


def column(n, layers):
    points = [(math.cos(2 * math.pi * i / n), math.sin(2 * math.pi * i / n), 0.5 * k) for k in range(layers + 1) for i in range(n)]
    cells = []
    for k in range(layers):
        low, high = k * n, k * n + n
        sides = [[low + i, low + (i + 1) % n, high + (i + 1) % n, high + i] for i in range(n)]
        cells.append((5, [[low + i for i in range(n)], [high + i for i in range(n)], *sides]))
    return Mesh(3, points, cells)


TETRAHEDRON = Mesh(3, [(0, 0, 0), (1, 0, 0), (0, 1, 0), (0, 0, 1)], [(1, [0, 1, 2, 3])])
CUBE = hexahedra(1, 1, 1)
CUBE_FACES = hex_faces(CUBE.cells[0][1])
PRISM = Mesh(3, [(0, 0, 0), (1, 0, 0), (0, 1, 0), (0, 0, 1), (1, 0, 1), (0, 1, 1)], [(3, [0, 1, 2, 3, 4, 5])])
PYRAMID = Mesh(3, [(0, 0, 0), (1, 0, 0), (1, 1, 0), (0, 1, 0), (0.5, 0.5, 1)], [(4, [0, 1, 2, 3, 4])])
SQUARE = quads(1, 1)
PAIR = quads(2, 1)
STACK = hexahedra(1, 1, 2)


def mixed():
    """Three layers of a box: a hexahedron, six pyramids and a polyhedron."""
    m = hexahedra(1, 1, 3)
    h = [[v for _, v in m.cells][i] for i in range(3)]
    points, cells = m.points, [(2, h[0])]
    cells += split(Mesh(3, m.points, [(2, h[1])]), 4).cells
    points = split(Mesh(3, m.points, [(2, h[1])]), 4).points
    cells.append((5, hex_faces(h[2])))
    return Mesh(3, points, cells)


def shown():
    add("pair of squares", PAIR, True)
    add("square, clockwise", SQUARE.with_cells((0, [0, 2, 3, 1])), True)
    add("two triangles", SQUARE.with_cells((0, [0, 1, 3]), (0, [0, 3, 2])), True)
    add("pentagon", polygon(5), True)
    add("tetrahedron", TETRAHEDRON, True)
    add("tetrahedron, the other way round", TETRAHEDRON.with_cells((1, [0, 2, 1, 3])), True)
    add("unit cube", CUBE, True)
    add("cube on a cube", STACK, True)
    add("prism", PRISM, True)
    add("pyramid", PYRAMID, True)
    add("cube as polyhedron", split(CUBE, 5), True)
    add("cube in pyramids", split(CUBE, 4), True)
    add("cube in tetrahedra", split(CUBE, 1), True)
    add("perturbed quads", quads(2, 2).perturbed(random.Random(7), 0.2), True)
    add("perturbed cubes", hexahedra(2, 1, 1).perturbed(random.Random(8), 0.1), True)


def accepted(r):
    for nx, ny in ((1, 1), (3, 2), (5, 5), (20, 1), (1, 12), (9, 8)):
        add(f"quads {nx} x {ny}", quads(nx, ny, 0.25, 0.5))
        add(f"perturbed quads {nx} x {ny}", quads(nx, ny).perturbed(r, 0.25))
        add(f"triangles {nx} x {ny}", triangles(nx, ny, r))
        add(f"perturbed triangles {nx} x {ny}", triangles(nx, ny, r).perturbed(r, 0.2))
    for n in (3, 4, 6, 7, 12, 23, 24):
        add(f"polygon of {n}", polygon(n))
        add(f"ring of {n}", ring(n))
        add(f"fan of {n}", fan(n))
        add(f"star of {n}", polygon(n, 2) if n % 2 else polygon(n))
    for i in range(25):
        n = r.randrange(3, 25)
        m = polygon(n)
        m = m.moved(lambda p: [x * r.uniform(0.4, 1.0) for x in p])
        if r.random() < 0.5:
            m = m.with_cells((0, list(reversed(range(n)))))
        add(f"uneven polygon {i}", m)
    for i, n in enumerate((3, 4, 5, 6, 7, 8, 5, 8)):
        add(f"column {i} of {n}", column(n, 1 + i % 3))
        add(f"perturbed column {i} of {n}", column(n, 1 + i % 3).perturbed(r, 0.05))
    for size in ((1, 1, 1), (2, 2, 1), (3, 2, 2)):
        for kind, word in ((2, "hexahedra"), (1, "tetrahedra"), (3, "prisms"), (4, "pyramids"), (5, "polyhedra")):
            m = hexahedra(*size, d=(0.5, 0.25, 1.0))
            p = hexahedra(*size).perturbed(r, 0.1)
            add(f"{word} {size}", m if kind == 2 else split(m, kind, r))
            add(f"perturbed {word} {size}", p if kind == 2 else split(p, kind, r))
    add("mixed kinds", mixed())
    for i in range(8):
        add(f"mixed kinds, perturbed {i}", mixed().perturbed(r, 0.1 * r.random()))
    for i in range(30):
        m = r.choice((quads(3, 3).perturbed(r, 0.2), triangles(2, 3, r), ring(5), hexahedra(2, 2, 1).perturbed(r, 0.1),
                      split(hexahedra(1, 2, 1).perturbed(r, 0.1), r.choice((1, 3, 4, 5)), r), column(6, 2)))
        far = r.choice((1.0, 50.0, 1e3, 1e5))
        m = m.scaled(r.choice((1.0, 2.0**-8, 0.01, 37.5, 1e3)))
        m = m.shifted(*(r.uniform(-far, far) for _ in range(3)))
        order = list(range(len(m.points)))
        r.shuffle(order)
        place = {old: new for new, old in enumerate(order)}
        cells = [(k, [[place[x] for x in f] for f in v] if k == 5 else [place[x] for x in v]) for k, v in m.cells]
        r.shuffle(cells)
        add(f"moved and renumbered {i}", Mesh(m.dimension, [m.points[x] for x in order], cells))
    add("heights", quads(3, 2).moved(lambda p: (p[0], p[1], p[0] * 0.5 - p[1])))
    add("negative zeros", quads(2, 2).moved(lambda p: [-0.0 if x == 0 else x for x in p]))
    add("diamond of signed zeros", Mesh(2, [(0.0, -0.0, -0.0), (1, -0.0, 0), (0.0, 1, 0), (-1, 0.0, -0.0), (-0.0, -1, 0)],
                                        [(0, [0, 1 + i, 1 + (i + 1) % 4]) for i in range(4)]))
    add("points that no cell uses", Mesh(2, PAIR.points + [[5, 5, 5], [-9, 0, 2]], PAIR.cells))


def damaged_case():
    right = PAIR.bytes()
    add("1: nothing", b"")
    add("1: 31 bytes", right[-31:])
    add("1: one byte over", b"\0" + right)
    add("1: one byte short", right[1:])
    p, w, c = len(PAIR.points), len(PAIR.words()), 2
    ends = (0, 24 * p, 24 * p + 4 * w, 24 * p + 4 * w + 24 * c)
    for d in (0, 1, 4):
        add(f"1: dimension {d}", PAIR.bytes(trailer=(d, p, w, c, *ends)))
    for k in range(4):
        at = [x + (j == k) for j, x in enumerate(ends)]
        add(f"1: offset {k} one over", PAIR.bytes(trailer=(2, p, w, c, *at)))
    add("1: sums wrap", u32(2, 2**29, 0, 0, 0, 0, 0, 0))
    add("3: unknown kind", PAIR.bytes([6] + PAIR.words()[1:]))
    add("3: polygon of 25", Mesh(2, PAIR.points, [(0, [0] * 25)]))
    add("3: 25 faces", Mesh(3, CUBE.points, [(5, [[0, 1, 2]] * 25)]))
    add("3: face of 9", Mesh(3, CUBE.points, [(5, [[0] * 9] * 4)]))
    add("3: a word short", PAIR.bytes(PAIR.words()[:-1]))
    add("3: a word over", PAIR.bytes(PAIR.words() + [0]))
    add("11: as many polygons of nothing as fit", Mesh(2, PAIR.points, [(0, [])] * 1000))
    for name, m in (("pair of squares", PAIR), ("unit cube", CUBE), ("prism", PRISM), ("pyramid", PYRAMID),
                    ("tetrahedron", TETRAHEDRON), ("cube as polyhedron", split(CUBE, 5))):
        words, floats = 16 * m.faces() + 96 * len(m.cells), 12 * m.faces() + 64 * len(m.cells)
        add(f"4: {name}, a word short", m, lent=(words - 1, floats))
        add(f"4: {name}, a float short", m, lent=(words, floats - 1))
        add(f"{name} in the least area", m, lent=(words, floats))
    add("4: nothing lent", PAIR, lent=(0, 0))
    add("4 before 9", PAIR.with_point(0, (math.nan, 0, 0)), lent=(0, 0))


def values():
    add("8: no cells", Mesh(2, PAIR.points, []))
    add("8: no points either", Mesh(3, [], []))
    add("8 before 9", Mesh(2, [(math.nan, 0, 0)], []))
    for bad, word in ((math.nan, "NaN"), (math.inf, "infinity"), (-math.inf, "-infinity")):
        for k in range(3):
            p = list(PAIR.points[4])
            p[k] = bad
            add(f"9: {word} at {k}", PAIR.with_point(4, p))
    add("9: in a point that no cell uses", Mesh(2, PAIR.points + [[0, 0, math.inf]], PAIR.cells))
    add("9 before 10", PAIR.with_point(0, (2e6, 0, 0)).with_point(5, (2, math.nan, 0)))
    for k in range(3):
        for sign in (1, -1):
            p = list(CUBE.points[7])
            p[k] = sign * (FAR + 2**-32)
            add(f"10: beyond at {k} by {sign}", CUBE.with_point(7, p))
            p[k] = sign * FAR
            add(f"at the limit at {k} by {sign}", CUBE.with_point(7, p))
    add("10: in a point that no cell uses", Mesh(2, PAIR.points + [[0, 0, 1e300]], PAIR.cells))
    add("10 before 11", PAIR.with_point(0, (2e6, 0, 0)).with_cells((0, [0, 1])))


def definitions():
    for n in range(3):
        add(f"11: polygon of {n}", PAIR.with_cells((0, list(range(n)))))
    for n in range(4):
        add(f"11: {n} faces", CUBE.with_cells((5, CUBE_FACES[:n])))
    for m in (TETRAHEDRON, CUBE, PRISM, PYRAMID, split(CUBE, 5)):
        add(f"11: kind {m.cells[0][0]} in 2D", Mesh(2, m.points, m.cells))
    add("11: polygon in 3D", Mesh(3, PAIR.points, PAIR.cells))
    add("11: polygon of 2 in 3D", Mesh(3, PAIR.points, [(0, [0, 1])]))
    add("11: second cell", PAIR.with_cells(PAIR.cells[0], (0, [0, 1])))
    add("11 before 12", PAIR.with_cells((0, [9, 10])))
    for n in (6, 7, 2**31, TOP):
        add(f"12: point {n} in a polygon", PAIR.with_cells((0, [0, 1, n, 3])))
    for m in (TETRAHEDRON, CUBE, PRISM, PYRAMID):
        kind, v = m.cells[0]
        for at in (0, len(v) - 1):
            add(f"12: kind {kind} at {at}", m.with_cells((kind, v[:at] + [len(m.points)] + v[at + 1:])))
    add("12: in a polyhedron's last face", CUBE.with_cells((5, CUBE_FACES[:5] + [[3, 0, 4, 8]])))
    add("12: second cell", PAIR.with_cells(PAIR.cells[0], (0, [1, 2, 5, 6])))
    add("12: no points", Mesh(2, [], [(0, [0, 0, 0])]))
    add("12 before 13", PAIR.with_cells((0, [0, 0, 6])))
    add("13 in the first cell before 12 in the second", PAIR.with_cells((0, [0, 0, 1]), (0, [1, 2, 6])))


def faces(r):
    add("13: a point twice in a row", PAIR.with_cells((0, [0, 1, 1, 4])))
    add("13: first and last the same", PAIR.with_cells((0, [0, 1, 4, 0])))
    add("13: two points at one place", PAIR.with_point(1, (0, 0, 0)))
    add("13: second cell", PAIR.with_cells(PAIR.cells[0], (0, [1, 2, 2, 4])))
    add("13: edge along the height only", PAIR.with_point(1, (0, 0, 5)))
    for f in ([], [0], [0, 1], [0, 1, 1], [0, 0, 0], [0, 1, 0, 1]):
        add(f"13: polyhedron's face {f}", CUBE.with_cells((5, CUBE_FACES + [f])))
    add("13: tetrahedron of three points", TETRAHEDRON.with_cells((1, [0, 1, 2, 2])))
    add("13: hexahedron folded", CUBE.with_cells((2, [0, 1, 1, 0, 4, 5, 6, 7])))
    add("13: prism folded", PRISM.with_cells((3, [0, 1, 1, 3, 4, 5])))
    add("13: pyramid folded", PYRAMID.with_cells((4, [0, 1, 1, 0, 4])))
    add("face with a point twice in a row", CUBE.with_cells((5, [[0, 2, 3, 1, 1], *split(CUBE, 5).cells[0][1][1:]])))
    for i, s in enumerate((1e-12, 1e-12 * (1 + EPS), 1e-12 * (1 - EPS), 2e-12, 1.5e-12, 0.999e-12)):
        add(f"threshold of 13: edge of about 1e-12 ({i})", Mesh(2, [(0, 0, 0), (s, 0, 0), (1, 1, 0), (0, 1, 0)], [(0, [0, 1, 2, 3])]))
        add(f"threshold of 13: edge of about 1e-12 upright ({i})", Mesh(2, [(0, 0, 0), (1, 0, 0), (1, s, 0), (0, 1, 0)], [(0, [0, 1, 2, 3])]))
    for i in range(16):
        side = math.sqrt(2e-12) * (1 + (i - 8) * EPS)
        points = [(0, 0, 0), (side, 0, 0), (0, side, 0), (side, side, 1000)]
        v = [0, 1, 2, 3]
        r.shuffle(v)
        add(f"threshold of 13: triangle of about 1e-12 ({i})", Mesh(3, points, [(1, v)]))
        q = [(math.cos(t) * d, math.sin(t) * d) for t, d in ((1.57 * k + r.uniform(0, 1.2), r.uniform(0.5, 1.5)) for k in range(4))]
        area = abs(0.5 * sum(q[k][0] * q[(k + 1) % 4][1] - q[k][1] * q[(k + 1) % 4][0] for k in range(4)))
        f = math.sqrt(1e-12 / area) * (1.0 + r.randrange(-2, 3) * EPS)
        v = r.choice(([0, 1, 2, 3], [3, 2, 1, 0]))
        add(f"threshold of 13: quadrilateral of about 1e-12 ({i})", Mesh(3, [(x * f, y * f, 0) for x, y in q] + [(0, 0, 1000)], [(4, v + [4])]))
    add("14: a cell three times", PAIR.with_cells(*[PAIR.cells[0]] * 3))
    add("14: three triangles on an edge", Mesh(2, [(0, 0, 0), (1, 0, 0), (0, 1, 0), (1, 1, 0), (0, -1, 0)],
                                               [(0, [0, 1, 2]), (0, [0, 1, 4]), (0, [1, 0, 3])]))
    add("14: three tetrahedra on a face", Mesh(3, TETRAHEDRON.points + [[1, 1, 1], [-1, -1, -1]],
                                               [(1, [0, 1, 2, 3]), (1, [1, 2, 3, 4]), (1, [3, 1, 2, 5])]))
    add("14: a polygon's edge three times", PAIR.with_cells((0, [0, 1, 0, 1, 4])))
    add("14: a polyhedron's face three times", CUBE.with_cells((5, CUBE_FACES + [[0, 1, 3, 2]] * 2 + [[2, 0, 1, 3]])))
    add("13 before 14 in a cell", PAIR.with_cells(PAIR.cells[0], PAIR.cells[0], (0, [0, 0, 1, 4, 3])))
    add("14 before 13 in a cell", PAIR.with_cells(PAIR.cells[0], PAIR.cells[0], (0, [0, 1, 4, 4])))


def volumes(r):
    add("15: bow", SQUARE.with_cells((0, [0, 1, 2, 3])))
    add("15: polygon on a line", Mesh(2, [(0, 0, 0), (1, 0, 0), (2, 0, 0)], [(0, [0, 1, 2])]))
    add("15: there and back", PAIR.with_cells((0, [0, 1, 2, 1])))
    add("15: tetrahedron in a plane", TETRAHEDRON.with_point(3, (1, 1, 0)))
    add("15: flat cube", CUBE.scaled(1, 1, 1).with_cells((5, [[0, 1, 3], [3, 1, 0], [0, 1, 2], [2, 1, 0]])))
    add("15: four times one face", CUBE.with_cells((5, [[0, 1, 3]] * 2 + [[0, 1, 2]] * 2)))
    add("15: second cell", Mesh(2, PAIR.points + [[3, 0, 0], [4, 0, 0]], [PAIR.cells[0], (0, [2, 6, 7])]))
    for i, s in enumerate((1e-12, 1e-12 * (1 + EPS), 1e-12 * (1 - EPS), 1.01e-12, 0.99e-12)):
        add(f"threshold of 15: strip of about 1e-12 ({i})", quads(1, 1, 1.0, s))
        add(f"threshold of 15: strip of about 1e-12, long ({i})", quads(1, 1, 2.0**10, s / 2.0**10 * 1.0))
        t = math.sqrt(2 * s)
        add(f"threshold of 15: triangle of about 1e-12 ({i})", Mesh(2, [(0, 0, 0), (t, 0, 0), (0, t, 0)], [(0, [0, 1, 2])]))
        c = s ** (1 / 3)
        add(f"threshold of 15: cube of about 1e-12 ({i})", CUBE.scaled(c))
        add(f"threshold of 15: slab of about 1e-12 ({i})", CUBE.scaled(1.0, 1.0, s))
        add(f"threshold of 15: tetrahedron of about 1e-12 ({i})", TETRAHEDRON.scaled((6 * s) ** (1 / 3)))
        add(f"threshold of 15: prism of about 1e-12 ({i})", PRISM.scaled((2 * s) ** (1 / 3)))
        add(f"threshold of 15: pyramid of about 1e-12 ({i})", PYRAMID.scaled((3 * s) ** (1 / 3)))
    for i in range(10):
        w = 2e-12 * (1 + r.uniform(-0.01, 0.01)) * r.choice((1, 1, 2))
        xs = (-1.0, 0.0, w, 1.0)
        m = Mesh(2, [(x, y, 0) for y in (0.0, 1.0) for x in xs], [(0, [k, k + 1, k + 5, k + 4]) for k in range(3)])
        add(f"threshold of 16: column about 2e-12 wide ({i})", m)
        m = hexahedra(3, 1, 1).moved(lambda p: (xs[int(p[0])], p[1], p[2]))
        add(f"threshold of 16: slab about 2e-12 wide ({i})", m)
    add("16: a cell twice", PAIR.with_cells(PAIR.cells[0], PAIR.cells[0]))
    add("16: two cells on one side of a face", Mesh(2, [(0, 0, 0), (1, 0, 0), (0, 1, 0), (1, 2, 0)], [(0, [0, 1, 2]), (0, [0, 1, 3])]))
    add("16: tetrahedra on one side of a face", Mesh(3, TETRAHEDRON.points + [[1, 1, 1]], [(1, [0, 1, 2, 3]), (1, [0, 1, 2, 4])]))
    for i, x in enumerate((-2.0, -1.9, -2.1, -1.5, 0.0)):
        add(f"threshold of 16: dart ({i})", Mesh(2, [(6, 0, 0), (-6, 3, 0), (x, 0, 0), (-6, -3, 0)], [(0, [0, 1, 2, 3])]))
        add(f"threshold of 16: dart the other way ({i})", Mesh(2, [(6, 0, 0), (-6, 3, 0), (x, 0, 0), (-6, -3, 0)], [(0, [3, 2, 1, 0])]))
    for i in range(12):
        add(f"quads thrown about {i}", quads(3, 2).perturbed(r, 0.4 + 0.1 * i))
        add(f"cubes thrown about {i}", hexahedra(2, 2, 1).perturbed(r, 0.2 + 0.1 * i))
    add("one cell with a face twice", CUBE.with_cells((5, CUBE_FACES + [[1, 3, 2, 0]])))


def connections():
    far = Mesh(2, SQUARE.points + [[p[0] + 5, p[1], p[2]] for p in SQUARE.points], [])
    add("17: two squares apart", far.with_cells((0, [0, 1, 3, 2]), (0, [4, 5, 7, 6])))
    add("17: two squares at a point", Mesh(2, quads(2, 2).points, [(0, [0, 1, 4, 3]), (0, [4, 5, 8, 7])]))
    add("17: the last of many apart", Mesh(2, quads(6, 6).points + [[9, 9, 0], [10, 9, 0], [9, 10, 0]], quads(6, 6).cells + [(0, [49, 50, 51])]))
    add("17: the first of many apart", Mesh(2, quads(6, 6).points + [[9, 9, 0], [10, 9, 0], [9, 10, 0]], [(0, [49, 50, 51])] + quads(6, 6).cells))
    add("17: two cubes at an edge", Mesh(3, hexahedra(2, 2, 1).points, [hexahedra(2, 2, 1).cells[k] for k in (0, 3)]))
    add("17: hanging points", Mesh(2, quads(2, 2).points, [(0, [0, 2, 5, 3]), (0, [3, 4, 7, 6]), (0, [4, 5, 8, 7])]))
    add("17: two rows apart", Mesh(2, quads(5, 3).points, quads(5, 3).cells[:5] + quads(5, 3).cells[10:]))
    add("hanging points, told", Mesh(2, quads(2, 2).points, [(0, [0, 2, 5, 4, 3]), (0, [3, 4, 7, 6]), (0, [4, 5, 8, 7])]))
    snake = quads(7, 7)
    kept = [k for k in range(49) if k // 7 % 2 == 0 or k % 7 == (6 if k // 7 % 4 == 1 else 0)]
    add("a path through quads", snake.with_cells(*[snake.cells[k] for k in kept]))
    add("a path through quads, from its middle", snake.with_cells(*[snake.cells[k] for k in kept[14:] + kept[:14]]))
    add("two faces between two cells", Mesh(2, quads(2, 2).points, [(0, [0, 1, 2, 5, 4, 3]), (0, [3, 4, 5, 8, 7, 6])]))


def packed():
    out = u32(len(CASES))
    for name, show, (words, floats), data in CASES:
        label = name.encode()
        out += u32(len(label)) + label + u32(int(show), words, floats, len(data)) + data
    return out


def main():
    r = random.Random(20)
    shown()
    accepted(r)
    damaged_case()
    values()
    definitions()
    faces(r)
    volumes(r)
    connections()
    os.makedirs(os.path.join(CRATE, "data"), exist_ok=True)
    path = os.path.join(CRATE, "data", "cases")
    with open(path, "wb") as f:
        f.write(packed())
    with open(os.path.join(CRATE, "stdout"), "wb") as f:
        subprocess.run([sys.argv[1], path], check=True, stdout=f)
    expected = [(name, re.match(r"(\d+)[: ]", name)) for name, *_ in CASES]
    lines = [x.rsplit(": ", 1)[1].split() for x in open(os.path.join(CRATE, "stdout")) if not x.startswith(" ")]
    print(f"{len(CASES)} cases, {len(packed())} bytes, {len(lines)} lines", file=sys.stderr)
    for (name, want), line in zip(expected, lines):
        if want and line != ["refused", want[1]]:
            print("not as named:", name, *line, file=sys.stderr)
    for k in range(18):
        n = sum(1 for x in lines if (x[0] == "refused" and int(x[1]) == k) or (k == 0 and x[0] != "refused"))
        print(k, n, file=sys.stderr)


main()
