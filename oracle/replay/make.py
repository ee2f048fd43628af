#!/usr/bin/env python3
"""Makes what the program crate replay runs on, and what it is held to.

    make.py PROGRAMS

writes crates/test_replay/data/pairs (src/main.rt says in which form) and crates/test_replay/stdout. PROGRAMS
is the folder of the reference's programs: `refjob2`, the reference job with the requests of document 02
that oracle/reference names, runs FLURSYS's own Rust inside the records of the case and request files;
`gen` makes pairs by chance and `rooms` those of docs/01-scope.md. No answer is computed here: the answer
words, the marks and the refusals are read off what refjob2 prints for each pair. What is added are the
zeros after the last answer, the bytes that a buffer holds before the job, and the hashes.

The pairs: the known rooms, each cause of each refusal, buffers at their least lengths and one below,
then generated ones, then those of edition 2. Passed over are pairs with angles closer than 2^-40, with heights of a seed that
are no number, and rooms in 2D with a field that is not finite: the reference is not held to those.
The number of pairs that show each refusal and each code is printed.

18 is not among them: no case gives it. Where all points have one x (or one y), the sums of 15 have
terms below 2^-7 in size, so that their roundings stay far below 1e-12 and 15 comes first.
"""
import collections
import math
import os
import random
import re
import struct
import subprocess
import sys
import tempfile

HERE = os.path.dirname(os.path.abspath(__file__))
TOP = os.path.join(HERE, "..", "..")
CRATE = os.path.join(TOP, "crates", "test_replay")
REFERENCE = open(os.path.join(HERE, "..", "reference", "src", "lib.rs")).read()
LANDED = re.search(r"^pub const LANDED: u32 = (\d+);$", REFERENCE, re.M)[1]
FAR = 1048576.0
NAN, INF = math.nan, math.inf
MOST = 2**64 - 1
AIRJOB = (16384, 8192, 16384, 8192)
ROOM = (32768, 16384, 16384, 16384)
ANSWER, MARK = 0x5555555555555555, 7
WANTED = 687  # before those of edition 2


def u32(*numbers):
    return struct.pack("<%dI" % len(numbers), *numbers)


def bits(x):
    return struct.unpack("<Q", struct.pack("<d", x))[0]


# ---- cases

class Mesh:
    """Points, cells as (kind, numbers) or (5, faces), and the fields."""

    def __init__(self, dimension, points, cells, velocities=None, pressures=None):
        self.dimension, self.points, self.cells = dimension, [list(p) for p in points], list(cells)
        up = dimension - 2
        c = range(len(self.cells))
        self.velocities = velocities or [(1.0 + 0.5 * i, 0.25 * (i % 3) - 0.25, up * (2.0 - i % 4)) for i in c]
        self.pressures = pressures or [3.0 - i for i in c]

    def words(self):
        out = []
        for kind, v in self.cells:
            out.append(kind)
            if kind == 0:
                out += [len(v), *v]
            elif kind == 5:
                out.append(len(v))
                for f in v:
                    out += [len(f), *f]
            else:
                out += v
        return out

    def faces(self):
        return sum({0: len(v), 1: 4, 2: 6, 3: 5, 4: 5, 5: len(v)}.get(k, 0) for k, v in self.cells)

    def least(self):
        """The least work area and marks."""
        f, c = self.faces(), len(self.cells)
        return 16 * f + 96 * c, 12 * f + 64 * c, c

    def bytes(self, words=None, trailer=None):
        w = self.words() if words is None else words
        p, c = len(self.points), len(self.cells)
        body = b"".join(struct.pack("<3d", *x) for x in self.points) + u32(*w)
        body += b"".join(struct.pack("<3d", *x) for x in self.velocities) + struct.pack("<%dd" % c, *self.pressures)
        if trailer is None:
            trailer = (self.dimension, p, len(w), c, 0, 24 * p, 24 * p + 4 * len(w), 24 * p + 4 * len(w) + 24 * c)
        return body + u32(*trailer)

    def moved(self, change):
        return Mesh(self.dimension, [change(p) for p in self.points], self.cells, self.velocities, self.pressures)

    def scaled(self, x, y=None, z=None):
        y, z = x if y is None else y, x if z is None else z
        return self.moved(lambda p: (p[0] * x, p[1] * y, p[2] * z))

    def shifted(self, x, y, z):
        return self.moved(lambda p: (p[0] + x, p[1] + y, p[2] + z))

    def perturbed(self, r, by):
        return self.moved(lambda p: [x + (r.uniform(-by, by) if k < self.dimension else 0.0) for k, x in enumerate(p)])

    def with_cells(self, *cells):
        return Mesh(self.dimension, self.points, cells)

    def with_point(self, i, p):
        return Mesh(self.dimension, [*self.points[:i], p, *self.points[i + 1:]], self.cells, self.velocities, self.pressures)

    def with_fields(self, velocities, pressures):
        return Mesh(self.dimension, self.points, self.cells, velocities, pressures)


class Zoned(Mesh):
    """A mesh with a zone for each cell: a case of edition 2."""

    def __init__(self, m, zones):
        super().__init__(m.dimension, m.points, m.cells, m.velocities, m.pressures)
        self.zones = list(zones)

    def bytes(self, words=None, word=None, offset=None, counts=None):
        """The file, or one with other definition words, another first word of the trailer, another zone offset or other counts."""
        first = super().bytes(words)
        body, (p, w, c) = first[:-32], struct.unpack("<3I", first[-28:-16])
        p, w, c = counts or (p, w, c)
        offset = 24 * p + 4 * w + 32 * c if offset is None else offset
        word = self.dimension + 100 if word is None else word
        return body + u32(*self.zones) + ending(word, p, w, c, offset)


def ending(word, p, w, c, offset):
    """The zone offset and the trailer of an edition 2 file, each number modulo 2^32."""
    return u32(*(x % 2**32 for x in (offset, word, p, w, c, 0, 24 * p, 24 * p + 4 * w, 24 * p + 4 * w + 24 * c)))


def quads(nx, ny, dx=1.0, dy=1.0):
    n = nx + 1
    points = [(i * dx, j * dy, 0.0) for j in range(ny + 1) for i in range(n)]
    return Mesh(2, points, [(0, [j * n + i, j * n + i + 1, j * n + i + 1 + n, j * n + i + n]) for j in range(ny) for i in range(nx)])


def polygon(n, k=1):
    points = [(math.cos(2 * math.pi * i / n), math.sin(2 * math.pi * i / n), 0.0) for i in range(n)]
    return Mesh(2, points, [(0, [i * k % n for i in range(n)])])


def ring(n):
    m = polygon(n)
    points = m.points + [[2 * x for x in p] for p in m.points]
    return Mesh(2, points, m.cells + [(0, [i, (i + 1) % n, (i + 1) % n + n, i + n]) for i in range(n)])


def fan(n):
    m = polygon(n)
    return Mesh(2, [(0.0, 0.0, 0.0)] + m.points, [(0, [0, 1 + i, 1 + (i + 1) % n]) for i in range(n)])


def whirl(m):
    """The same mesh, its air turning round (1.5, 1)."""
    centre = lambda v: [sum(m.points[i][k] for i in v) / len(v) for k in range(2)]
    return m.with_fields([(1.0 - y, x - 1.5, 0.0) for x, y in (centre(v) for _, v in m.cells)], m.pressures)


def hexahedra(nx, ny, nz, d=(1.0, 1.0, 1.0)):
    points = [(i * d[0], j * d[1], k * d[2]) for k in range(nz + 1) for j in range(ny + 1) for i in range(nx + 1)]
    at = lambda i, j, k: (k * (ny + 1) + j) * (nx + 1) + i
    cells = []
    for k in range(nz):
        for j in range(ny):
            for i in range(nx):
                low = [at(i, j, k), at(i + 1, j, k), at(i + 1, j + 1, k), at(i, j + 1, k)]
                cells.append((2, low + [at(i, j, k + 1), at(i + 1, j, k + 1), at(i + 1, j + 1, k + 1), at(i, j + 1, k + 1)]))
    return Mesh(3, points, cells)


def hex_faces(v):
    return [[v[i] for i in f] for f in ([0, 3, 2, 1], [4, 5, 6, 7], [0, 1, 5, 4], [1, 2, 6, 5], [2, 3, 7, 6], [3, 0, 4, 7])]


def split(m, kind):
    """Hexahedra cut into tetrahedra, prisms or pyramids, or written as polyhedra."""
    points, cells = [list(p) for p in m.points], []
    for _, v in m.cells:
        if kind == 1:
            cells += [(1, [v[i] for i in t]) for t in ([0, 1, 2, 6], [0, 2, 3, 6], [0, 3, 7, 6], [0, 7, 4, 6], [0, 4, 5, 6], [0, 5, 1, 6])]
        elif kind == 3:
            cells += [(3, [v[i] for i in t]) for t in ([0, 1, 2, 4, 5, 6], [0, 2, 3, 4, 6, 7])]
        elif kind == 4:
            cells += [(4, f + [len(points)]) for f in hex_faces(v)]
            points.append([sum(m.points[i][k] for i in v) / 8.0 for k in range(3)])
        else:
            cells.append((5, hex_faces(v)))
    return Mesh(3, points, cells)


TETRAHEDRON = Mesh(3, [(0, 0, 0), (1, 0, 0), (0, 1, 0), (0, 0, 1)], [(1, [0, 1, 2, 3])])
CUBE = hexahedra(1, 1, 1).with_fields([(0.0, 0.0, 2.0)], [3.0])
CUBE_FACES = hex_faces(CUBE.cells[0][1])
PRISM = Mesh(3, [(0, 0, 0), (1, 0, 0), (0, 1, 0), (0, 0, 1), (1, 0, 1), (0, 1, 1)], [(3, [0, 1, 2, 3, 4, 5])])
PYRAMID = Mesh(3, [(0, 0, 0), (1, 0, 0), (1, 1, 0), (0, 1, 0), (0.5, 0.5, 1)], [(4, [0, 1, 2, 3, 4])])
STACK = hexahedra(1, 1, 2)
BLOCK = hexahedra(2, 2, 1)
SQUARE = quads(1, 1)
PAIR = quads(2, 1).with_fields([(1.0, 0.0, 0.0), (3.0, 0.0, 0.0)], [0.0, 0.0])
SHEET = quads(3, 2)


# ---- requests: whole numbers as they are, floats by their bits

def request(code, *words):
    w = [code, *(bits(x) if isinstance(x, float) else x for x in words)]
    return struct.pack("<16Q", *w, *[0] * (16 - len(w)))


def altered(r, at, word):
    """A request with another word at one place."""
    return r[:8 * at] + struct.pack("<Q", bits(word) if isinstance(word, float) else word) + r[8 * at + 8:]


def locate(x, y, z=0.0):
    return request(1, float(x), float(y), float(z))


def velocity(x, y, z=0.0):
    return request(2, float(x), float(y), float(z))


def line(seed=(0.25, 0.5, 0.0), direction=0, step=0.25, steps=10, length=0.5, stagnation=0.0):
    return request(3, *map(float, seed), direction, step, steps, length, stagnation)


def sheet(*words, **options):
    """The line of these arguments in millimetres."""
    return altered(line(*words, **options), 0, 13)


def among(*requests):
    """The same questions among all cells."""
    codes = {1: 9, 2: 10, 3: 11, 4: 12, 13: 14}
    return [altered(r, 0, codes[struct.unpack_from("<Q", r)[0]]) for r in requests]


def both(*requests):
    """Each question by the bins and among all cells."""
    return [x for r in requests for x in (r, *among(r))]


def rake(start=(0.25, 0.25, 0.0), end=(0.25, 0.75, 0.0), count=3, direction=0, step=0.25, steps=10, length=0.5, stagnation=0.0):
    return request(4, *map(float, start), *map(float, end), count, direction, step, steps, length, stagnation)


X, Y, Z = (1.0, 0.0, 0.0), (0.0, 1.0, 0.0), (0.0, 0.0, 1.0)


def cut(code, origin=(0.5, 0.5, 0.5), u=X, v=Y, more=None):
    """A request on a plane; by itself field 1, or the probe at the origin."""
    if more is None:
        more = {6: (1,), 8: origin}.get(code, ())
    return request(code, *map(float, (*origin, *u, *v)), *(float(x) if code == 8 else x for x in more))


def cuts(origin=(0.5, 0.5, 0.5), u=X, v=Y):
    return [cut(code, origin, u, v) for code in (5, 6, 7, 8)]


FLAT = [locate(0.5, 0.5), velocity(0.75, 0.5), line(), rake()]
SOLID = cuts()


# ---- the pairs

PAIRS = []


def add(name, case, requests, lent=None, answers=None):
    """The case is a mesh, bytes, or pieces (bytes, how many times); the requests are bytes, pieces, or a list of requests."""
    if not any(isinstance(x, tuple) for x in requests):
        requests = requests if isinstance(requests, bytes) else b"".join(requests)
    if lent is None:
        words, floats, marks = case.least() if isinstance(case, Mesh) else (4096, 4096, 64)
        lent = (words + 7, floats + 5, marks + 6, 400 if answers is None else answers)
    if isinstance(case, Mesh):
        case = case.bytes()
    pieces = lambda x: [(x, 1)] if isinstance(x, bytes) else x
    PAIRS.append((name, lent, pieces(case), pieces(requests)))


def whole(pieces):
    return b"".join(data * times for data, times in pieces)


def between(name, case, *bad):
    """Refused requests, each between two that are answered."""
    good = FLAT if case.dimension == 2 else SOLID
    requests = [good[0]]
    for k, r in enumerate(bad):
        requests += [r, good[(k + 1) % 4]]
    add(name, case, requests)


def known(rooms):
    with tempfile.TemporaryDirectory() as folder:
        subprocess.run([rooms, folder, os.path.join(TOP, "docs", "01-scope.md")], check=True, stdout=subprocess.DEVNULL)
        for name in ("listing", "starred-pair", "cube", "stack", "gon24", "gon25", "steps65536", "steps65537"):
            case, requests = (open(os.path.join(folder, name, x), "rb").read() for x in ("case.bin", "requests.bin"))
            add(f"known room, {name}", case, requests, AIRJOB)


def lists():
    add("no request", PAIR, [])
    add("no request in 3D", CUBE, [])
    add("no request and no answer word", PAIR, [], answers=0)
    add("the eight codes in 2D", PAIR, FLAT + SOLID)
    add("the eight codes in 3D", CUBE, FLAT + SOLID)
    for k, r in enumerate(FLAT):
        add(f"code {k + 1} alone", PAIR, [r])
    for k, r in enumerate(SOLID):
        add(f"code {k + 5} alone", CUBE, [r])
    add("one request sixteen times", PAIR, [FLAT[3]] * 16)
    add("reading grows with the list", SHEET, [locate(0.5, 0.5), velocity(0.5, 0.5), locate(1.5, 0.5), velocity(2.25, 1.5), FLAT[2]])
    add("a section, then a refused one, then another", STACK, [cut(5, (0.5, 0.5, 1.5)), cut(9), cut(5)])
    add("many mixed in 2D", SHEET, (FLAT + [request(0), SOLID[0]]) * 8, answers=1200)
    add("many mixed in 3D", STACK, (SOLID + [request(0), FLAT[0]]) * 8, answers=1200)
    add("60 requests", PAIR, [locate(0.05 * k, 0.3) for k in range(60)])
    add("4,096 requests", PAIR, [(locate(0.5, 0.5), 4096)], (*PAIR.least(), 16384))
    add("4,096 requests in the fewest words", PAIR, [(velocity(0.5, 0.5), 4095), (request(0), 1)], (*PAIR.least(), 8192))


def trailers():
    right = PAIR.bytes()
    add("1: no bytes", b"", FLAT)
    add("1: 31 bytes", right[-31:], FLAT)
    add("1: a byte over", b"\0" + right, FLAT)
    add("1: a byte short", right[1:], FLAT)
    p, w, c = len(PAIR.points), len(PAIR.words()), 2
    ends = (0, 24 * p, 24 * p + 4 * w, 24 * p + 4 * w + 24 * c)
    for d in (0, 1, 4, 258):
        add(f"1: dimension {d}", PAIR.bytes(trailer=(d, p, w, c, *ends)), FLAT)
    for k in range(4):
        at = [x + (j == k) for j, x in enumerate(ends)]
        add(f"1: offset {k} one over", PAIR.bytes(trailer=(2, p, w, c, *at)), FLAT)
    add("1: a cell more", PAIR.bytes(trailer=(2, p, w, c + 1, *ends)), FLAT)
    add("1: sums wrap", u32(2, 2**29, 0, 0, 0, 0, 0, 0), FLAT)
    add("1: before 4 to 7", right[1:], b"\0", (0, 0, 0, 0))
    cells = lambda n: [(b"\xdd" * 32, n), (u32(3, 0, 0, n, 0, 0, 0, 24 * n), 1)]
    points = lambda n: [(b"\xee" * 24, n), (u32(3, n, 0, 0, 0, 24 * n, 24 * n, 24 * n), 1)]
    add("1: 16,385 cells and a byte over", [(b"\0", 1), *cells(16385)], SOLID)
    add("2: 16,385 cells", cells(16385), SOLID)
    add("3: 16,384 cells without words", cells(16384), SOLID)
    add("2: 65,537 points", points(65537), SOLID)
    add("8: 65,536 points", points(65536), SOLID)


def records():
    w = PAIR.words()
    add("3: kind 6", PAIR.bytes([6] + w[1:]), FLAT)
    add("3: kind 4294967295", PAIR.bytes([2**32 - 1] + w[1:]), FLAT)
    add("3: polygon of 25", PAIR.with_cells((0, [0] * 25)), FLAT)
    add("3: 25 faces", CUBE.with_cells((5, [[0, 1, 2]] * 25)), SOLID)
    add("3: face of 9", CUBE.with_cells((5, [[0] * 9] * 4)), SOLID)
    add("3: a word short", PAIR.bytes(w[:-1]), FLAT)
    add("3: a word over", PAIR.bytes(w + [0]), FLAT)
    add("3: before 4 to 7", PAIR.bytes(w + [0]), b"\0", (0, 0, 0, 0))


ONE_OF_EACH = (("pair", PAIR), ("cube", CUBE), ("tetrahedron", TETRAHEDRON), ("prism", PRISM), ("pyramid", PYRAMID),
               ("polyhedron", split(CUBE, 5)))


def lengths():
    for name, m in ONE_OF_EACH:
        words, floats, marks = m.least()
        good = FLAT if m.dimension == 2 else SOLID
        add(f"4: {name}, a word short", m, good, (words - 1, floats, marks, 100))
        add(f"4: {name}, a float short", m, good, (words, floats - 1, marks, 100))
        add(f"5: {name}, a mark short", m, good, (words, floats, marks - 1, 100))
        add(f"6: {name}, a byte short", m, b"".join(good)[:-1], (words, floats, marks, 100))
        add(f"7: {name}, a word short", m, good, (words, floats, marks, 7))
        add(f"44: {name} in the least buffers", m, good, (words, floats, marks, 8))
    words, floats, marks = PAIR.least()
    add("4: nothing lent", PAIR, FLAT, (0, 0, 0, 0))
    add("4: before 5", PAIR, FLAT, (words - 1, floats, 0, 100))
    add("5: no marks", PAIR, FLAT, (words, floats, 0, 100))
    add("5: before 6", PAIR, b"\0", (words, floats, 1, 100))
    for n in (1, 127, 129):
        add(f"6: {n} bytes", PAIR, bytes(n), (words, floats, marks, 100))
    add("6: before 7", PAIR, bytes(129), (words, floats, marks, 0))
    add("6: 4,097 requests", PAIR, [(FLAT[0], 4097)], (words, floats, marks, 16384))
    add("7: no answer word", PAIR, [FLAT[0]], (words, floats, marks, 0))
    add("7: 4,096 requests", PAIR, [(request(0), 4096)], (words, floats, marks, 8191))
    add("7: before 8", Mesh(2, PAIR.points, []), [FLAT[0]], (0, 0, 0, 1))


def values():
    add("8: no cells", Mesh(2, PAIR.points, []), FLAT)
    add("8: no points either", Mesh(3, [], []), SOLID)
    add("8: before 9", Mesh(2, [(NAN, 0, 0)], []), FLAT)
    for bad, word in ((NAN, "NaN"), (INF, "infinity"), (-INF, "-infinity")):
        for k in range(3):
            p = list(PAIR.points[4])
            p[k] = bad
            add(f"9: {word} at {k}", PAIR.with_point(4, p), FLAT)
    add("9: in a point that no cell uses", Mesh(2, PAIR.points + [[0, 0, INF]], PAIR.cells), FLAT)
    add("9: before 10", PAIR.with_point(0, (2e6, 0, 0)).with_point(5, (2, NAN, 0)), FLAT)
    for k in range(3):
        for sign in (1, -1):
            p = list(CUBE.points[7])
            p[k] = sign * (FAR + 2**-32)
            add(f"10: beyond at {k} by {sign}", CUBE.with_point(7, p), SOLID)
    add("10: in a point that no cell uses", Mesh(2, PAIR.points + [[0, 0, 1e300]], PAIR.cells), FLAT)
    add("10: before 11", PAIR.with_point(0, (2e6, 0, 0)).with_cells((0, [0, 1])), FLAT)
    add("a corner at the limit", CUBE.with_point(6, (FAR, 1, FAR)), SOLID)
    add("a point at the limit that no cell uses", Mesh(2, PAIR.points + [[FAR, -FAR, FAR]], PAIR.cells), FLAT)


def definitions():
    add("11: polygon of 2", PAIR.with_cells((0, [0, 1])), FLAT)
    add("11: polygon of 0", PAIR.with_cells((0, [])), FLAT)
    add("11: 3 faces", CUBE.with_cells((5, CUBE_FACES[:3])), SOLID)
    for m in (TETRAHEDRON, CUBE, PRISM, PYRAMID, split(CUBE, 5)):
        add(f"11: kind {m.cells[0][0]} in 2D", Mesh(2, m.points, m.cells), FLAT)
    add("11: polygon in 3D", Mesh(3, PAIR.points, PAIR.cells), SOLID)
    add("11: second cell", PAIR.with_cells(PAIR.cells[0], (0, [0, 1])), FLAT)
    add("11: before 12", PAIR.with_cells((0, [9, 10])), FLAT)
    for n in (6, 2**32 - 1):
        add(f"12: point {n} in a polygon", PAIR.with_cells((0, [0, 1, n, 3])), FLAT)
    for m in (TETRAHEDRON, CUBE, PRISM, PYRAMID):
        kind, v = m.cells[0]
        add(f"12: kind {kind}", m.with_cells((kind, v[:-1] + [len(m.points)])), SOLID)
    add("12: in a polyhedron's last face", CUBE.with_cells((5, CUBE_FACES[:5] + [[3, 0, 4, 8]])), SOLID)
    add("12: no points", Mesh(2, [], [(0, [0, 0, 0])]), FLAT)
    add("12: before 13", PAIR.with_cells((0, [0, 0, 6])), FLAT)
    add("13: in the first cell before 12 in the second", PAIR.with_cells((0, [0, 0, 1]), (0, [1, 2, 6])), FLAT)
    add("13: a point twice in a row", PAIR.with_cells((0, [0, 1, 1, 4])), FLAT)
    add("13: two points at one place", PAIR.with_point(1, (0, 0, 0)), FLAT)
    for f in ([], [0, 1], [0, 1, 1]):
        add(f"13: polyhedron's face {f}", CUBE.with_cells((5, CUBE_FACES + [f])), SOLID)
    add("13: hexahedron folded", CUBE.with_cells((2, [0, 1, 1, 0, 4, 5, 6, 7])), SOLID)
    add("14: a cell three times", PAIR.with_cells(*[PAIR.cells[0]] * 3), FLAT)
    add("14: a polygon's edge three times", PAIR.with_cells((0, [0, 1, 0, 1, 4])), FLAT)
    add("14: a polyhedron's face three times", CUBE.with_cells((5, CUBE_FACES + [CUBE_FACES[0]] * 2)), SOLID)
    add("13: before 14 in a cell", PAIR.with_cells(PAIR.cells[0], PAIR.cells[0], (0, [0, 0, 1, 4, 3])), FLAT)
    add("14: before 13 in a cell", PAIR.with_cells(PAIR.cells[0], PAIR.cells[0], (0, [0, 1, 4, 4])), FLAT)


def volumes():
    add("15: bow", SQUARE.with_cells((0, [0, 1, 2, 3])), FLAT)
    add("15: polygon on a line", Mesh(2, [(0, 0, 0), (1, 0, 0), (2, 0, 0)], [(0, [0, 1, 2])]), FLAT)
    add("15: tetrahedron in a plane", TETRAHEDRON.with_point(3, (1, 1, 0)), SOLID)
    third = [(FAR - 1 / 3, y, 0) for y in (-999999.1, 3.3, 1048575.7)]
    add("15: one x, bounds flat", Mesh(2, third, [(0, [0, 1, 2])]), FLAT)
    add("15: one y, bounds flat", Mesh(2, [(y, x, 0) for x, y, _ in third], [(0, [0, 1, 2])]), FLAT)
    add("16: a cell twice", PAIR.with_cells(PAIR.cells[0], PAIR.cells[0]), FLAT)
    add("16: two cells on one side of a face",
        Mesh(2, [(0, 0, 0), (1, 0, 0), (0, 1, 0), (1, 2, 0)], [(0, [0, 1, 2]), (0, [0, 1, 3])]), FLAT)
    add("16: tetrahedra on one side of a face",
        Mesh(3, TETRAHEDRON.points + [[1, 1, 1]], [(1, [0, 1, 2, 3]), (1, [0, 1, 2, 4])]), SOLID)
    add("17: two squares at a point", Mesh(2, quads(2, 2).points, [(0, [0, 1, 4, 3]), (0, [4, 5, 8, 7])]), FLAT)
    add("17: two rows apart", Mesh(2, quads(3, 3).points, quads(3, 3).cells[:3] + quads(3, 3).cells[6:]), FLAT)
    add("17: two cubes at an edge", Mesh(3, BLOCK.points, [BLOCK.cells[k] for k in (0, 3)]), SOLID)
    for k, place in ((0, "x"), (1, "y")):
        for h, word in ((2.0**-12, "65,536 bins"), (2.0**-12 - 2.0**-40, "19: more bins")):
            size = [FAR, h] if k == 0 else [h, FAR]
            m = quads(1, 1, *size)
            add(f"{word} along {place}", m, [locate(size[0] / 2, size[1] / 2), velocity(size[0] / 4, size[1] / 4), locate(*size)])


def codes():
    for code in (0, 15, 21, 2**32 + 1, 2**63 + 1, MOST):
        between(f"30: code {code}", PAIR, request(code))
        between(f"30: code {code} in 3D", CUBE, request(code))
    used = {1: 4, 2: 4, 3: 9, 4: 13, 5: 10, 6: 11, 7: 10, 8: 13}
    for k, r in enumerate(FLAT + SOLID):
        code = k + 1
        m = PAIR if code < 5 else CUBE
        between(f"30: code {code}, first unused word", m, altered(r, used[code], 1))
        between(f"30: code {code}, last word", m, altered(r, 15, -0.0))
        between(f"31: code {code}", CUBE if code < 5 else PAIR, r)
    between("30: before 31", CUBE, altered(FLAT[0], 15, 1))
    for word in (2, MOST):
        between(f"30: direction {word}", PAIR, altered(FLAT[2], 4, word), altered(FLAT[3], 8, word))
    between("30: direction before 32", PAIR, rake(count=0, direction=2))
    between("31: before 32 to 34", CUBE, rake(count=0, steps=0), line(steps=65537), line(step=NAN))
    between("31: before 36 to 38", PAIR, cut(5, u=Y), cut(7, (2e6, 0, 0)), cut(6, more=(6,)))


def options():
    for n in (0, 1):
        between(f"32: {n} seeds", PAIR, rake(count=n))
    between("32: before 33", PAIR, rake(count=1, steps=65537))
    for n in (65, 2**32 + 2, MOST):
        between(f"33: {n} seeds", PAIR, rake(count=n))
    for n in (65537, 2**32 + 1, MOST):
        between(f"33: {n} steps", PAIR, line(steps=n), rake(steps=n))
    between("33: before 34", PAIR, line(steps=65537, step=0.0), rake(count=65, length=NAN))
    add("64 seeds", PAIR, [rake(count=64, end=(0.75, 0.25, 0.0))], answers=700)
    for name, bad in (("step_size", (0.0, -0.0, -0.25, NAN, INF, -INF)), ("max_length", (0.0, -0.5, NAN, INF)),
                      ("stagnation_speed", (-5e-324, -1.0, NAN, INF))):
        option = {"step_size": "step", "max_length": "length", "stagnation_speed": "stagnation"}[name]
        for x in bad:
            between(f"34: {name} {x}", PAIR, line(**{option: x}), rake(**{option: x}))
    between("34: max_steps 0", PAIR, line(steps=0), rake(steps=0))
    between("34: before 35", PAIR, line((9.0, 9.0, 0.0), steps=0))
    for seed in ((2.0, 0.5, 0.0), (1.5, 0.5, 0.0), (-0.1, 0.5, 0.0), (NAN, 0.5, 0.0), (0.5, INF, 0.0)):
        between(f"35: seed {seed[0]} {seed[1]}", PAIR, line(seed))
    between("35: first seed of a rake", PAIR, rake((-0.5, 0.5, 0.0), (0.75, 0.5, 0.0), 3))
    between("35: last seed of a rake", PAIR, rake((0.25, 0.5, 0.0), (1.5, 0.5, 0.0), 4))
    between("35: middle seed of a rake", ring_gap(), rake((0.5, 0.25, 0.0), (0.5, 2.75, 0.0), 3))
    add("stagnation_speed -0", PAIR, [line(stagnation=-0.0), rake(stagnation=-0.0)])


def ring_gap():
    """Eight of nine squares."""
    m = quads(3, 3)
    return m.with_cells(*[m.cells[k] for k in range(9) if k != 4]).moved(lambda p: (p[0] - 1.0, p[1], p[2]))


def planes():
    h = 0.5**0.5
    for k in range(3):
        for x, word in ((NAN, "NaN"), (-INF, "-infinity")):
            between(f"36: {word} at {k}", CUBE, *(altered(SOLID[j], at + k, x) for j, at in enumerate((1, 4, 7))))
    between("36: axis too long", CUBE, cut(5, u=(1.0 + 1.1e-7, 0, 0)), cut(6, v=(0, 1.0 + 1.1e-7, 0)))
    between("36: axis too short", CUBE, cut(7, u=(1.0 - 1.1e-7, 0, 0)), cut(8, v=(0, 1.0 - 1.1e-7, 0)))
    between("36: axes not across", CUBE, cut(5, v=X), cut(6, u=(h, h, 0)), cut(7, v=(1.1e-7, 1.0, 0)), cut(8, v=(-1.1e-7, 1.0, 0)))
    between("36: axes of 0", CUBE, cut(5, u=(0, 0, 0)), cut(8, v=(0, 0, 0)))
    between("36: before 37", CUBE, cut(5, (2e6, 0, 0), v=X))
    add("axes at their tolerance", CUBE, cuts(u=(1.0 + 0.9e-7, 0, 0)) + cuts(v=(0.9e-7, 1.0, 0)) + cuts(v=(0, 1.0 - 0.9e-7, 0)))
    for k in range(3):
        for sign in (1, -1):
            o = [0.5, 0.5, 0.5]
            o[k] = sign * (FAR + 2**-32)
            between(f"37: beyond at {k} by {sign}", CUBE, *(cut(c, o, more=(1,) if c == 6 else (0, 0, 0) if c == 8 else ()) for c in (5, 6, 7, 8)))
            o[k] = sign * FAR
            add(f"origin at the limit at {k} by {sign}", CUBE, cuts(o))
    for n in (6, 2**32, MOST):
        between(f"38: field {n}", CUBE, cut(6, more=(n,)))
    between("37: before 38", CUBE, cut(6, (2e6, 0, 0), more=(6,)))
    add("the six fields", STACK, [cut(6, more=(n,)) for n in range(6)])


def samples():
    for k, part in enumerate(("x", "y", "z", "pressure")):
        for bad in (NAN, INF):
            v = [[1.0, 2.0, 3.0] for _ in range(4)]
            p = [1.0, 2.0, 3.0, 4.0]
            if k < 3:
                v[1][k] = bad
            else:
                p[1] = bad
            add(f"39: {part} {bad} in cell 1", BLOCK.with_fields(v, p), cuts() + cuts((0.5, 0.5, 0.5), Y, Z))
    v = [[1.0, 2.0, 3.0] for _ in range(4)]
    add("39: the first bad of two", BLOCK.with_fields([v[0], v[1], (NAN, 0, 0), (0, INF, 0)], [0.0] * 4), [SOLID[2]])
    add("39: a bad cell beside the section", BLOCK.with_fields([v[0], v[1], v[2], (NAN, 0, 0)], [0.0] * 4), cuts((0.5, 0.5, 0.5), X, Z) + cuts())
    big = CUBE.scaled(2.0)
    for name, field, flow, pressure in (("40: a flux", 1, (0.0, 0.0, 1e308), 1.0), ("40: a flux downwards", 2, (0.0, 0.0, -1e308), 1.0),
                                        ("41: the integral", 1, (0.0, 0.0, 1.0), 1e308), ("41: the speed", 0, (1e200, 0.0, 1.0), 1.0),
                                        ("41: the weighted value", 1, (0.0, 0.0, 1e160), 1e160), ("42: the speed", 1, (1e200, 0.0, 0.0), 1.0),
                                        ("43: the pressure", 2, (0.0, 0.0, 1.0), 1e308), ("43: the flux", 3, (0.0, 0.0, 1e153), -1e308)):
        add(f"{name} beyond the floats", big.with_fields([flow], [pressure]), [cut(6, more=(field,)), cut(7), cut(8), cut(5)])
    four = [(0.0, 0.0, 1.5e308), (0.0, 0.0, 1.5e308), (0.0, 0.0, -1.5e308), (0.0, 0.0, -1.5e308)]
    add("41: a sum of fluxes beyond the floats", BLOCK.with_fields(four, [1.0] * 4), [cut(6), cut(7), cut(5)])
    above = (0.5, 0.5, 5.0)
    add("41: no polygon", STACK, [cut(5, above), cut(6, above), cut(8, above)])
    add("43: no polygon", STACK, [cut(7, above), cut(7)])
    add("flux all one way, then none", STACK.with_fields([(0.0, 0.0, 2.0), (0.0, 0.0, -2.0)], [-0.0, 0.0]),
        [cut(6), cut(6, (0.5, 0.5, 1.5)), cut(6, (0.5, 0.5, 1.0), X, Z), cut(7, (0.5, 0.5, 1.0), X, Z)])


def rooms_for_answers():
    sizes = {1: 2, 2: 4, 3: 10, 4: 31, 5: 22, 6: 13, 7: 4, 8: 5}
    for k, r in enumerate(FLAT + SOLID):
        m, n = (PAIR if k < 4 else CUBE), sizes[k + 1] + 2
        add(f"44: code {k + 1}, a word short", m, [r], answers=n - 1)
        add(f"code {k + 1} in the fewest words", m, [r], answers=n)
        add(f"44: code {k + 1}, then ones that fit", m, [r, r, request(0), altered(r, 15, 1), FLAT[0], SOLID[3]], answers=n + 12)
        add(f"code {k + 1} before two others", m, [r, request(0), FLAT[0]], answers=n + 4)
        add(f"44: code {k + 1} before two others", m, [r, request(0), FLAT[0]], answers=n + 3)
    add("44: all but the last", PAIR, [FLAT[3], FLAT[2], FLAT[1], FLAT[0]], answers=10)
    add("44: its marks stay", SHEET, [rake((0.5, 0.25, 0.0), (0.5, 0.75, 0.0), 2, step=0.125, steps=40, length=9.0)], answers=20)
    add("44: longer than the whole buffer", SHEET, [line(step=0.001, steps=900, length=2.0), locate(0.5, 0.5)], answers=60)
    add("44: a section after which a probe fits", BLOCK, [SOLID[0], SOLID[3], SOLID[2]], answers=30)


def shown(m):
    """All codes of a room in several places."""
    if m.dimension == 2:
        low, high = ([f(p[k] for p in m.points) for k in range(2)] for f in (min, max))
        at = lambda a, b: (low[0] + a * (high[0] - low[0]), low[1] + b * (high[1] - low[1]), 0.0)
        size = max(high[0] - low[0], high[1] - low[1])
        places = [at(a, b) for a, b in ((0.5, 0.5), (0.25, 0.3), (0.7, 0.6), (0.0, 0.0), (1.0, 0.4), (0.4, 1.0), (0.1, 0.95))]
        out = [locate(*p) for p in places] + [velocity(*p) for p in places]
        out += [line(places[k], k % 2, size / 16, 12, size * 2, 0.0) for k in range(3)]
        return out + [rake(places[1], places[2], 3, 0, size / 10, 5, size, 0.0), rake(places[0], places[1], 2, 1, size / 7, 4, size, 0.1)]
    middle = [sum(p[k] for p in m.points) / len(m.points) for k in range(3)]
    out = cuts(middle) + cuts(middle, Y, Z) + cuts(middle, (0.6, 0.8, 0.0), Z) + cuts(m.points[0])
    return out + [cut(6, middle, X, Y, (k,)) for k in (0, 5)] + [cut(8, middle, X, Y, [x + d for x in middle]) for d in (0.0, 1e-9, 0.1)]


def accepted():
    r = random.Random(20)
    flat = [("squares", SHEET), ("whirl", whirl(quads(3, 2))), ("whirl in small squares", whirl(quads(6, 4, 0.5, 0.5))),
            ("triangle", polygon(3)), ("heptagon", polygon(7)), ("pentagram", polygon(5, 2)), ("ring", ring(6)), ("fan", fan(5)),
            ("gap", ring_gap()), ("squares thrown about", quads(4, 3).perturbed(r, 0.2)), ("far from 0", SHEET.shifted(1000.25, -777.5, 0)),
            ("heights", SHEET.moved(lambda p: (p[0], p[1], p[0] * 0.5 - p[1]))), ("still air", SHEET.with_fields([(0.0, 0.0, 0.0)] * 6, [0.0] * 6)),
            ("clockwise", Mesh(2, SHEET.points, [(0, v[::-1]) for _, v in SHEET.cells])), ("9 by 9", quads(9, 9, 0.25, 0.5)),
            ("strip", quads(12, 1, 0.1, 2.0)), ("upright strip", quads(1, 12, 2.0, 0.1)), ("fast air", SHEET.with_fields([(1e154, 0.0, 0.0)] * 6, [0.0] * 6)),
            ("slow air", SHEET.with_fields([(1e-170, 0.0, 0.0)] * 6, [0.0] * 6)), ("quads thrown about", quads(5, 4).perturbed(r, 0.3))]
    solid = [("tetrahedron", TETRAHEDRON), ("prism", PRISM), ("pyramid", PYRAMID), ("polyhedron", split(CUBE, 5)), ("stack", STACK), ("block", BLOCK),
             ("tetrahedra", split(BLOCK, 1)), ("prisms", split(BLOCK, 3)), ("pyramids", split(STACK, 4)), ("polyhedra", split(BLOCK, 5)),
             ("cubes thrown about", hexahedra(2, 2, 2).perturbed(r, 0.1)), ("tetrahedra thrown about", split(STACK.perturbed(r, 0.1), 1)),
             ("pyramids thrown about", split(CUBE.perturbed(r, 0.1), 4)), ("small cubes", hexahedra(2, 2, 2, (0.01, 0.02, 0.03)).shifted(5, -5, 5)),
             ("slabs", hexahedra(1, 1, 6, (3.0, 2.0, 0.25)))]
    for name, m in flat + solid:
        add(f"in the room of {name}", m, shown(m), answers=1500)
    step = [locate(1.0 + d, 0.5) for d in (0.0, 1e-12, -1e-12, 2e-12, 1e-9)] + [locate(0.5, d) for d in (0.0, -1e-12, -2e-12, 1.0, 1.0 + 1e-12)]
    add("edges and their tolerance", PAIR, step + [locate(NAN, 0.5), locate(0.5, -INF), locate(0.5, 0.5, 7.0), velocity(NAN, 0.5), velocity(1.5, 0.5)])
    add("lengths and speeds at their limits", PAIR, [line(length=x, stagnation=s) for x in (0.25, 0.5, 0.75, 0.74) for s in (0.0, 0.999, 1.0, 1.25, 3.0)])
    add("both directions", PAIR, [line((0.75, 0.5, 0.0), d, s, 20, 5.0) for d in (0, 1) for s in (0.25, 0.1, 0.01, 1.0)], answers=600)
    add("rakes of two to nine", whirl(quads(3, 2)), [rake((0.5, 0.5, 0.0), (2.2, 1.2, 0.0), n, n % 2, 0.2, 6, 9.0) for n in range(2, 10)], answers=1500)
    add("planes along the stack", STACK, [cut(5, (0.5, 0.5, z)) for z in (0.0, 1e-12, 0.5, 1.0 - 1e-12, 1.0, 1.0 + 1e-9, 1.5, 2.0, 2.1)])
    add("probes", BLOCK, [cut(8, more=p) for p in ((0.5, 0.5, 0.5), (1.5, 0.5, 0.5), (1.0, 1.0, 0.5), (0.5, 1.5, 0.5), (3, 0, 0.5), (0.5, 0.5, 0.5 + 2e-8), (NAN, 0, 0.5))])
    add("turned planes", BLOCK, [q for u, v in ((Y, X), (Z, X), ((0.6, 0.0, 0.8), Y), ((0.8, 0.6, 0.0), (-0.6, 0.8, 0.0))) for q in cuts((0.9, 0.7, 0.4), u, v)], answers=600)


def rise(x):
    """The float above."""
    return struct.unpack("<d", struct.pack("<Q", bits(x) + 1))[0]


def sheet_refusals():
    q = sheet()
    for name, bad in (("first unused word", altered(q, 9, 1)), ("last word", altered(q, 15, -0.0)), ("direction 2", altered(q, 4, 2)),
                      (f"direction {MOST}", altered(q, 4, MOST)), ("code 2^32 + 13", altered(q, 0, 2**32 + 13))):
        between(f"30: sheet, {name}", PAIR, bad, q)
    between("30: sheet, before 31", CUBE, altered(q, 15, 1))
    between("31: sheet", CUBE, q)
    between("31: sheet, before 33 to 35", CUBE, sheet(steps=65537), sheet(step=NAN), sheet((9.0, 9.0, 0.0)))
    for n in (65537, 2**32 + 1, MOST):
        between(f"33: sheet, {n} steps", PAIR, sheet(steps=n), q)
    between("33: sheet, before 34", PAIR, sheet(steps=65537, step=0.0))
    for name, option in (("step_size", "step"), ("max_length", "length"), ("stagnation_speed", "stagnation")):
        between(f"34: sheet, {name}", PAIR, *(sheet(**{option: x}) for x in (-1.0, NAN, INF)), q)
    between("34: sheet, max_steps 0", PAIR, sheet(steps=0), sheet(steps=1))
    between("34: sheet, before 35", PAIR, sheet((9.0, 9.0, 0.0), steps=0))
    between("35: sheet", PAIR, *(sheet(p) for p in ((2.0, 0.5, 0.0), (1.5, 0.5, 0.0), (-0.1, 0.5, 0.0), (NAN, 0.5, 0.0), (0.5, INF, 0.0))))
    add("44: sheet, a word short", PAIR, [q], answers=8)
    add("sheet in the fewest words", PAIR, [q], answers=9)
    add("44: sheet, in the fewest words of its request", PAIR, [q], answers=2)
    add("44: sheet before two others", PAIR, [q, request(0), FLAT[0]], answers=12)
    add("sheet before two others", PAIR, [q, request(0), FLAT[0]], answers=13)
    add("44: line where its sheet fits", PAIR, [line(), q], answers=13)
    add("44: sheet, its marks stay", SHEET, [sheet((0.5, 0.25, 0.0), step=0.125, steps=40, length=9.0)], answers=9)
    add("44: sheet, each point counted once", SQUARE, [sheet(step=2.0**-11, steps=8, length=1.0)] * 2, answers=25)
    add("sheets, each point counted once", SQUARE, [sheet(step=2.0**-11, steps=8, length=1.0)] * 2, answers=26)


def sheets():
    """Code 13: its refusals, both sides of its limits, halves, places far from 0 and points that are dropped."""
    sheet_refusals()
    about = quads(1, 1).shifted(-0.5, -0.5, 0.0).with_fields([(1.0, 0.0, 0.0)], [0.0])
    half, tiny = 0.0625, 5e-324
    heights = [half, -half, rise(half), -rise(half), rise(0.0625 - 2.0**-56), 0.0005, -0.0005, rise(0.0005), 0.000499, 0.4375, tiny, -tiny, -0.0, 1e-310]
    add("sheets with halves and floats beside them", about, [sheet((-0.1875, y, 0.0), step=0.125) for y in heights], answers=300)
    add("sheets with decimal halves", about, [sheet(((2 * k + 1) / 2000.0, 0.3, 0.0), steps=1, length=0.1) for k in range(-240, 240, 9)], answers=400)
    for name, x, y in (("the upper limit", FAR - 2.0, FAR - 1.0), ("the lower limit", -FAR, -FAR), ("-1000", -1000.0, -777.0)):
        m = PAIR.shifted(x, y, 0.0)
        add(f"sheets by {name}", m, [r for k in (4, 7, 11) for r in (line((x + k * half, y + half, 0.0), step=half), sheet((x + k * half, y + half, 0.0), step=half))])
    add("sheets in a room of millimetres", whirl(quads(3, 2)).scaled(0.001), [sheet((0.001, 0.0007, 0.0), d, 0.0002, 60, 1.0) for d in (0, 1)], answers=300)
    add("sheets of short steps", PAIR, [sheet(step=s, steps=200, length=0.5) for s in (0.001, 0.0005, 0.0003, 1e-5, 1e-9)], answers=700)
    add("sheet of 65,536 steps", SQUARE.with_fields([(1.0, 0.0, 0.0)], [0.0]), [sheet((0.125, 0.5, 0.0), step=2.0**-17, steps=65536, length=1.0)], answers=1100)
    add("lines and sheets in turn", whirl(quads(6, 4, 0.5, 0.5)), [r(p, d, 0.1, 20, 5.0) for p in ((1.1, 0.9, 0.0), (0.6, 1.2, 0.0)) for d in (0, 1) for r in (line, sheet)],
        answers=600)
    add("sheets of a still and of a stagnant room", SHEET.with_fields([(0.0, 0.0, 0.0)] * 6, [0.0] * 6), [sheet(), sheet(stagnation=1.0)])
    add("sheets of seeds with a height", PAIR, [sheet((0.25, 0.5, 7.0)), sheet((0.25, 0.5, 1e300))])
    add("the nine codes in 2D", PAIR, FLAT + SOLID + [sheet()])


def slanted(n, length, base):
    """Strips that lean so far that each lies in nearly all columns of bins."""
    return quads(n, 1, base).moved(lambda p: (p[0] + (length - n * base) * p[1], p[1], p[2]))


def spiral(k, n, growth=0.0):
    """Cells about a middle, k to a turn, each so much further out; from the k-th on they lie over the first ones."""
    at = lambda i, r: (r * math.cos(2 * math.pi * (i % k) / k), r * math.sin(2 * math.pi * (i % k) / k), 0.0)
    points = [at(i, r + i * growth) for i in range(n + 1) for r in (0.5, 1.0)]
    return Mesh(2, points, [(0, [2 * i, 2 * i + 1, 2 * i + 3, 2 * i + 2]) for i in range(n)])


def rectangles(xs, ys):
    m = quads(len(xs) - 1, len(ys) - 1)
    return m.moved(lambda p: (xs[int(p[0])], ys[int(p[1])], 0.0))


def all_cells_refusals():
    used = {9: 4, 10: 4, 11: 9, 12: 13, 14: 9}
    size = {9: 2, 10: 4, 11: 10, 12: 31, 14: 7}
    for code, q in zip(used, among(*FLAT, sheet())):
        between(f"30: code {code}, unused words", PAIR, altered(q, used[code], 1), altered(q, 15, -0.0), q)
        between(f"31: code {code}", CUBE, q)
        add(f"44: code {code}, a word short", PAIR, [q], answers=size[code] + 1)
        add(f"code {code} in the fewest words", PAIR, [q], answers=size[code] + 2)
        add(f"44: code {code} before two others", PAIR, [q, request(0), FLAT[0]], answers=size[code] + 5)
        add(f"code {code} before two others", PAIR, [q, request(0), FLAT[0]], answers=size[code] + 6)
        between(f"30: code 2^32 + {code}", PAIR, altered(q, 0, 2**32 + code))
    a, b, c = among(line(), rake(), sheet())
    between("30: direction among all cells", PAIR,
            *(altered(r, at, word) for r, at in ((a, 4), (b, 8), (c, 4)) for word in (2, MOST)))
    between("30: among all cells, before 31", CUBE, *among(altered(FLAT[0], 15, 1), altered(sheet(), 15, 1)))
    between("31: among all cells, before 32 to 35", CUBE,
            *among(rake(count=0), line(steps=65537), sheet(step=NAN), line((9.0, 9.0, 0.0))))
    between("32: among all cells", PAIR, *among(rake(count=0), rake(count=1), rake(count=1, steps=65537)))
    between("33: seeds among all cells", PAIR, *among(*(rake(count=n) for n in (65, 2**32 + 2, MOST))))
    lines = (line, rake, sheet)
    steps = [r(steps=n) for n in (65537, MOST) for r in lines]
    between("33: steps among all cells", PAIR, *among(*steps, line(steps=65537, step=0.0)))
    for name, option in (("step_size", "step"), ("max_length", "length"), ("stagnation_speed", "stagnation")):
        wrong = [r(**{option: x}) for x in (-1.0, NAN, INF) for r in lines]
        between(f"34: {name} among all cells", PAIR, *among(*wrong))
    between("34: max_steps 0 among all cells, before 35", PAIR,
            *among(line(steps=0), rake(steps=0), sheet((9.0, 9.0, 0.0), steps=0)))
    nowhere = ((2.1, 0.5, 0.0), (-0.1, 0.5, 0.0), (NAN, 0.5, 0.0), (0.5, INF, 0.0), (-INF, 0.5, 0.0))
    between("35: among all cells", PAIR, *among(*(r(p) for p in nowhere for r in (line, sheet))))
    between("35: a seed of a rake among all cells", ring_gap(),
            *among(rake((0.5, 0.25, 0.0), (0.5, 2.75, 0.0), 3), rake((0.5, 0.25, 0.0), (2.5, 0.25, 0.0), 3)))
    between("35: seeds that no bin finds", PAIR,
            *both(line((1.5, 0.5, 0.0)), sheet((2.0, 0.5, 0.0)), rake((1.5, 0.25, 0.0), (1.5, 0.75, 0.0))))
    add("44: a rake among all cells, its marks stay", SHEET,
        among(rake((0.5, 0.25, 0.0), (0.5, 0.75, 0.0), 2, step=0.125, steps=40, length=9.0)), answers=20)


def all_cells():
    """Codes 9 to 12 and 14, most of them after the same question by the bins: points that no bin
    finds, points on and beside borders, sides and corners, cells in many bins, bins without an index,
    cells over each other."""
    all_cells_refusals()
    all_cells_points()
    all_cells_lines()
    rooms = [("two long cells without an index", quads(2, 1, 500.0, 0.05)),
             ("a long and a short cell without an index", rectangles([0.0, 1980.0, 2000.0], [0.0, 1.0])),
             ("upright long cells without an index", quads(1, 3, 0.001, 9.0)),
             ("long cells one over the other", quads(1, 2, 800.0, 0.01)),
             ("slanted strips without an index", slanted(8, 300.0, 4.0)), ("cells over each other", spiral(5, 9)),
             ("cells of unequal widths", rectangles([0.0, 28.0, 29.0, 31.0, 32.0], [0.0, 0.25, 8.0])),
             ("gap", ring_gap()), ("ring", ring(6)), ("fan", fan(5)), ("pentagram", polygon(5, 2)),
             ("squares far from 0", SHEET.shifted(1000.25, -777.5, 0)),
             ("heights", SHEET.moved(lambda p: (p[0], p[1], p[0] * 0.5 - p[1])))]
    for name, m in rooms:
        add(f"by both locators, {name}", m, both(*shown(m)), answers=2400)
    add("the fourteen codes in 2D", PAIR, FLAT + SOLID + [sheet()] + among(*FLAT, sheet()))
    add("the fourteen codes in 3D", CUBE, FLAT + SOLID + [sheet()] + among(*FLAT, sheet()))


def all_cells_points():
    points = (locate, velocity)
    spots = [(x, y) for x in (0.5, 1.0, 1.5, 2.0) for y in (0.0, 0.5, 1.0)]
    add("Pair by both locators", PAIR, both(*(r(*p) for p in spots for r in points)))
    tiny = (0.0, 5e-13, 1e-12, 1.001e-12, 2e-12, 1e-9)
    far = [p for d in tiny for s in (d, -d) for p in ((2.0 + s, 0.5), (1.5, 1.0 + s))]
    far += [(rise(2.0), 0.5), (1.5, rise(1.0))]
    add("the far borders of Pair and beside them", PAIR, both(*(locate(*p) for p in far)))
    near = [p for d in tiny for p in ((-d, 0.5), (0.5, -d))]
    add("the near borders of Pair and beside them", PAIR, both(*(locate(*p) for p in near)))
    corners = [r(x, y) for x in range(4) for y in range(3) for r in points]
    add("corners by both locators", SHEET, both(*corners), answers=600)
    odd = ((NAN, 0.5), (0.5, NAN), (INF, 0.5), (-INF, 0.5), (0.5, INF), (0.5, -INF))
    add("points that are not finite, among all cells", PAIR, among(*(r(*p) for p in odd for r in points)))
    add("heights among all cells", PAIR,
        among(velocity(1.5, 0.5, 7.0), velocity(1.25, 0.5, -1e300), locate(1.5, 0.5, INF), line((1.5, 0.5, 3.0)),
              rake((1.5, 0.25, 1.0), (1.5, 0.75, 2.0))))
    turned = lambda m: Mesh(2, m.points, m.cells[::-1])
    shared = [r(x, y) for x in (0.5, 1.0, 1.5) for y in (0.5, 1.0) for r in points]
    add("a lower cell that no bin lists", turned(PAIR), both(*shared))
    sides = [locate(x + s, 0.5) for x in (1.0, 2.0) for d in tiny for s in (d, -d)]
    add("a lower cell beside the border of its bin", turned(SHEET), both(*sides))


def all_cells_lines():
    along = SHEET.with_fields([(1.0, 0.25 * (i % 2), 0.0) for i in range(6)], [0.0] * 6)
    to = [r((0.25, y, 0.0), d, 0.25, 20, 9.0) for y in (0.25, 0.5, 1.25) for d in (0, 1) for r in (line, sheet)]
    add("lines to the outlet column", along, both(*to), answers=1200)
    back = [r((x, 0.5, 0.0), 1, 0.25, 20, 9.0) for x in (2.5, 3.0) for r in (line, sheet)]
    back.append(rake((2.5, 0.25, 0.0), (2.5, 1.75, 0.0), 4, 1, 0.25, 12, 9.0))
    add("lines from the outlet column", along, both(*back), answers=900)
    many = rake((3.0, 0.1, 0.0), (3.0, 1.9, 0.0), 64, 1, 0.25, 4, 9.0)
    add("64 seeds along the far border", along, among(many), answers=1100)
    turns = [r(p, 0, 0.1, 30, 5.0) for p in ((2.75, 0.9, 0.0), (0.6, 1.9, 0.0)) for r in (line, sheet)]
    add("a whole turn among all cells", whirl(quads(6, 4, 0.5, 0.5)), both(*turns), answers=900)
    long = sheet((0.125, 0.5, 0.0), step=2.0**-17, steps=65536, length=1.0)
    add("65,536 steps among all cells", SQUARE.with_fields([(1.0, 0.0, 0.0)], [0.0]), among(long), answers=1100)


def edges():
    """The position of a point by both locators: on sides, at vertices, within the tolerance of the
    polygon test on both sides of them, at its limit and one float further, and in slanted cells so
    small that it reaches far into them."""
    tolerance = 1e-12
    limits = [x for d in (tolerance, rise(tolerance)) for x in (d, -d)]
    sides = [(x, 0.5) for x in (0.0, *limits)] + [(0.5, y) for y in (0.0, *limits)]
    add("positions at the near sides of Pair", PAIR, both(*(locate(*p) for p in sides)))
    shared = [locate(1.0 + d, 0.5) for d in (0.0, 5e-13, -5e-13, 9e-13, -9e-13, 1.1e-12, -1.1e-12)]
    add("positions at the side that two cells share", PAIR, both(*shared))
    add("positions at that side, cell 1 first", Mesh(2, PAIR.points, PAIR.cells[::-1]), both(*shared))
    aside = [(s * d, t * d) for d in (5e-13, 1.1e-12) for s, t in ((1, 0), (-1, 0), (0, 1), (0, -1))]
    corners = [(x + s, y + t) for x in (0.0, 1.0) for y in (0.0, 1.0) for s, t in ((0.0, 0.0), *aside)]
    add("positions at corners and beside them", PAIR, both(*(locate(*p) for p in corners)))
    rooms = [("a triangle", polygon(3), 1.0), ("a pentagram", polygon(5, 2), 1.0), ("a fan", fan(5), 1.0),
             ("arrows", arrows(2, 2), 1.0), ("long sides", quads(2, 1, 512.0, 256.0), 1.0),
             ("arrows of micrometres", arrows(2, 2).scaled(3e-6), 3e-6), ("cells over each other", spiral(5, 9), 1.0)]
    for name, m, size in rooms:
        add(f"positions in {name}", m, both(*(locate(*p) for p in at_sides(m, size))))


def at_sides(m, size):
    """Of the first cell and the last: the middle, the middles of two sides and places across them, a
    vertex and a place level with it."""
    for k in sorted({0, len(m.cells) - 1}):
        v = [m.points[i] for i in m.cells[k][1]]
        yield [sum(p[j] for p in v) / len(v) for j in range(2)]
        for a, b in zip(v[:2], v[1:]):
            length = math.dist(a, b)
            across = ((b[1] - a[1]) / length, (a[0] - b[0]) / length)
            for by in (0.0, 0.9e-12, -0.9e-12, 1.1e-12, -1.1e-12):
                yield [(a[j] + b[j]) / 2 + across[j] * by / length for j in range(2)]
        yield v[0][:2]
        yield [v[0][0] + 0.1 * size, v[0][1]]


def arrows(nx, ny):
    """Cells like arrows, side by side."""
    n = nx + 1
    m = quads(nx, 2 * ny).moved(lambda p: (p[0] + 0.5 * (p[1] % 2), p[1], p[2]))
    around = lambda a: [a, a + 1, a + 1 + n, a + 1 + 2 * n, a + 2 * n, a + n]
    return m.with_cells(*[(0, around(2 * j * n + i)) for j in range(ny) for i in range(nx)])


def zone_files():
    """Refusals 1 and 45 of edition 2, on both sides of every limit, and their order among the others."""
    two = lambda *zones: Zoned(PAIR, zones)
    right = two(0, 1).bytes()
    for zones in ((0, 255), (255, 254), (128, 0)):
        add(f"edition 2, zones {zones[0]} and {zones[1]}", two(*zones), both(*FLAT, sheet()))
    for zone in (256, 257, 65536, 2**31, 2**32 - 1):
        add(f"45: zone {zone}", two(0, zone), FLAT)
    add("45: zone 256 in the first cell", two(256, 0), FLAT)
    add("45: zone 256 in 3D", Zoned(CUBE, [256]), SOLID)
    add("3: before 45, kind 6", two(256, 256).bytes([6] + PAIR.words()[1:]), FLAT)
    add("3: before 45, a word over", two(0, 2**32 - 1).bytes(PAIR.words() + [0]), FLAT)
    add("45: before 4 to 7", two(0, 256), b"\0", (0, 0, 0, 0))
    add("4: zone 255, nothing lent", two(0, 255), b"\0", (0, 0, 0, 0))
    words, floats, marks = PAIR.least()
    add("4: edition 2, a word short", two(0, 1), FLAT, (words - 1, floats, marks, 100))
    add("5: edition 2, a mark short", two(0, 1), FLAT, (words, floats, marks - 1, 100))
    add("44: edition 2 in the least buffers", two(0, 1), FLAT, (words, floats, marks, 8))
    add("45: before 9", Zoned(PAIR.with_point(4, (NAN, 0, 0)), (0, 256)), FLAT)
    add("9: edition 2", Zoned(PAIR.with_point(4, (NAN, 0, 0)), (0, 255)), FLAT)
    add("45: before 11", Zoned(PAIR.with_cells((0, [0, 1])), [256]), FLAT)
    cells = lambda n, zone: [(b"\xdd" * 32, n), (u32(zone), n), (ending(103, 0, 0, n, 32 * n), 1)]
    add("2: before 45, 16,385 cells", cells(16385, 256), SOLID)
    add("3: before 45, 16,384 cells without words", cells(16384, 256), SOLID)
    add("8: 65,536 points in edition 2", [(b"\xee" * 24, 65536), (ending(102, 65536, 0, 0, 24 * 65536), 1)], FLAT)
    zone_trailers(right)


def zone_trailers(right):
    at = len(right) - 36 - 8  # where the zones of Pair stand
    for by in (-4, -1, 1, 4, 8, -16, 2**31):
        add(f"1: zone offset {by:+}", Zoned(PAIR, (0, 1)).bytes(offset=at + by), FLAT)
    add("1: zone offset 0", Zoned(PAIR, (0, 1)).bytes(offset=0), FLAT)
    for word in (2, 3, 0, 100, 101, 104, 202, 358, 102 * 256, 102 + 2**24):
        add(f"1: word {word} with edition 2's parts", Zoned(PAIR, (0, 1)).bytes(word=word), FLAT)
    add("11: word 103 with polygons", Zoned(PAIR, (0, 1)).bytes(word=103), FLAT)
    for word in (102, 103):
        add(f"1: word {word} with edition 1's parts", PAIR.bytes()[:-32] + u32(word) + PAIR.bytes()[-28:], FLAT)
    add("1: a zone short", right[:-40] + right[-36:], FLAT)
    add("1: a zone over", right[:-36] + u32(0) + right[-36:], FLAT)
    add("1: zones without their offset", right[:-36] + right[-32:], FLAT)
    add("1: a zone offset without zones", right[:at] + right[-36:], FLAT)
    add("1: four bytes before an edition 2 file", u32(0) + right, FLAT)
    add("1: a byte short in edition 2", right[1:], FLAT)
    empty = ending(102, 0, 0, 0, 0)
    add("8: 36 bytes of edition 2", empty, FLAT)
    add("8: no cells in edition 2", Zoned(Mesh(2, PAIR.points, []), []), FLAT)
    for n in (35, 33, 32, 31):
        add(f"1: {n} bytes of edition 2", empty[-n:], FLAT)
    add("1: 37 bytes of edition 2", b"\0" + empty, FLAT)
    for p, w, c in ((2**29, 0, 0), (0, 2**30, 0), (0, 0, 2**30), (0, 0, 2**29), (0, 0, 2**27)):
        assert (24 * p + 4 * w + 32 * c) % 2**32 == 0
        add(f"1: sums of edition 2 wrap to nothing: {p} points, {w} words, {c} cells", ending(102, p, w, c, 0), FLAT)
    for k, by in ((0, 2**29), (1, 2**30), (2, 2**30)):
        n = [6, 12, 2]
        n[k] += by
        add(f"1: sums of edition 2 wrap to those of Pair, count {k}", Zoned(PAIR, (0, 1)).bytes(counts=n), FLAT)


def zone_lines():
    """Lines that end at the border of a zone, on it and beside it, by both locators."""
    lines = (line, sheet)
    along = SHEET.with_fields([(1.0, 0.0, 0.0)] * 6, [0.0] * 6)
    columns = [i % 3 for i in range(6)]
    across = [r((x, 0.5, 0.0), d, 0.25, 20, 9.0) for x in (0.25, 1.5, 2.75) for d in (0, 1) for r in lines]
    add("lines that end at borders", Zoned(along, columns), both(*across), answers=900)
    add("the same lines in one zone", Zoned(along, [9] * 6), both(*across), answers=1500)
    up = SHEET.with_fields([(0.0, 1.0, 0.0)] * 6, [0.0] * 6)
    tiny = (0.0, 5e-13, -5e-13, 2e-12, -2e-12)
    beside = [r((1.0 + d, 0.25, 0.0), 0, 0.25, 20, 9.0) for d in tiny for r in lines]
    add("lines along a border and beside it", Zoned(up, columns), both(*beside), answers=900)
    turned = Zoned(Mesh(2, up.points, up.cells[::-1], up.velocities, up.pressures), [2, 1, 0, 0, 1, 2])
    add("lines along a border whose lower cell changes", turned, both(*beside), answers=900)
    seeds = [r((1.0 + d, 0.5, 0.0), w, 0.25, 20, 9.0) for d in tiny for w in (0, 1) for r in lines]
    add("seeds on a border and beside it", Zoned(PAIR, (0, 1)), both(*seeds), answers=900)
    add("seeds on a border, cell 1 first", Zoned(Mesh(2, PAIR.points, PAIR.cells[::-1], PAIR.velocities, PAIR.pressures), (1, 0)),
        both(*seeds), answers=900)
    strips = quads(8, 1, 0.25, 1.0).with_fields([(1.0, 0.0, 0.0)] * 8, [0.0] * 8)
    steps = [r((0.125, 0.5, 0.0), 0, s, 20, 9.0) for s in (0.0625, 0.25, 0.5, 1.0, 0.75) for r in lines]
    add("stage points in another zone", Zoned(strips, [i % 2 for i in range(8)]), both(*steps), answers=600)
    add("a zone that is stepped over", Zoned(strips, [0, 7, 0, 7, 7, 0, 0, 0]), both(*steps), answers=600)
    limits = [r((0.25, 0.5, 0.0), 0, 0.25, n, x) for n in (3, 4, 20) for x in (0.5, 0.75, 0.74, 9.0) for r in lines]
    add("ends by steps, length and zone", Zoned(along, columns), both(*limits), answers=1200)
    still = SHEET.with_fields([(1.0, 0.0, 0.0), (0.0, 0.0, 0.0), (1.0, 0.0, 0.0)] * 2, [0.0] * 6)
    add("still air behind a border", Zoned(still, columns), both(*across), answers=900)
    add("44: a line that runs on, and one that ends", Zoned(along, columns), among(*(line((x, 0.5, 0.0), 0, 0.25, 20, 9.0) for x in (2.0, 0.25))), answers=20)
    add("a line in the fewest words that its zone leaves", Zoned(along, columns), among(line((0.25, 0.5, 0.0), 0, 0.25, 20, 9.0)), answers=15)
    add("44: a line, a word short of what its zone leaves", Zoned(along, columns), among(line((0.25, 0.5, 0.0), 0, 0.25, 20, 9.0)), answers=14)


def zone_rooms():
    rakes = [rake((0.25, 0.25, 0.0), (2.75, 1.75, 0.0), n, d, 0.25, 12, 9.0) for n in (2, 3, 6) for d in (0, 1)]
    along = SHEET.with_fields([(1.0, 0.25 * (i % 2), 0.0) for i in range(6)], [0.0] * 6)
    add("rakes over zones", Zoned(along, [3, 1, 2, 0, 1, 255]), both(*rakes), answers=2400)
    add("64 seeds over zones", Zoned(along, [0, 1, 0, 1, 0, 1]), among(rake((0.0, 0.5, 0.0), (2.9, 1.5, 0.0), 64, 0, 0.25, 4, 9.0)), answers=1100)
    coil = whirl(spiral(6, 14, 0.03)).shifted(1.5, 1.0, 0.0)
    by_turn = [i // 6 for i in range(14)]
    reverse = Mesh(2, coil.points, coil.cells[::-1], coil.velocities[::-1], coil.pressures)
    rooms = [("squares", SHEET, [i % 2 for i in range(6)]), ("one zone", SHEET, [200] * 6), ("each its own", SHEET, range(6)),
             ("whirl", whirl(quads(6, 4, 0.5, 0.5)), [(i % 6 // 2 + i // 12) % 2 for i in range(24)]),
             ("whirl in one zone", whirl(quads(6, 4, 0.5, 0.5)), [255] * 24),
             ("cells over each other", coil, by_turn), ("cells over each other, the outer ones first", reverse, by_turn[::-1]),
             ("two long cells without an index", quads(2, 1, 500.0, 0.05), [4, 5]), ("gap", ring_gap(), [i % 3 for i in range(8)]),
             ("ring", ring(6), [1] + [0] * 6), ("fan", fan(5), [0, 0, 1, 1, 1]), ("one cell", SQUARE, [77]),
             ("heights", SHEET.moved(lambda p: (p[0], p[1], p[0] * 0.5 - p[1])), [0, 0, 1, 0, 0, 1])]
    for name, m, zones in rooms:
        add(f"with zones, {name}", Zoned(m, zones), both(*shown(m)), answers=2400)
    add("the fourteen codes in 2D, edition 2", Zoned(PAIR, (0, 1)), FLAT + SOLID + [sheet()] + among(*FLAT, sheet()))
    add("the fourteen codes in 3D, edition 2", Zoned(CUBE, [255]), FLAT + SOLID + [sheet()] + among(*FLAT, sheet()))
    for name, m in (("stack", STACK), ("block", BLOCK), ("tetrahedra", split(BLOCK, 1))):
        add(f"sections over zones, {name}", Zoned(m, [i % 3 for i in range(len(m.cells))]), shown(m), answers=1500)
    bad = [altered(FLAT[2], 9, 1), line(direction=2), rake(count=1), rake(count=65), line(steps=65537), line(step=NAN), line((9.0, 9.0, 0.0)), cut(5)]
    between("30: in edition 2, and 31 to 35", Zoned(PAIR, (0, 1)), *bad, *among(*bad[:-1]))


def zones():
    """Edition 2: its refusals, and lines that go by the zones of their cells."""
    zone_files()
    zone_lines()
    zone_rooms()


# ---- what the reference says

def printed(refjob, folder, pair):
    """The lines that the reference prints, and whether it calls angles near."""
    name, lent, case, requests = pair
    command = [refjob, "--nolimit", "--until", LANDED]
    for part, data in (("case.bin", case), ("requests.bin", requests)):
        with open(os.path.join(folder, part), "wb") as f:
            f.write(whole(data))
        command.append(os.path.join(folder, part))
    for word, n in zip(("--words", "--floats", "--marks", "--answers"), lent):
        command += [word, str(n)]
    done = subprocess.run(command, check=True, capture_output=True, text=True)
    return done.stdout, done.stderr != ""


def hashed(data):
    h = 0xCBF29CE484222325
    for b in data:
        h = (h ^ b) * 0x100000001B3 % 2**64
    return h


HASHES = {}


def digest(data):
    if data not in HASHES:
        HASHES[data] = "%016x" % hashed(data)
    return HASHES[data]


def buffers(text, lent, cells):
    """The answers and marks that the reference's lines stand for."""
    answers, marks = [], [MARK] * lent[2]
    lines = text.splitlines()
    if lines[0].startswith("refused"):
        return struct.pack("<Q", ANSWER) * lent[3], bytes(marks)
    for x in lines[:-1]:
        refusal, n, *words = x.split()
        assert len(words) == int(n)
        answers += [int(refusal), int(n), *(int(w, 16) for w in words)]
    answers += [0] * (lent[3] - len(answers))
    marks[:cells] = [0] * cells
    for i in lines[-1].split()[1:]:
        marks[int(i)] = 1
    return struct.pack("<%dQ" % len(answers), *answers), bytes(marks)


def shown_line(name, text, lent, case):
    cells = struct.unpack("<I", case[-20:-16])[0] if len(case) >= 32 else 0
    answers, marks = buffers(text, lent, cells)
    assert len(answers) == 8 * lent[3] and len(marks) == lent[2]
    outcome = text.strip() if text.startswith("refused") else "done"
    return f"{name}: {outcome} {digest(answers)} {digest(marks)}\n"


# ---- generated pairs

def compared(case, requests):
    """Whether the reference is held to this pair: no seed height that is no number, and in 2D finite fields."""
    for at in range(0, len(requests) - 127, 128):
        code = struct.unpack_from("<Q", requests, at)[0]
        start, end = (struct.unpack_from("<d", requests, at + 8 * k)[0] for k in (3, 6))
        if code in (2, 3, 10, 11, 13, 14) and math.isnan(start):
            return False
        if code in (4, 12) and not (math.isfinite(start) and math.isfinite(end)):
            return False
    d, p, w, c = struct.unpack("<4I", case[-32:-16])
    fields = struct.unpack("<%dd" % (4 * c), case[24 * p + 4 * w:-32])
    return d == 3 or all(map(math.isfinite, fields))


# Pairs each of which a slip changes: a wrong order of neighbours or angles, a bin or step too many,
# a mark too few, a sum in another order. Three or four for each slip.
TELLING = (379, 652, 758, 784, 818, 828, 1189, 1193, 1346, 1392, 1509, 1537, 1658, 1792, 1867, 2127, 2243, 2554, 2695, 2716,
           2751, 3554, 3736, 4193, 4498, 4604, 4742, 4856, 4870, 5127, 5206, 5371, 5497, 5750, 5985, 6008, 6040, 6366, 6837, 7009,
           7101, 7195, 7255, 7345, 7405, 7600, 7676, 7729, 7807, 7948, 8031, 8039, 8261, 8444, 8578, 8712, 8776, 8821, 8959, 8998)


def generated(gen, folder, seed, longest):
    """The pair of a seed, or nothing where it is too long or not compared."""
    subprocess.run([gen, str(seed), folder], check=True)
    read = lambda x: open(os.path.join(folder, x), "rb").read()
    case, requests = read("case.bin"), read("requests.bin")
    lent = tuple(map(int, re.findall(rb" (\d+)", read("args.txt"))))
    if len(case) + len(requests) > longest or any(x > most for x, most in zip(lent, ROOM)):
        return None
    if not read("expect.txt").startswith(b"refused") and not compared(case, requests):
        return None
    sort = read("sort.txt").decode().split()[:2]
    return f"generated {seed}, {' '.join(sort)}", lent, [(case, 1)], [(requests, 1)]


# ---- the files

def piece(data, end):
    return u32(len(data), end) + data


def packed(pieces):
    pieces = [x for x in pieces if len(x[0]) * x[1] > 0]
    out, end = u32(len(pieces)), 0
    for data, times in pieces:
        end += len(data) * times
        out += piece(data, end)
    return out


class Files:
    """Both files, and how many pairs show what."""

    def __init__(self, refjob, folder):
        self.refjob, self.folder = refjob, folder
        self.pairs, self.data, self.due = 0, b"", ""
        self.shows, self.refused = collections.Counter(), collections.Counter()

    def add(self, pair, most=None):
        """Adds a pair, unless angles are near or `most` pairs of its refusal are there."""
        name, lent, case, requests = pair
        assert all(x <= y for x, y in zip(lent, ROOM)), name
        text, near = printed(self.refjob, self.folder, pair)
        if near or (most and text.startswith("refused") and self.refused[text] >= most):
            return print("passed over:", name, file=sys.stderr) if near else None
        self.count(name, text, whole(requests))
        listed = len(text) < 2000
        self.data += u32(len(name.encode())) + name.encode() + u32(int(listed), *lent) + packed(case) + packed(requests)
        self.due += shown_line(name, text, lent, whole(case)) + (text if listed else "")
        self.pairs += 1

    def count(self, name, text, requests):
        lines = text.splitlines()
        seen = {int(x.split()[x.startswith("refused")]) for x in lines if not x.startswith("read")}
        want = re.match(r"(\d+): ", name)
        if want and int(want[1]) not in seen:
            print("not as named:", name, text, file=sys.stderr)
        codes = {struct.unpack_from("<Q", requests, 128 * k)[0] for k, x in enumerate(lines) if x.startswith("0 ")}
        self.refused[text] += text.startswith("refused")
        self.shows.update([f"refusal {k}" for k in seen if k] + [f"code {k}" for k in codes])

    def write(self):
        os.makedirs(os.path.join(CRATE, "data"), exist_ok=True)
        with open(os.path.join(CRATE, "data", "pairs"), "wb") as f:
            f.write(u32(self.pairs) + self.data)
        with open(os.path.join(CRATE, "stdout"), "w") as f:
            f.write(self.due)
        print(f"{self.pairs} pairs, {len(self.data) + 4} bytes, {len(self.due)} bytes due", file=sys.stderr)
        for x in [f"refusal {k}" for k in (*range(1, 20), *range(30, 46))] + [f"code {k}" for k in range(1, 15)]:
            print(f"{x}: {self.shows[x]} pairs", file=sys.stderr)


def main(programs):
    refjob, gen, rooms = (os.path.join(programs, x) for x in ("refjob2", "gen", "rooms"))
    known(rooms)
    for part in (lists, trailers, records, lengths, values, definitions, volumes, codes, options, planes, samples,
                 rooms_for_answers, accepted, sheets, all_cells, edges):
        part()
    first = len(PAIRS)
    zones()
    names = collections.Counter(p[0] for p in PAIRS)
    assert len(names) == len(PAIRS), names.most_common(3)
    with tempfile.TemporaryDirectory() as folder:
        files = Files(refjob, folder)
        for pair in PAIRS[:first]:
            files.add(pair)
        for seed in TELLING:
            files.add(generated(gen, os.path.join(folder, "gen"), seed, 6000))
        seeds = (seed for seed in range(1, 9999) if seed not in TELLING)
        while files.pairs < WANTED:
            pair = generated(gen, os.path.join(folder, "gen"), next(seeds), 3000)
            if pair:
                files.add(pair, 20)
        for pair in PAIRS[first:]:
            files.add(pair)
        files.write()


main(*sys.argv[1:])
