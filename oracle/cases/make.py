#!/usr/bin/env python3
"""Makes what the program crate test_case_refusals runs on, and what it is held to.

    make.py REFJOB2

writes crates/test_case_refusals/data/cases, the case files in pieces (src/main.rt says how), and
crates/test_case_refusals/stdout, the line that each is due. No number of a line is computed here: each
comes from REFJOB2, the reference job that runs FLURSYS's own Rust inside the records of the case
file, with the requests of document 02 that oracle/reference names. A refusal of 1, 2 or 3 is what it
prints. For a case that it reads, F is found from the smallest work area that it accepts: 16F+96C
words, C being the trailer's, and 12F+64C floats must lead to the same F. Marks of length 0 and one
request byte have it stop (5, 6) before the mesh.

The cases are listed below in the order of the refusals, then those of edition 2. The program opens and
walks a case and looks at no zone, so none of them is above 255 (45). Points and fields are filled with bytes
that are no kind word, so that a reader that starts at the wrong byte is seen.
"""
import os
import re
import struct
import subprocess
import sys
import tempfile

HERE = os.path.dirname(os.path.abspath(__file__))
CRATE = os.path.join(HERE, "..", "..", "crates", "test_case_refusals")
with open(os.path.join(HERE, "..", "reference", "src", "lib.rs")) as f:
    LANDED = re.search(r"^pub const LANDED: u32 = (\d+);$", f.read(), re.M)[1]
MOST_POINTS, MOST_CELLS, MOST_WORDS = 65536, 16384, 1048576
TOP = 2**32 - 1


def u32(*numbers):
    return struct.pack("<%dI" % len(numbers), *numbers)


# ---- the parts of a case: pieces (bytes, how many times)

def points(count):
    return [(b"\xee" * 24, count)]


def fields(cells):
    return [(b"\xdd" * 32, cells)]


def trailer(dimension, p, w, c, at=None):
    """The trailer's bytes; at overrides its last four words."""
    if at is None:
        at = (0, 24 * p, 24 * p + 4 * w, 24 * p + 4 * w + 24 * c)
    return u32(*(x % 2**32 for x in (dimension, p, w, c, *at)))


def size(pieces):
    return sum(len(b) * times for b, times in pieces)


def whole(pieces):
    return b"".join(b * times for b, times in pieces)


def case(words, cells, dimension=3, p=2):
    """A case whose trailer says what it has; words are pieces of definition words."""
    w = size(words) // 4
    return [*points(p), *words, *fields(cells), (trailer(dimension, p, w, cells), 1)]


def told(words, cells, end, p=2):
    """The same parts under another trailer."""
    return [*points(p), *words, *fields(cells), (end, 1)]


# ---- records of definition words

def polygon(*numbers):
    return u32(0, len(numbers), *numbers)


def polyhedron(*faces):
    return u32(5, len(faces)) + b"".join(u32(len(f), *f) for f in faces)


TETRAHEDRON = u32(1, 0, 1, 2, 3)
HEXAHEDRON = u32(2, 0, 1, 2, 3, 4, 5, 6, 7)
PRISM = u32(3, 0, 1, 2, 3, 4, 5)
PYRAMID = u32(4, 0, 1, 2, 3, 4)
TRIANGLE = polygon(0, 1, 2)
CUT_CUBE = polyhedron((0, 1, 2), (0, 3, 1), (1, 3, 2), (2, 3, 0))
KINDS = [("polygon", TRIANGLE), ("tetrahedron", TETRAHEDRON), ("hexahedron", HEXAHEDRON),
         ("prism", PRISM), ("pyramid", PYRAMID), ("polyhedron", CUT_CUBE)]
FACE_OF_8 = u32(8, 0, 1, 2, 3, 4, 5, 6, 7)
LARGEST = [(u32(5, 24), 1), (FACE_OF_8, 24)]  # 218 words
SIXTY_FOUR = u32(5, 7) + FACE_OF_8 * 6 + u32(7, 0, 1, 2, 3, 4, 5, 6)  # 64 words, a record
assert len(SIXTY_FOUR) == 4 * 64


def once(*records):
    return [(b"".join(records), 1)]


# ---- the cases

CASES = []


def add(name, pieces):
    CASES.append((name, [x for x in pieces if len(x[0]) * x[1] > 0]))


def floats(*numbers):
    return struct.pack("<%dd" % len(numbers), *numbers)


def accepted():
    pair = floats(0, 0, 0, 1, 0, 0, 2, 0, 0, 0, 1, 0, 1, 1, 0, 2, 1, 0)
    pair_words = polygon(0, 1, 4, 3) + polygon(1, 2, 5, 4)
    pair_fields = floats(1, 0, 0, 3, 0, 0, 0, 0)
    add("pair of squares", once(pair, pair_words, pair_fields, trailer(2, 6, len(pair_words) // 4, 2)))
    cube = floats(0, 0, 0, 1, 0, 0, 1, 1, 0, 0, 1, 0, 0, 0, 1, 1, 0, 1, 1, 1, 1, 0, 1, 1)
    add("unit cube", once(cube, HEXAHEDRON, floats(0, 0, 2, 3), trailer(3, 8, 9, 1)))
    for dimension in (2, 3):
        for name, record in KINDS:
            add(f"{name} in {dimension}D", case(once(record), 1, dimension))
        every = [record for _, record in KINDS]
        add(f"every kind in {dimension}D", case(once(*every, *reversed(every)), 12, dimension, 8))
        add(f"nothing but a trailer in {dimension}D", case([], 0, dimension, 0))
        add(f"points alone in {dimension}D", case([], 0, dimension, 5))
    add("no points", case(once(TRIANGLE, PRISM), 2, 3, 0))
    for n in (1, 2, 3, 23):
        add(f"polygon of {n}", case(once(polygon(*range(n))), 1))
    add("point numbers not below P", case(once(polygon(2, TOP, 2**31), u32(1, TOP, TOP, TOP, TOP)), 2))


def trailer_short():
    right = trailer(2, 0, 0, 0)
    add("0 bytes", [])
    add("1 byte", once(b"\2"))
    for n in (16, 31):
        add(f"{n} bytes: the trailer's last", once(right[-n:]))
        add(f"{n} bytes: the trailer's first", once(right[:n]))
    add("32 bytes of 0", once(b"\0" * 32))
    add("32 bytes of 255", once(b"\xff" * 32))


# A case for trailers to be wrong about: 2 points, 15 words, 3 cells.
BASE = once(TRIANGLE, TRIANGLE, TETRAHEDRON)
P, W, C = 2, 15, 3
ENDS = (0, 24 * P, 24 * P + 4 * W, 24 * P + 4 * W + 24 * C)


def trailer_words():
    add("trailer right", told(BASE, C, trailer(2, P, W, C)))
    for d in (0, 1, 4, 5, 258, 65538, 2**24 + 2, 2 * 2**24, 2**31 + 2, TOP):
        add(f"dimension {d}", told(BASE, C, trailer(d, P, W, C)))
    for k, part in enumerate(("points", "words", "velocities", "pressures")):
        for by in (-24, -4, -1, 1, 4, 24, 256, 65536, 2**24, 2**31):
            at = list(ENDS)
            at[k] += by
            add(f"offset of the {part} {by:+}", told(BASE, C, trailer(2, P, W, C, at)))
    for by in (-4, -1, 1, 4):
        add(f"every offset {by:+}", told(BASE, C, trailer(2, P, W, C, [x + by for x in ENDS])))
        add(f"every offset but the first {by:+}",
            told(BASE, C, trailer(2, P, W, C, [0] + [x + by for x in ENDS[1:]])))
    add("every offset 0", told(BASE, C, trailer(2, P, W, C, [0] * 4)))
    add("offsets from the end", told(BASE, C, trailer(2, P, W, C, [ENDS[3] - x for x in ENDS])))
    for j, k in ((0, 1), (1, 2), (2, 3)):
        at = list(ENDS)
        at[j], at[k] = at[k], at[j]
        add(f"offsets {j} and {k} exchanged", told(BASE, C, trailer(2, P, W, C, at)))
    add("numbers the other way round", told(BASE, C, struct.pack(">8I", 2, P, W, C, *ENDS)))
    add("trailer in front", [(trailer(2, P, W, C), 1), *told(BASE, C, b"")])


def trailer_counts():
    """A count that is off by one under the same bytes: with the offsets as they were, or as the
    count says; and the count with the bytes that it asks for, which is no longer refused by 1."""
    for by in (-1, 1):
        for k, part in enumerate(("points", "words", "cells")):
            n = [P, W, C]
            n[k] += by
            add(f"{part} {by:+}, offsets as before", told(BASE, C, trailer(2, *n, ENDS)))
            add(f"{part} {by:+}, offsets as it says", told(BASE, C, trailer(2, *n)))
        add(f"points {by:+}, length too", case(BASE, C, 2, P + by))
        add(f"cells {by:+}, length too", case(BASE, C + by, 2, P))
    add("words -1, length too", case([(BASE[0][0][:-4], 1)], C, 2, P))
    add("words +1, length too", case([*BASE, (u32(0), 1)], C, 2, P))


def trailer_length():
    right = whole(told(BASE, C, trailer(2, P, W, C)))
    front, end = right[:-32], right[-32:]
    for n in (1, 4, 8, 24, 32):
        more, count = b"\xdd" * n, f"{n} byte{'s' * (n > 1)}"
        add(f"{count} short: at the start", once(right[n:]))
        add(f"{count} short: before the trailer", once(front[:-n], end))
        add(f"{count} short: at the end", once(right[:-n]))
        add(f"{count} over: at the start", once(more, right))
        add(f"{count} over: before the trailer", once(front, more, end))
        add(f"{count} over: at the end", once(right, more))
    add("1 byte before an empty case", once(b"\0", trailer(2, 0, 0, 0)))
    add("1 byte after an empty case", once(trailer(2, 0, 0, 0), b"\0"))
    add("1 point short", told(BASE, C, trailer(2, P, W, C), P - 1))
    add("1 point over", told(BASE, C, trailer(2, P, W, C), P + 1))
    add("velocities and pressures missing", [*points(P), *BASE, (trailer(2, P, W, C), 1)])
    add("trailer alone of a case with cells", once(trailer(2, P, W, C)))
    for k, place in enumerate(("before the points", "before the words", "before the velocities",
                               "before the pressures")):
        at = [x + 8 * (j >= k) for j, x in enumerate(ENDS)]
        cut = ENDS[k]
        add(f"gap of 8 {place}, offsets told", once(front[:cut], b"\0" * 8, front[cut:], trailer(2, P, W, C, at)))
    add("words before points, offsets told",
        [*BASE, *points(P), *fields(C), (trailer(2, P, W, C, (4 * W, 0, ENDS[2], ENDS[3])), 1)])


def trailer_wrapped():
    """Right in sums of 32 bits, and refused since the sums are exact."""
    for p, w, c in ((2**29, 0, 0), (0, 2**30, 0), (0, 0, 2**29), (0, 0, 2**27), (2**29, 2**30, 2**29),
                    (2**31, 0, 0), (0, 2**31, 0), (0, 0, 2**31), (TOP, 6, 0), (TOP, 14, TOP),
                    (178956970, 4, 0), (2**28, 2**29, 0)):
        assert (24 * p + 4 * w + 32 * c) % 2**32 == 0
        add(f"sums wrap to nothing: {p} points, {w} words, {c} cells", once(trailer(2, p, w, c)))
    assert 24 * 178956971 % 2**32 == 8
    add("sums wrap: 178956971 points in 8 bytes", once(b"\0" * 8, trailer(2, 178956971, 0, 0)))
    for k, (part, by) in enumerate((("points", 2**29), ("words", 2**30), ("cells", 2**29), ("cells", 2**27))):
        n = [P, W, C]
        n[min(k, 2)] += by
        add(f"sums wrap to those of the case: {part} +{by}", told(BASE, C, trailer(2, *n)))
    add(f"{TOP} of each with no bytes", once(trailer(2, TOP, TOP, TOP)))
    for k, part in enumerate(("points", "words", "cells")):
        n = [0, 0, 0]
        n[k] = TOP
        add(f"{TOP} {part} with no bytes", once(trailer(2, *n)))
        add(f"{TOP} {part}, offsets 0", once(trailer(2, *n, [0] * 4)))


def limits():
    """Counts at and past their limits, with every byte that they ask for."""
    none = u32(0, 0)  # a polygon of 0: the shortest record
    add("65536 points", case([], 0, 2, MOST_POINTS))
    add("65537 points", case([], 0, 2, MOST_POINTS + 1))
    add("131072 points", case([], 0, 2, 2 * MOST_POINTS))
    add("65537 points, dimension 4", [*points(MOST_POINTS + 1), (trailer(4, MOST_POINTS + 1, 0, 0), 1)])
    add("65537 points, 1 byte over", [(b"\0", 1), *case([], 0, 2, MOST_POINTS + 1)])
    add("65537 points, unknown kind", case(once(u32(6)), 1, 2, MOST_POINTS + 1))
    add("16384 cells", case([(none, MOST_CELLS)], MOST_CELLS))
    add("16385 cells", case([(none, MOST_CELLS + 1)], MOST_CELLS + 1))
    add("32768 cells", case([(none, 2 * MOST_CELLS)], 2 * MOST_CELLS))
    add("16384 cells, no words", case([], MOST_CELLS))
    add("16385 cells, no words", case([], MOST_CELLS + 1))
    add("16384 cells, records of 16383", case([(none, MOST_CELLS - 1)], MOST_CELLS))
    add("16384 cells, records of 16385", case([(none, MOST_CELLS + 1)], MOST_CELLS))
    add("16384 cells, the last unknown", case([(none, MOST_CELLS - 1), (u32(6, 0), 1)], MOST_CELLS))
    full = [(SIXTY_FOUR, MOST_CELLS)]  # 1,048,576 words
    add("1048576 words in 16384 cells", case(full, MOST_CELLS))
    longer = SIXTY_FOUR[:-32] + u32(8, 0, 1, 2, 3, 4, 5, 6, 7)
    over = [(longer, 1), (SIXTY_FOUR, MOST_CELLS - 1)]
    add("1048577 words in 16384 cells", case(over, MOST_CELLS))
    add("1048576 words, 1 cell", case([(u32(0), MOST_WORDS)], 1))
    add("1048577 words, 1 cell", case([(u32(0), MOST_WORDS + 1)], 1))
    add("1048576 words, no cells", case([(u32(0), MOST_WORDS)], 0))
    add("1048577 words, no cells", case([(u32(0), MOST_WORDS + 1)], 0))
    add("every count at its limit", case(full, MOST_CELLS, 3, MOST_POINTS))
    add("every count past its limit",
        case(over, MOST_CELLS + 1, 3, MOST_POINTS + 1))
    wrong = [(SIXTY_FOUR, MOST_CELLS - 1), (SIXTY_FOUR[:-32] + u32(8, 0, 1, 2, 3, 4, 5, 6), 1)]
    add("every count at its limit, the last face one short", case(wrong, MOST_CELLS, 3, MOST_POINTS))


def kinds():
    for kind in (6, 7, 8, 255, 256, 65536, 2**24, 2**31, 2**31 + 1, TOP):
        add(f"kind {kind}", case(once(u32(kind, 0, 1, 2, 3)), 1))
    add("kind 6 first", case(once(u32(6), TRIANGLE), 2))
    add("kind 6 between two", case(once(TRIANGLE, u32(6), TRIANGLE), 3))
    add("kind 6 last", case(once(TRIANGLE, TRIANGLE, u32(6)), 3))
    add("kind 6 after the last record", case(once(TRIANGLE, TRIANGLE, u32(6)), 2))


def inner_counts():
    add("polygon of 0", case(once(polygon()), 1))
    for n in (24, 25, 26):
        add(f"polygon of {n}", case(once(u32(0, n), u32(*range(n))), 1))
    add("polygon of 25 after one of 24", case([(u32(0, 24), 1), (u32(1), 24), (u32(0, 25), 1), (u32(1), 25)], 2))
    add("polygon of 256, all there", case([(u32(0, 256), 1), (u32(7), 256)], 1))
    for n in (255, 256, 65536, 2**24, 2**31, TOP - 1, TOP):
        add(f"polygon of {n}, no numbers", case(once(u32(0, n)), 1))
    triangle = u32(3, 0, 1, 2)
    add("polyhedron of 0 faces", case(once(u32(5, 0)), 1))
    for n in (1, 3, 24, 25, 26):
        add(f"polyhedron of {n} faces", case([(u32(5, n), 1), (triangle, n)], 1))
    for n in (256, 65536, 2**24, 2**31, TOP):
        add(f"polyhedron of {n} faces, none there", case(once(u32(5, n)), 1))
    add("polyhedron of 256 faces of 0, all there", case([(u32(5, 256), 1), (u32(0), 256)], 1))
    add("polyhedron of 24 faces of 0", case([(u32(5, 24), 1), (u32(0), 24)], 1))
    add("polyhedron of 25 faces of 0", case([(u32(5, 25), 1), (u32(0), 25)], 1))
    add("polyhedron of 24 faces of 8", case(LARGEST, 1))
    add("polyhedron of 24 faces of 8, twice", case([*LARGEST, *LARGEST], 2))
    add("polyhedron of 25 faces of 8", case([(u32(5, 25), 1), (FACE_OF_8, 25)], 1))
    for n in (0, 1, 2, 7, 8, 9, 10):
        add(f"face of {n}", case(once(u32(5, 1, n, *range(n))), 1))
    add("face of 24, all there", case(once(u32(5, 1, 24, *range(24))), 1))
    for n in (256, 65536, 2**24, 2**31, TOP - 1, TOP):
        add(f"face of {n}, no numbers", case(once(u32(5, 1, n)), 1))
    face_of_9 = u32(9, *range(9))
    add("first of 24 faces of 9", case([(u32(5, 24), 1), (face_of_9, 1), (FACE_OF_8, 23)], 1))
    add("last of 24 faces of 9", case([(u32(5, 24), 1), (FACE_OF_8, 23), (face_of_9, 1)], 1))
    add("last of 24 faces of 0", case([(u32(5, 24), 1), (FACE_OF_8, 23), (u32(0), 1)], 1))


def words_and_cells():
    for name, record in KINDS:
        n = len(record) // 4
        for words in range(1, n):
            if words in (1, 2, 3, n - 1):
                add(f"{name}: {words} of {n} words", case(once(record[:4 * words]), 1))
        add(f"{name}: 1 word left over", case(once(record, u32(0)), 1))
        add(f"{name}: last of three, 1 word short", case(once(TRIANGLE, PRISM, record[:-4]), 3))
        add(f"{name}: first of two, 1 word short", case(once(record[:-4], TRIANGLE), 2))
        add(f"{name}: first of two, 1 word over", case(once(record, u32(0), TRIANGLE), 2))
        add(f"{name}: two records, 1 cell", case(once(record, record), 1))
        add(f"{name}: two records, 3 cells", case(once(record, record), 3))
    add("polygon of 24: 1 word short", case([(u32(0, 24), 1), (u32(1), 23)], 1))
    add("polyhedron of 24 faces of 8: 1 word short", case([(u32(5, 24), 1), (FACE_OF_8, 23), (FACE_OF_8[:-4], 1)], 1))
    add("polyhedron of 24 faces of 8: 1 face short", case([(u32(5, 24), 1), (FACE_OF_8, 23)], 1))
    add("polyhedron of 24 faces of 8: 1 face over", case([(u32(5, 24), 1), (FACE_OF_8, 25)], 1))
    add("polygon of 0: 1 word left over", case(once(u32(0, 0, 0)), 1))
    add("polygon of 0, 2 cells", case(once(u32(0, 0)), 2))
    add("polyhedron of 0 faces: 1 word left over", case(once(u32(5, 0, 0)), 1))
    for dimension in (2, 3):
        add(f"no cells, no words in {dimension}D", case([], 0, dimension))
        add(f"no cells, 1 word in {dimension}D", case(once(u32(0)), 0, dimension))
        add(f"1 cell, no words in {dimension}D", case([], 1, dimension))
    add("no cells, a record", case(once(TRIANGLE), 0))
    add("no cells, an unknown kind", case(once(u32(6)), 0))
    add("5 cells, records of 4", case(once(TRIANGLE, PRISM, HEXAHEDRON, CUT_CUBE), 5))
    add("4 cells, records of 4", case(once(TRIANGLE, PRISM, HEXAHEDRON, CUT_CUBE), 4))
    add("3 cells, records of 4", case(once(TRIANGLE, PRISM, HEXAHEDRON, CUT_CUBE), 3))


# ---- edition 2

def ending(word, p, w, c, offset=None, at=None):
    """The zone offset and the trailer; offset and at override what the counts say."""
    right = 24 * p + 4 * w + 32 * c
    return u32((right if offset is None else offset) % 2**32) + trailer(word, p, w, c, at)


def zones(cells):
    """A zone for each cell: none of their bytes is a kind word."""
    return [(u32(0xcc), cells)]


def case2(words, cells, word=103, p=2, end=None, zone_words=None):
    """A case of edition 2 whose ending says what it has, or another ending; with as many zones as cells, or others."""
    w = size(words) // 4
    end = ending(word, p, w, cells) if end is None else end
    return [*points(p), *words, *fields(cells), *(zones(cells) if zone_words is None else zone_words), (end, 1)]


def second_accepted():
    for word in (102, 103):
        for name, record in KINDS:
            add(f"{name}, word {word}", case2(once(record), 1, word))
        every = [record for _, record in KINDS]
        add(f"every kind, word {word}", case2(once(*every, *reversed(every)), 12, word, 8))
        add(f"nothing but 36 bytes, word {word}", case2([], 0, word, 0))
        add(f"points alone, word {word}", case2([], 0, word, 5))
    for low, high in ((0, 0), (255, 0), (255, 255)):
        add(f"zones {low} and {high}", case2(once(TRIANGLE, PRISM), 2, zone_words=once(u32(low, high))))
    add("zones that look like records", case2(once(TRIANGLE, PRISM), 2, zone_words=once(u32(0, 3))))


def second_short():
    empty = ending(102, 0, 0, 0)
    for n in (31, 32, 33, 34, 35):
        add(f"the last {n} of 36 bytes, word 102", once(empty[-n:]))
        add(f"{n} bytes, word 102, of another case", once(ending(102, 0, 0, 1)[-n:]))
    add("37 bytes, word 102", once(b"\0", empty))
    add("40 bytes, word 102: a zone and no cell", once(u32(0), empty))


def second_words():
    """Words and parts of both editions in each other's place."""
    right, first = case2(BASE, C, 102, P), whole(told(BASE, C, trailer(2, P, W, C)))
    add("ending right", right)
    for word in (0, 1, 2, 3, 4, 100, 101, 104, 105, 202, 203, 358, 359, 102 * 256, 2**24 + 102, 2**31 + 103, TOP):
        add(f"word {word} with the parts of edition 2", case2(BASE, C, word, P))
    for word in (102, 103):
        add(f"word {word} with the parts of edition 1", once(first[:-32], trailer(word, P, W, C)))
        add(f"word {word}, zones without their offset", once(first[:-32], u32(*[0] * C), trailer(word, P, W, C)))
        add(f"word {word}, the offset without zones", once(first[:-32], ending(word, P, W, C)))
    body = whole(right)[:-36]
    add("offset of the zones behind the trailer", once(body, trailer(102, P, W, C), u32(24 * P + 4 * W + 32 * C)))
    add("offset of the zones before the zones", once(body[:-4 * C], u32(24 * P + 4 * W + 32 * C), body[-4 * C:], trailer(102, P, W, C)))


def second_offsets():
    at = 24 * P + 4 * W + 32 * C
    for by in (-32 * C, -8 * C, -24, -4, -1, 1, 4, 4 * C, 4 * C + 4, 256, 65536, 2**24, 2**31):
        add(f"offset of the zones {by:+}", case2(BASE, C, 102, P, ending(102, P, W, C, at + by)))
    for offset in (0, TOP):
        add(f"offset of the zones {offset}", case2(BASE, C, 102, P, ending(102, P, W, C, offset)))
    for k, part in enumerate(("points", "words", "velocities", "pressures")):
        for by in (-4, 4, 4 * C + 4):
            ends = list(ENDS)
            ends[k] += by
            add(f"offset of the {part} {by:+}, word 102", case2(BASE, C, 102, P, ending(102, P, W, C, at=ends)))
    for by in (-4, 4):
        add(f"every offset {by:+}, word 102", case2(BASE, C, 102, P, ending(102, P, W, C, at + by, [x + by for x in ENDS])))


def second_length():
    right = whole(case2(BASE, C, 102, P))
    at = len(right) - 36
    for n in (1, 4, 8, 36):
        count = f"{n} byte{'s' * (n > 1)}"
        add(f"{count} short at the start, word 102", once(right[n:]))
        add(f"{count} over at the start, word 102", once(b"\xdd" * n, right))
        add(f"{count} over at the end, word 102", once(right, b"\xdd" * n))
    add("a zone short", once(right[:at - 4], right[at:]))
    add("a zone over", once(right[:at], u32(0), right[at:]))
    add("a zone short, the offset too", case2(BASE, C, 102, P, ending(102, P, W, C, 24 * P + 4 * W + 32 * C + 4), once(u32(0, 0))))
    for k, part in enumerate(("points", "words", "cells")):
        for by in (-1, 1):
            n = [P, W, C]
            n[k] += by
            add(f"{part} {by:+}, offsets as it says, word 102", case2(BASE, C, 102, P, ending(102, *n)))
    add("9 words fewer for a cell more", case2(BASE, C, 102, P, ending(102, P, W - 9, C + 1)))
    add("9 words more for a cell fewer", case2(BASE, C, 102, P, ending(102, P, W + 9, C - 1)))
    add("cells +1, length too, word 102", case2(BASE, C + 1, 102))
    add("cells -1, length too, word 102", case2(BASE, C - 1, 102))


def second_wrapped():
    """Right in sums of 32 bits, and refused since the sums are exact."""
    for p, w, c in ((2**29, 0, 0), (0, 2**30, 0), (0, 0, 2**30), (0, 0, 2**29), (0, 0, 2**27), (2**29, 2**30, 2**30),
                    (TOP, 6, 0), (0, TOP, 0), (0, 0, TOP)):
        add(f"sums of edition 2 wrap: {p} points, {w} words, {c} cells", once(ending(102, p, w, c)))
    for k, (part, by) in enumerate((("points", 2**29), ("words", 2**30), ("cells", 2**30))):
        n = [P, W, C]
        n[k] += by
        add(f"sums of edition 2 wrap to those of the case: {part} +{by}", case2(BASE, C, 102, P, ending(102, *n)))


def second_limits():
    none = u32(0, 0)
    add("65536 points, word 102", case2([], 0, 102, MOST_POINTS))
    add("65537 points, word 102", case2([], 0, 102, MOST_POINTS + 1))
    add("16384 cells, word 103", case2([(none, MOST_CELLS)], MOST_CELLS))
    add("16385 cells, word 103", case2([(none, MOST_CELLS + 1)], MOST_CELLS + 1))
    add("16384 cells, the last unknown, word 103", case2([(none, MOST_CELLS - 1), (u32(6, 0), 1)], MOST_CELLS))
    add("1048576 words, 1 cell, word 103", case2([(u32(0), MOST_WORDS)], 1))
    add("1048577 words, 1 cell, word 103", case2([(u32(0), MOST_WORDS + 1)], 1))
    add("1048576 words in 16384 cells, word 103", case2([(SIXTY_FOUR, MOST_CELLS)], MOST_CELLS))
    add("65537 points, a zone over", case2([], 0, 102, MOST_POINTS + 1, zone_words=once(u32(0))))
    add("kind 6, word 102", case2(once(TRIANGLE, u32(6)), 2, 102))
    for name, record in KINDS:
        add(f"{name}: 1 word short, word 103", case2(once(record[:-4]), 1))
        add(f"{name}: 1 word left over, word 103", case2(once(record, u32(0)), 1))


# ---- the file of pieces, and the lines

def piece(data, end):
    return u32(len(data), end) + data


def packed():
    out = u32(len(CASES))
    for name, pieces in CASES:
        label = name.encode()
        out += piece(label, len(label)) + u32(len(pieces))
        end = 0
        for data, times in pieces:
            end += len(data) * times
            out += piece(data, end)
    return out


class Reference:
    def __init__(self, refjob, folder):
        self.refjob = refjob
        self.case = os.path.join(folder, "case.bin")
        self.requests = os.path.join(folder, "requests.bin")
        with open(self.requests, "wb") as f:
            f.write(b"\0")

    def refusal(self, words, floats):
        command = [self.refjob, self.case, self.requests, "--until", LANDED, "--nolimit", "--marks", "0",
                   "--words", str(words), "--floats", str(floats)]
        text = subprocess.run(command, check=True, capture_output=True, text=True).stdout.split()
        assert len(text) == 2 and text[0] == "refused", text
        return int(text[1])

    def least(self, refused_at):
        """The smallest area that is not refused by 4."""
        low, high = 0, 2**24
        while low < high:
            middle = (low + high) // 2
            if refused_at(middle) == 4:
                low = middle + 1
            else:
                high = middle
        return low

    def line(self, data):
        with open(self.case, "wb") as f:
            f.write(data)
        full = 2**40
        seen = self.refusal(full, full)
        if seen <= 3:
            return str(seen)
        assert seen in (5, 6), seen
        cells = struct.unpack("<I", data[-20:-16])[0]
        faces, rest = divmod(self.least(lambda n: self.refusal(n, full)) - 96 * cells, 16)
        assert rest == 0
        enough = 12 * faces + 64 * cells
        assert self.refusal(full, enough) == seen
        assert enough == 0 or self.refusal(full, enough - 1) == 4
        return f"0 {faces}"


def main():
    for part in (accepted, trailer_short, trailer_words, trailer_counts, trailer_length, trailer_wrapped,
                 limits, kinds, inner_counts, words_and_cells, second_accepted, second_short, second_words,
                 second_offsets, second_length, second_wrapped, second_limits):
        part()
    os.makedirs(os.path.join(CRATE, "data"), exist_ok=True)
    with open(os.path.join(CRATE, "data", "cases"), "wb") as f:
        f.write(packed())
    print(f"{len(CASES)} cases, {len(packed())} bytes, the longest {max(size(p) for _, p in CASES)}", file=sys.stderr)
    with tempfile.TemporaryDirectory() as folder:
        reference = Reference(sys.argv[1], folder)
        lines = [f"{name}: {reference.line(whole(pieces))}\n" for name, pieces in CASES]
    with open(os.path.join(CRATE, "stdout"), "w") as f:
        f.writelines(lines)
    for r in range(4):
        print(r, sum(1 for x in lines if x.rsplit(": ", 1)[1].split()[0] == str(r)), file=sys.stderr)


main()
