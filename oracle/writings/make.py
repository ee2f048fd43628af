#!/usr/bin/env python3
"""Makes what the program crate test_case_writing runs on, and what it is held to.

    make.py PROGRAMS

writes crates/test_case_writing/data/writings (src/main.rt says in which form) and crates/test_case_writing/stdout.
PROGRAMS is the folder of the reference's programs: `refwrite` and `refconvert`, the reference's case writer and
edition converter, and `gen2`, which makes inputs for them by chance. No answer is computed here: the length or the
refusal of an input is what refwrite or refconvert prints for it, and the hash is of the output that it gives back.

The inputs: those of the writer and those of the converter, made by hand, then generated ones of each. Long parts are
a few bytes that are repeated. At each input made by hand stands the refusal that it is there for, 0 for none; where
the reference says another one, a line on standard error names it. How many inputs have each outcome is printed too.
"""
import collections
import os
import struct
import subprocess
import sys
import tempfile

HERE = os.path.dirname(os.path.abspath(__file__))
CRATE = os.path.join(HERE, "..", "..", "crates", "test_case_writing")
TOP = 2**32 - 1
MOST = 2**64 - 1
MOST_POINTS, MOST_CELLS, MOST_WORDS = 65536, 16384, 1048576
TEXT, LONGS, SHORTS, OUTPUT = 4_194_432, 196_640, 49_184, 1_573_120  # the rooms of the program


def u32(*numbers):
    return struct.pack("<%dI" % len(numbers), *numbers)


def u64(*numbers):
    return struct.pack("<%dQ" % len(numbers), *numbers)


def floats(*numbers):
    return struct.pack("<%dd" % len(numbers), *numbers)


# ---- texts: pieces (bytes, how many times)

def pieces(text):
    return [x for x in ([(text, 1)] if isinstance(text, bytes) else text) if len(x[0]) * x[1] > 0]


def size(text):
    return sum(len(b) * times for b, times in pieces(text))


def whole(text):
    return b"".join(b * times for b, times in pieces(text))


def more(n):
    """How a name says it."""
    return f"{n}-more" if n > 0 else f"{-n}-less"


# ---- parts: the counts are those of the parts, unless others are given

class Parts:
    """What the writer is given, floats and words as texts."""

    def __init__(self, dimension, points, words, velocities, pressures, zones, counts=None):
        self.dimension, self.points, self.words = dimension, points, words
        self.velocities, self.pressures, self.zones = velocities, pressures, zones
        self.counts = counts or (size(points) // 24, size(words) // 4, size(pressures) // 8)

    def with_(self, **changes):
        """The same with other parts or another dimension; `counts` stay unless they are given or given as None."""
        new = Parts.__new__(Parts)
        new.__dict__.update(self.__dict__)
        new.__dict__.update(changes)
        if new.counts is None:
            return Parts(new.dimension, new.points, new.words, new.velocities, new.pressures, new.zones)
        return new

    def counting(self, p=0, w=0, c=0):
        """The same with counts so much higher."""
        return self.with_(counts=tuple((n + k) % 2**64 for n, k in zip(self.counts, (p, w, c))))

    def body(self):
        return [x for part in (self.points, self.words, self.velocities, self.pressures) for x in pieces(part)]

    def need(self, edition):
        return size(self.body()) + 32 + (size(self.zones) + 4 if edition == 2 else 0)


def cells(n, record, zone=u32(0), dimension=2, points=b""):
    """So many cells of one record."""
    return Parts(dimension, points, [(record, n)], [(floats(1, 2, 3), n)], [(floats(4), n)], [(zone, n)])


def records(words, n, dimension=3):
    """The definition words and n cells."""
    return cells(n, b"", dimension=dimension, points=floats(*range(24))).with_(words=words, counts=None)


def polygon(*numbers):
    return u32(0, len(numbers), *numbers)


def polyhedron(*faces):
    return u32(5, len(faces)) + b"".join(u32(len(f), *f) for f in faces)


NONE = u32(0, 0)  # a polygon of no points
TRIANGLE = polygon(0, 1, 2)
TETRAHEDRON = u32(1, 0, 1, 2, 3)
HEXAHEDRON = u32(2, 0, 1, 2, 3, 4, 5, 6, 7)
PRISM = u32(3, 0, 1, 2, 3, 4, 5)
PYRAMID = u32(4, 0, 1, 2, 3, 4)
CUT_CUBE = polyhedron((0, 1, 2), (0, 3, 1), (1, 3, 2), (2, 3, 0))
KINDS = [("polygon", TRIANGLE), ("tetrahedron", TETRAHEDRON), ("hexahedron", HEXAHEDRON),
         ("prism", PRISM), ("pyramid", PYRAMID), ("polyhedron", CUT_CUBE)]
PAIR = Parts(2, floats(0, 0, 0, 1, 0, 0, 2, 0, 0, 0, 1, 0, 1, 1, 0, 2, 1, 0), polygon(0, 1, 4, 3) + polygon(1, 2, 5, 4),
             floats(1, 0, 0, 3, 0, 0), floats(0, -0.5), u32(0, 0))
CUBE = Parts(3, floats(0, 0, 0, 1, 0, 0, 1, 1, 0, 0, 1, 0, 0, 0, 1, 1, 0, 1, 1, 1, 1, 0, 1, 1), HEXAHEDRON, floats(0, 0, 2),
             floats(3), u32(0))
EMPTY = Parts(2, b"", b"", b"", b"", b"")
MANY = Parts(2, [(floats(0.5, -0.25, 0.125), MOST_POINTS)], PAIR.words, PAIR.velocities, PAIR.pressures, PAIR.zones)
OVER = MANY.with_(points=[(floats(0.5, -0.25, 0.125), MOST_POINTS + 1)], counts=None)
ODD = [0x7ff0000000000001, 0x7ff4000000000000, 0x7ff8000000000000, 0x7ff8000000000001, 0x7ff7ffffffffffff, 0x7fffffffffffffff,
       0xfff0000000000001, 0xfff8000000000000, 0xfff800000000beef, 0xffffffffffffffff, 0x8000000000000000, 0x7ff0000000000000,
       0xfff0000000000000, 1, 0x8000000000000001, 0x000fffffffffffff, 0x0010000000000000, 0x7fefffffffffffff, 0xffefffffffffffff]


def strange(m, first):
    """The same with odd floats everywhere, from one of them on."""
    n = [size(x) // 8 for x in (m.points, m.velocities, m.pressures)]
    odd = [u64(*(ODD[(first + sum(n[:i]) + k) % len(ODD)] for k in range(n[i]))) for i in range(3)]
    return m.with_(points=odd[0], velocities=odd[1], pressures=odd[2])


def numbered(m):
    """The same with eight different bytes in each float."""
    n = [size(x) // 8 for x in (m.points, m.velocities, m.pressures)]
    at = lambda i, k: bytes((17 * i + 11 * k + j) % 256 for j in range(8))
    return m.with_(points=b"".join(at(1, k) for k in range(n[0])), velocities=b"".join(at(5, k) for k in range(n[1])),
                   pressures=b"".join(at(9, k) for k in range(n[2])))


# ---- files

def ending(word, p, w, c, at=None, zones_at=None, edition=None):
    """What stands after the zones; `at` and `zones_at` override what the counts say."""
    at = (0, 24 * p, 24 * p + 4 * w, 24 * p + 4 * w + 24 * c) if at is None else at
    edition = edition or (2 if word in (102, 103) else 1)
    zones_at = 24 * p + 4 * w + 32 * c if zones_at is None else zones_at
    return u32(*(x % 2**32 for x in ([zones_at] if edition == 2 else []) + [word, p, w, c, *at]))


def file(m, edition, end=None):
    """The file of parts, or one with another ending."""
    end = ending(m.dimension + 100 * (edition == 2), *m.counts) if end is None else end
    return m.body() + (pieces(m.zones) if edition == 2 else []) + pieces(end)


# ---- the inputs

INPUTS = []


def put(tool, name, wants, room, texts, given):
    INPUTS.append((tool, f"{tool}-{name}", wants, room, texts, given))


def write(name, wants, edition, m, by=0, room=None):
    """The writer's room is what the parts need, and `by` bytes more, or another."""
    room = max(0, m.need(edition) + by) if room is None else room
    parts = (m.points, m.words, m.velocities, m.pressures, m.zones)
    lengths = [size(x) // n for x, n in zip(parts, (8, 4, 8, 8, 4))]
    given = u64(edition, m.dimension, *m.counts, room, *lengths)
    put("write", name, wants, room, [u64(edition, m.dimension, *m.counts), *parts], given)


def convert(name, wants, to, f, n=0, by=0, room=None):
    """The converter's room is what a file of n cells needs, and `by` bytes more, or another."""
    need = size(f) + (4 * n + 4 if to == 2 else -4 * n - 4)
    room = max(0, need + by) if room is None else room
    put("convert", name, wants, room, [u64(to), f], u64(to, room))


def turned(name, wants, edition, m, **options):
    """The file of these parts, converted to the other edition."""
    convert(f"{name}-to-{3 - edition}", wants, 3 - edition, file(m, edition), m.counts[2], **options)


# ---- the writer

def write_accepted():
    for e in (1, 2):
        write(f"pair-{e}", 0, e, PAIR)
        write(f"cube-{e}", 0, e, CUBE)
        write(f"every-byte-{e}", 0, e, numbered(PAIR))
        for kind, record in KINDS:
            write(f"{kind}-{e}", 0, e, records(record, 1))
        every = b"".join(r for _, r in KINDS)
        write(f"every-kind-{e}", 0, e, records(every, 6))
        write(f"point-numbers-past-the-points-{e}", 0, e, records(polygon(2, TOP, 2**31) + u32(1, TOP, TOP, TOP, 0x04030201), 2))
        write(f"nothing-{e}", 0, e, EMPTY)
        write(f"nothing-3d-{e}", 0, e, EMPTY.with_(dimension=3))
        write(f"points-alone-{e}", 0, e, EMPTY.with_(points=PAIR.points, counts=None))
        write(f"cells-without-points-{e}", 0, e, PAIR.with_(points=b"", counts=None))
        for first in range(0, len(ODD), 5):
            write(f"odd-floats-{first}-{e}", 0, e, strange(PAIR, first))
    write("zones-2", 0, 2, PAIR.with_(zones=u32(7, 255)))
    write("zones-like-records-2", 0, 2, PAIR.with_(zones=u32(0, 3)))


def write_dimensions():
    for d in (0, 1, 2, 3, 4, 5, 100, 101, 102, 103, 104, 258, 2**32, 2**32 + 2, 2**32 + 3, 2**32 + 102, 2**63 + 2, MOST):
        for e in (1, 2):
            write(f"dimension-{d}-edition-{e}", int(d not in (2, 3)), e, PAIR.with_(dimension=d))


def write_editions():
    for e in (0, 1, 2, 3, 4, 100, 101, 102, 257, 258, 2**32, 2**32 + 1, 2**32 + 2, 2**63 + 1, MOST):
        write(f"edition-{e}", int(e not in (1, 2)), e, PAIR, room=400)


def write_lengths():
    """Parts and counts that are not of each other."""
    for e in (1, 2):
        for part, unit in (("points", 8), ("words", 4), ("velocities", 8), ("pressures", 8), ("zones", 4)):
            given = PAIR.__dict__[part]
            for n in (1, 2, 3):
                if part in ("points", "velocities") or n == 1:
                    write(f"{part}-{n}-short-{e}", 1, e, PAIR.with_(**{part: given[:-unit * n]}))
                    write(f"{part}-{n}-over-{e}", 1, e, PAIR.with_(**{part: given + b"\0" * unit * n}))
            write(f"no-{part}-{e}", 1, e, PAIR.with_(**{part: b""}))
        for k, count in enumerate(("p", "w", "c")):
            for by in (-1, 1, 2**31, 2**32, 2**61, 2**62, 2**63):
                write(f"count-{count}-{more(by)}-{e}", 1, e, PAIR.counting(**{count: by}))
            write(f"count-{count}-0-{e}", 1, e, PAIR.counting(**{count: -PAIR.counts[k]}))
        one = records(TRIANGLE, 1)
        write(f"velocities-of-another-cell-count-{e}", 1, e, one.with_(velocities=floats(*range(6))))
        write(f"a-velocity-for-a-point-{e}", 1, e, PAIR.with_(points=PAIR.points[:-24], velocities=PAIR.velocities + floats(1, 2, 3)))
        write(f"pressures-without-velocities-{e}", 1, e, EMPTY.with_(pressures=floats(1), counts=(0, 0, 0)))
        write(f"zones-without-cells-{e}", 1, e, EMPTY.with_(zones=u32(0), counts=(0, 0, 0)))


def write_wrapped():
    """Lengths that are right in products of 64 or 32 bits."""
    third = -(-2**64 // 3)  # three times it is 2^64 + 2
    for e in (1, 2):
        write(f"three-p-wraps-to-2-{e}", 1, e, EMPTY.with_(points=floats(1, 2), counts=(third, 0, 0)))
        write(f"three-p-wraps-to-1-{e}", 1, e, EMPTY.with_(points=floats(1), counts=(2**64 * 2 // 3 + 1, 0, 0)))
        write(f"three-p-is-2-64-less-1-{e}", 1, e, EMPTY.with_(points=b"", counts=(2**64 // 3, 0, 0)))
        write(f"three-p-wraps-to-5-{e}", 1, e, EMPTY.with_(points=floats(1, 2, 3, 4, 5), counts=(third + 1, 0, 0)))
        write(f"three-c-wraps-to-2-{e}", 1, e, EMPTY.with_(velocities=floats(1, 2), counts=(0, 0, third)))
        write(f"three-c-wraps-to-1-{e}", 1, e, EMPTY.with_(velocities=floats(1), counts=(0, 0, 2**64 * 2 // 3 + 1)))
        for n in (2**61, 2**62, 2**63, MOST):
            write(f"no-points-{n}-said-{e}", 1, e, EMPTY.with_(counts=(n, 0, 0)))
            write(f"no-words-{n}-said-{e}", 1, e, EMPTY.with_(counts=(0, n, 0)))
            write(f"no-cells-{n}-said-{e}", 1, e, EMPTY.with_(counts=(0, 0, n)))


def write_limits():
    for e in (1, 2):
        write(f"65536-points-{e}", 0, e, MANY)
        write(f"65537-points-{e}", 2, e, OVER, room=500)
        write(f"16384-cells-{e}", 0, e, cells(MOST_CELLS, NONE))
        write(f"16385-cells-{e}", 2, e, cells(MOST_CELLS + 1, NONE), room=500)
        write(f"65537-points-alone-{e}", 2, e, EMPTY.with_(points=OVER.points, counts=None), room=500)
        unknown, over = [(NONE, MOST_CELLS - 1), (u32(6, 0), 1)], [(NONE, MOST_CELLS), (u32(0), 1)]
        write(f"16384-cells-last-unknown-{e}", 3, e, cells(MOST_CELLS, NONE).with_(words=unknown), room=500)
        write(f"16384-cells-one-word-over-{e}", 3, e, cells(MOST_CELLS, NONE).with_(words=over, counts=None), room=500)
    write("65537-points-room-kept", 2, 1, OVER, room=OUTPUT)
    last = [(u32(0), MOST_CELLS - 1), (u32(255), 1)]
    write("16384-zones-last-255-2", 0, 2, cells(MOST_CELLS, NONE).with_(zones=last))
    write("16384-zones-last-255-1", 46, 1, cells(MOST_CELLS, NONE).with_(zones=last), room=500)
    write("16384-zones-last-256-2", 45, 2, cells(MOST_CELLS, NONE).with_(zones=[(u32(0), MOST_CELLS - 1), (u32(256), 1)]), room=500)


def bad_records():
    """Name, refusal, words, cells."""
    face = lambda n: u32(n, *range(n))
    for kind in (6, 7, 255, 256, 2**16, 2**31, TOP):
        yield f"kind-{kind}", 3, u32(kind, 0, 1, 2, 3), 1
    for name, record in KINDS:
        yield f"{name}-one-word-short", 3, record[:-4], 1
        yield f"{name}-one-word-over", 3, record + u32(0), 1
        yield f"{name}-twice-for-1-cell", 3, record * 2, 1
        yield f"{name}-twice-for-2-cells", 0, record * 2, 2
        yield f"{name}-twice-for-3-cells", 3, record * 2, 3
    for n in (0, 1, 24, 25, 26):
        yield f"polygon-of-{n}", 3 * (n > 24), u32(0) + face(n), 1
    for n in (0, 1, 24, 25, 26):
        yield f"polyhedron-of-{n}-faces", 3 * (n > 24), u32(5, n) + face(3) * n, 1
    for n in (0, 1, 8, 9, 10):
        yield f"face-of-{n}", 3 * (n > 8), u32(5, 1) + face(n), 1
    yield "24-faces-of-8", 0, u32(5, 24) + face(8) * 24, 1
    yield "24-faces-the-last-of-9", 3, u32(5, 24) + face(8) * 23 + face(9), 1
    yield "25-faces-of-8", 3, u32(5, 25) + face(8) * 25, 1
    for name, head in (("polygon", u32(0)), ("polyhedron", u32(5)), ("face", u32(5, 1))):
        for n in (2**31, TOP):
            yield f"{name}-of-{n}", 3, head + u32(n), 1
    yield "no-words-for-1-cell", 3, b"", 1
    yield "a-word-for-no-cells", 3, u32(0), 0
    yield "a-record-for-no-cells", 3, TRIANGLE, 0
    yield "unknown-first-of-2", 3, u32(6) + TRIANGLE, 2
    yield "unknown-last-of-2", 3, TRIANGLE + u32(6), 2


def write_records():
    for k, (name, wants, words, n) in enumerate(bad_records()):
        write(f"{name}-{1 + k % 2}", wants, 1 + k % 2, records(words, n))
    for e in (1, 2):
        write(f"unknown-kind-{e}", 3, e, records(u32(6), 1))
        write(f"word-left-over-{e}", 3, e, records(TRIANGLE + u32(0), 1))


def write_zones():
    for a, b in ((0, 0), (0, 1), (1, 0), (255, 0), (0, 255), (255, 255), (256, 0), (0, 256), (1, 256), (256, 1), (2**16, 0), (2**24, 0),
                 (2**31, 0), (TOP, 0), (0, TOP), (TOP, TOP)):
        for e in (1, 2):
            wants = 45 if max(a, b) > 255 else 46 if e == 1 and max(a, b) else 0
            write(f"zones-{a}-{b}-edition-{e}", wants, e, PAIR.with_(zones=u32(a, b)))


def write_orders():
    """Two faults at once, and more and more of them: the number that comes first."""
    faults = {1: dict(dimension=4), 2: dict(points=OVER.points), 3: dict(words=u32(6) + PAIR.words[4:]), 45: dict(zones=u32(1, 256)),
              46: dict(zones=u32(1, 0))}
    for e in (1, 2):
        numbers = [n for n in (1, 2, 3, 45, 46, 47) if (e, n) != (2, 46)]
        for i, first in enumerate(numbers):
            for second in numbers[i + 1:]:
                both = {**faults.get(second, {}), **faults[first]}
                p, room = MOST_POINTS + 1 if 2 in (first, second) else 6, 200 if second == 47 else 400
                write(f"{first}-before-{second}-edition-{e}", first, e, PAIR.with_(**both, counts=(p, 12, 2)), room=room)
            rest = {k: v for n in reversed(numbers[i:]) for k, v in faults.get(n, {}).items()}
            p = MOST_POINTS + 1 if first <= 2 else 6
            write(f"{first}-before-all-that-follow-edition-{e}", first, e, PAIR.with_(**rest, counts=(p, 12, 2)), room=0)
        for name, changes in (("length", dict(pressures=floats(1))), ("zone-count", dict(zones=u32(256)))):
            for second in (2, 3, 45, 47):
                both = {**faults.get(second, {}), **changes}
                p, room = MOST_POINTS + 1 if second == 2 else 6, 200 if second == 47 else 400
                write(f"{name}-before-{second}-edition-{e}", 1, e, PAIR.with_(**both, counts=(p, 12, 2)), room=room)
    for second in (2, 3, 45, 47):
        p, room = MOST_POINTS + 1 if second == 2 else 6, 200 if second == 47 else 400
        write(f"edition-3-before-{second}", 1, 3, PAIR.with_(**faults.get(second, {}), counts=(p, 12, 2)), room=room)


def write_rooms():
    for e in (1, 2):
        for by in (-1, 1, 7, 64):
            write(f"pair-room-{more(by)}-{e}", 47 * (by < 0), e, PAIR.with_(zones=u32(0, 9 * (e - 1))), by=by)
            write(f"nothing-room-{more(by)}-{e}", 47 * (by < 0), e, EMPTY, by=by)
        for room in (0, 1, 31, 32, 255, 256):
            write(f"pair-room-{room}-{e}", 47, e, PAIR, room=room)
        write(f"nothing-room-0-{e}", 47, e, EMPTY, room=0)
        write(f"65536-points-one-byte-short-{e}", 47, e, MANY, by=-1)
    write("pair-room-of-the-other-edition-2", 47, 2, PAIR, room=PAIR.need(1))
    write("pair-room-of-the-other-edition-1", 0, 1, PAIR, room=PAIR.need(2))
    write("nothing-room-of-the-other-edition-2", 47, 2, EMPTY, room=32)


# ---- the converter

def convert_accepted():
    for e in (1, 2):
        turned("pair", 0, e, PAIR)
        turned("cube", 0, e, CUBE)
        turned("every-byte", 0, e, numbered(PAIR))
        turned("every-kind", 0, e, records(b"".join(r for _, r in KINDS), 6))
        turned("nothing", 0, e, EMPTY)
        turned("nothing-3d", 0, e, EMPTY.with_(dimension=3))
        turned("points-alone", 0, e, EMPTY.with_(points=PAIR.points, counts=None))
        turned("cells-without-points", 0, e, PAIR.with_(points=b"", counts=None))
        for first in range(0, len(ODD), 5):
            turned(f"odd-floats-{first}", 0, e, strange(PAIR, first))


def convert_editions():
    zoned = PAIR.with_(zones=u32(7, 255))
    for e, m in ((1, PAIR), (2, PAIR), (2, zoned)):
        zones = "-zoned" * (m is zoned)
        for to in (0, 3, 4, 102, 256 + 3 - e, 2**32, 2**32 + 1, 2**32 + 2, 2**63 + 3 - e, MOST):
            convert(f"edition-{e}{zones}-to-{to}", 1, to, file(m, e), room=400)
        convert(f"edition-{e}{zones}-to-{e}", 1, e, file(m, e), room=400)
    for e in (1, 2):
        convert(f"same-edition-{e}-nothing", 1, e, file(EMPTY, e), room=400)
        convert(f"same-edition-{e}-over-the-limit", 1, e, file(OVER, e), room=400)
        convert(f"same-edition-{e}-unknown-kind", 1, e, file(records(u32(6), 1), e), room=400)
        convert(f"same-edition-{e}-room-0", 1, e, file(PAIR, e), room=0)
    convert("same-edition-2-zone-256", 1, 2, file(PAIR.with_(zones=u32(256, 0)), 2), room=400)


def convert_short():
    """Files that are too short for a trailer, or hardly long enough."""
    first, second = whole(file(EMPTY, 1)), whole(file(EMPTY, 2))
    for to in (1, 2):
        convert(f"0-bytes-to-{to}", 1, to, b"", room=100)
        for n in (1, 4, 31):
            convert(f"{n}-bytes-to-{to}", 1, to, first[-n:], room=100)
        convert(f"32-bytes-word-2-to-{to}", 1 * (to == 1), to, first, room=100)
        for n in (31, 32, 33, 35):
            convert(f"{n}-bytes-word-102-to-{to}", 1, to, second[-n:], room=100)
        convert(f"36-bytes-word-102-to-{to}", 1 * (to == 2), to, second, room=100)
        for n, data in ((33, first), (35, b"\0\0" + first), (36, b"\0\0\0" + first)):
            convert(f"{n}-bytes-word-2-to-{to}", 1, to, b"\0" + data, room=100)
        convert(f"37-bytes-word-102-to-{to}", 1, to, b"\0" + second, room=100)
        for n in (35, 36):
            convert(f"{n}-zeros-to-{to}", 1, to, bytes(n), room=100)


def convert_words():
    """Dimension words, and parts of both editions in each other's place."""
    p, w, c = PAIR.counts
    for word in (0, 1, 2, 3, 4, 100, 101, 102, 103, 104, 258, 358, 2**16 + 2, 2**24 + 102, 2**31 + 3, TOP):
        for e in (1, 2):
            right = word in ((2, 3) if e == 1 else (102, 103))
            f = file(PAIR, e, ending(word, p, w, c, edition=e))
            convert(f"word-{word}-parts-of-{e}-to-{3 - e}", 1 - right, 3 - e, f, c)
            if word > 3:
                convert(f"word-{word}-parts-of-{e}-to-{e}", 1, e, f, room=400)
    body = whole(PAIR.body())
    for to in (1, 2):
        convert(f"zones-without-their-offset-to-{to}", 1, to, body + u32(0, 0) + ending(102, p, w, c, edition=1), room=400)
        convert(f"offset-without-zones-to-{to}", 1, to, body + ending(102, p, w, c), room=400)
        convert(f"offset-before-the-zones-to-{to}", 1, to, body + u32(len(body), 0, 0) + ending(102, p, w, c, edition=1), room=400)
        convert(f"offset-behind-the-trailer-to-{to}", 1, to, body + u32(0, 0) + ending(102, p, w, c, edition=1) + u32(len(body)), room=400)


def convert_offsets():
    p, w, c = PAIR.counts
    ends = [0, 24 * p, 24 * p + 4 * w, 24 * p + 4 * w + 24 * c]
    for e in (1, 2):
        for k, part in enumerate(("points", "words", "velocities", "pressures")):
            for by in (-4, 1, 4, 2**31):
                at = [*ends[:k], ends[k] + by, *ends[k + 1:]]
                convert(f"offset-of-{part}-{more(by)}-to-{3 - e}", 1, 3 - e, file(PAIR, e, ending(2 + 100 * (e - 1), p, w, c, at=at)), c)
        for by in (-4, 4, 36):
            end = ending(2 + 100 * (e - 1), p, w, c, at=[x + by for x in ends], zones_at=24 * p + 4 * w + 32 * c + by)
            convert(f"every-offset-{more(by)}-to-{3 - e}", 1, 3 - e, file(PAIR, e, end), c)
    for by in (-32 * c, -8 * c, -4, -1, 1, 4, 4 * c, 4 * c + 4, 2**31):
        end = ending(102, p, w, c, zones_at=24 * p + 4 * w + 32 * c + by)
        convert(f"offset-of-zones-{more(by)}-to-1", 1, 1, file(PAIR, 2, end), c)
    convert("offset-of-zones-0-to-1", 1, 1, file(PAIR, 2, ending(102, p, w, c, zones_at=0)), c)


def convert_lengths():
    for e in (1, 2):
        right = whole(file(PAIR, e))
        for n in (1, 4, 8, 36):
            convert(f"{n}-short-at-the-start-to-{3 - e}", 1, 3 - e, right[n:], room=400)
            convert(f"{n}-short-at-the-end-to-{3 - e}", 1, 3 - e, right[:-n], room=400)
            convert(f"{n}-over-at-the-start-to-{3 - e}", 1, 3 - e, b"\xdd" * n + right, room=400)
            convert(f"{n}-over-at-the-end-to-{3 - e}", 1, 3 - e, right + b"\xdd" * n, room=400)
        word = 102 if e == 2 else 2
        for k, part in enumerate(("points", "words", "cells")):
            for by in (-1, 1, 2**30, 2**31):
                n = [*PAIR.counts]
                n[k] += by
                convert(f"{part}-{more(by)}-to-{3 - e}", 1, 3 - e, file(PAIR, e, ending(word, *n)), room=400)
        for n in ((2**29, 0, 0), (0, 2**30, 0), (0, 0, 2**27), (0, 0, 2**30), (TOP, 6, 0), (2**29, 2**30, 2**29)):
            convert(f"sums-wrap-{n[0]}-{n[1]}-{n[2]}-to-{3 - e}", 1, 3 - e, ending(word, *n), room=400)


def convert_limits():
    for e in (1, 2):
        turned("65536-points", 0, e, MANY)
        turned("65536-points-one-byte-short", 47, e, MANY, by=-1)
        turned("65537-points", 2, e, OVER, room=500)
        turned("16384-cells", 0, e, cells(MOST_CELLS, NONE))
        turned("16385-cells", 2, e, cells(MOST_CELLS + 1, NONE), room=500)
        turned("1048576-words", 3, e, records([(u32(0), MOST_WORDS)], 1).with_(points=b"", counts=None), room=500)
        turned("1048577-words", 2, e, records([(u32(0), MOST_WORDS + 1)], 1).with_(points=b"", counts=None), room=500)
    last = cells(MOST_CELLS, NONE).with_(zones=[(u32(0), MOST_CELLS - 1), (u32(1), 1)])
    turned("16384-zones-last-1", 46, 2, last, room=OUTPUT)


def convert_records():
    for k, (name, wants, words, n) in enumerate(bad_records()):
        turned(name, wants, 1 + k % 2, records(words, n))
    for e in (1, 2):
        turned("unknown-kind", 3, e, records(u32(6), 1))
        turned("word-left-over", 3, e, records(TRIANGLE + u32(0), 1))


def convert_zones():
    for a, b in ((0, 0), (0, 1), (1, 0), (255, 0), (0, 255), (255, 255), (256, 0), (0, 256), (1, 256), (256, 1), (2**16, 0), (2**24, 0),
                 (2**31, 0), (TOP, 0), (0, TOP), (TOP, TOP)):
        turned(f"zones-{a}-{b}", 45 if max(a, b) > 255 else 46 * (max(a, b) > 0), 2, PAIR.with_(zones=u32(a, b)))


def convert_orders():
    faults = {2: dict(points=OVER.points), 3: dict(words=u32(6) + PAIR.words[4:]), 45: dict(zones=u32(1, 256)), 46: dict(zones=u32(1, 0))}
    for e in (1, 2):
        numbers = [n for n in (1, 2, 3, 45, 46, 47) if e == 2 or n not in (45, 46)]
        for i, first in enumerate(numbers):
            for second in [*numbers[i + 1:], 0]:
                these = numbers[i:] if second == 0 else [first, second]
                m = PAIR.with_(**{k: v for n in reversed(these) for k, v in faults.get(n, {}).items()}, counts=None)
                word = 2 + 100 * (e - 1)
                end = ending(word, *m.counts, at=(4, 0, 0, 0)) if 1 in these else None
                rest = second or "all-that-follow"
                convert(f"{first}-before-{rest}-to-{3 - e}", first, 3 - e, file(m, e, end), room=200 if 47 in these else 400)


def convert_rooms():
    for e in (1, 2):
        for by in (-1, 1, 7, 64):
            turned(f"pair-room-{more(by)}", 47 * (by < 0), e, PAIR, by=by)
            turned(f"nothing-room-{more(by)}", 47 * (by < 0), e, EMPTY, by=by)
        for room in (0, 1, 31, 32, 255, 256):
            turned(f"pair-room-{room}", 47, e, PAIR, room=room)
        turned("nothing-room-0", 47, e, EMPTY, room=0)
    turned("pair-room-of-its-own-edition", 47, 1, PAIR, room=PAIR.need(1))
    turned("pair-room-of-its-own-edition", 0, 2, PAIR, room=PAIR.need(2))


# ---- generated inputs

def generated(tool, seed, data):
    """An input of the reference's own form, taken apart."""
    if tool == "convert":
        to, room = struct.unpack("<2Q", data[:16])
        return tool, f"convert-generated-{seed}", None, room, [u64(to), data[16:]], data[:16]
    edition, dimension, p, w, c, room, *lengths = struct.unpack("<11Q", data[:88])
    texts, at = [u64(edition, dimension, p, w, c)], 88
    for n, unit in zip(lengths, (8, 4, 8, 8, 4)):
        texts.append(data[at:at + n * unit])
        at += n * unit
    return tool, f"write-generated-{seed}", None, room, texts, data[:88]


def some(gen, folder, tool, wanted, longest=3000, seeds=400):
    """So many small inputs, at most a sixth of them with one refusal and a quarter done."""
    subprocess.run([gen, "--tools", "1", str(seeds), folder], check=True)
    seen, taken = collections.Counter(), []
    for seed in range(1, seeds + 1):
        read = lambda kind: open(os.path.join(folder, str(seed), f"{tool}.{kind}"), "rb").read()
        data, line = read("bin"), read("txt").split()
        outcome = line[0] + line[1] * (line[0] == b"refused")
        if len(data) <= longest and len(taken) < wanted and seen[outcome] < wanted / (4 if outcome == b"done" else 6):
            seen[outcome] += 1
            taken.append(generated(tool, seed, data))
    assert len(taken) == wanted
    return taken


# ---- what the reference says, and the files

def hashed(data):
    h = 0xCBF29CE484222325
    for b in data:
        h = (h ^ b) * 0x100000001B3 % 2**64
    return h


HASHES = {}


def digest(data):
    if data not in HASHES:
        HASHES[data] = "%016x" % hashed(data)
    return HASHES[data]


def answer(programs, folder, tool, room, texts, given):
    """The line of the reference and the hash of its output."""
    source, target = (os.path.join(folder, x) for x in ("input", "output"))
    with open(source, "wb") as f:
        f.write(given)
        f.writelines(whole(x) for x in texts[1:])
    line = subprocess.run([os.path.join(programs, "ref" + tool), source, target], check=True, capture_output=True, text=True).stdout
    with open(target, "rb") as f:
        out = f.read()
    assert len(out) == room
    return line.strip(), digest(out)


def packed(text):
    text = pieces(text)
    out, end = u32(len(text)), 0
    for data, times in text:
        end += len(data) * times
        out += u32(len(data), end) + data
    return out


def fits(tool, room, texts):
    """Whether the program has room for it."""
    n = [size(x) for x in texts]
    if max(n) > TEXT or room > OUTPUT:
        return False
    return tool == "convert" or (n[1] + n[3] + n[4] <= 8 * LONGS and n[2] + n[5] <= 4 * SHORTS)


def main(programs):
    for part in (write_accepted, write_dimensions, write_editions, write_lengths, write_wrapped, write_limits, write_records, write_zones,
                 write_orders, write_rooms, convert_accepted, convert_editions, convert_short, convert_words, convert_offsets,
                 convert_lengths, convert_limits, convert_records, convert_zones, convert_orders, convert_rooms):
        part()
    with tempfile.TemporaryDirectory() as folder:
        for tool in ("write", "convert"):
            INPUTS.extend(some(os.path.join(programs, "gen2"), os.path.join(folder, "gen"), tool, 40))
        names = collections.Counter(x[1] for x in INPUTS)
        assert len(names) == len(INPUTS), names.most_common(3)
        data, due, shows = u32(len(INPUTS)), "", collections.Counter()
        for tool, name, wants, room, texts, given in INPUTS:
            assert fits(tool, room, texts), name
            line, digits = answer(programs, folder, tool, room, texts, given)
            if wants is not None and line.split()[:2] != (["refused", str(wants)] if wants else ["done", line.split()[1]]):
                print("not as meant:", name, wants, line, file=sys.stderr)
            data += u32(len(name)) + name.encode() + u32(int(tool == "convert"), room) + b"".join(map(packed, texts))
            due += f"{name}: {line} {digits}\n"
            shows[f"{tool}: {line if line.startswith('refused') else 'done'}"] += 1
    os.makedirs(os.path.join(CRATE, "data"), exist_ok=True)
    with open(os.path.join(CRATE, "data", "writings"), "wb") as f:
        f.write(data)
    with open(os.path.join(CRATE, "stdout"), "w") as f:
        f.write(due)
    print(f"{len(INPUTS)} inputs, {len(data)} bytes, {len(due)} bytes due", file=sys.stderr)
    for x in sorted(shows):
        print(f"{x}: {shows[x]}", file=sys.stderr)


main(*sys.argv[1:])
