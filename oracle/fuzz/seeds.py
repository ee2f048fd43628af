#!/usr/bin/env python3
"""seeds.py OUT FOLDER..: one fuzz input in OUT for each FOLDER with a case.bin and a requests.bin (harness.c has the layout), and for
every fourth one more for the converter and one for the writer."""
import os
import struct
import sys

MOST = 60000
LENGTHS = [(0, 0, 0, 191), (0, 0, 0, 191), (0, 0, 0, 100), (1, 2, 3, 70), (0, 0, 0, 8), (0, 0, 0, 0), (80, 80, 80, 191), (32, 0, 0, 191),
           (0, 32, 0, 191), (0, 0, 32, 191), (0, 0, 0, 32)]
CONVERTER, WRITER = 16, 17
# what is added to edition, dimension and counts, and by how much the five parts are longer (6: one shorter)
CHANGES = [{}, {0: 1}, {1: 1}, {2: 1}, {3: 1}, {4: 1}, {5: 1}, {6: 6}, {7: 3}, {8: 1}, {9: 6}, {0: 1 << 32}, {1: 100},
           {2: 0xaaaaaaaaaaaaaaab, 5: 1}, {4: 0x5555555555555556, 7: 2}, {2: 1, 5: 3}, {3: 1, 6: 1}, {4: 1, 7: 3, 8: 1, 9: 1}]


def parts_of(case):
    """P, W, C, the dimension and the edition of a case whose trailer fits its length; else None."""
    if len(case) < 32:
        return None
    word, p, w, c, a, b, d, e = struct.unpack('<8I', case[-32:])
    dimension, edition = (word - 100, 2) if word in (102, 103) else (word, 1)
    fits = (a, b, d, e) == (0, 24 * p, 24 * p + 4 * w, 24 * p + 4 * w + 24 * c) and dimension in (2, 3)
    end = e + 8 * c
    if edition == 2:
        fits = fits and len(case) == end + 4 * c + 36 and struct.unpack('<I', case[-36:-32])[0] == end
    else:
        fits = fits and len(case) == end + 32
    return (p, w, c, dimension, edition) if fits else None


def function_of(requests, i):
    """Of the request alone, of the needs or of the job."""
    code = requests[0] if len(requests) >= 128 and 1 <= requests[0] <= 14 else 0
    return code if i % 4 == 1 else 15 if i % 32 == 2 else 0


def packed(case, requests, i, function):
    """The fuzz input of a pair; i varies the lengths and the places of the buffers."""
    parts = parts_of(case)
    p, w, c, dimension, edition = parts if parts else (0, 0, 0, 2, 1)
    form = (0 if parts else 1) | (dimension - 2) << 1 | (4 if len(requests) % 128 else 0) | (8 if i % 8 == 3 else 0)
    form |= 16 if edition == 2 else 0
    pads = (0, 0) if i % 3 == 0 else (i * 37 % 256, i * 101 % 256)
    header = struct.pack('<8B5IHH', function, form, *LENGTHS[i % len(LENGTHS)], *pads, p, w, c, len(case), i, 0, 0)
    return header + (case[:-32 - 4 * (edition - 1)] if parts else case) + requests


def for_files(case, i):
    """The case, at times with zones 0 and with a NaN for its first float."""
    parts = parts_of(case)
    if parts and parts[4] == 2 and i % 3 == 0:
        zones = len(case) - 36 - 4 * parts[2]
        case = case[:zones] + bytes(4 * parts[2]) + case[-36:]
    if parts and parts[0] and i % 5 == 0:
        case = struct.pack('<Q', 0x7ff0000000000001) + case[8:]
    return case


def numbers(i):
    """The changes of what the writer is given."""
    change = CHANGES[i % len(CHANGES)]
    return struct.pack('<10Q', *(change.get(k, 0) for k in range(10)))


def inputs(case, requests, i):
    yield '', packed(case, requests, i, function_of(requests, i))
    if i % 4 == 0:
        turn = i // 4
        case = for_files(case, turn)
        yield 'c', packed(case, b'', turn, CONVERTER)
        yield 'w', packed(case, numbers(turn), turn, WRITER)


def main(out, folders):
    os.makedirs(out, exist_ok=True)
    count = 0
    for i, folder in enumerate(folders):
        with open(os.path.join(folder, 'case.bin'), 'rb') as f:
            case = f.read()
        with open(os.path.join(folder, 'requests.bin'), 'rb') as f:
            requests = f.read()
        if len(case) + len(requests) <= MOST:
            for end, content in inputs(case, requests, i):
                count += 1
                with open(os.path.join(out, 'seed%06d%s' % (i, end)), 'wb') as f:
                    f.write(content)
    print(count, 'seeds')


main(sys.argv[1], sys.argv[2:])
