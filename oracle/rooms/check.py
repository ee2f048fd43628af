#!/usr/bin/env python3
"""Holds what crates/test_rooms expects of each room to what a reference job around FLURSYS prints.

    check.py REFJOB [OPTION..]      the reference of 02: check.py refjob2 --until 5

A room is a file of crates/test_rooms/specs with `file`, `requests` and `expected`. Ends with 1 where one differs.
"""
import glob
import os
import re
import subprocess
import sys
import tempfile

CRATES = os.path.join(os.path.dirname(os.path.abspath(__file__)), "..", "..", "crates")
SPECS = os.path.join(CRATES, "test_rooms", "specs")
NUMBERS = os.path.join(CRATES, "refusal", "specs", "Number.antt")


def numbers(text):
    return [int(x, 0) for x in text.replace("∷", " ").replace("[]", " ").split()]


def definition(source, name):
    return re.search(r"^%s =\s(.*?)(?=\n\n)" % name, source, re.S | re.M).group(1)


def written(text):
    return b"".join(
        n.to_bytes(int(width), "little") for width, l in re.findall(r"bytes (\d) \(([^()]*)\)", text) for n in numbers(l)
    )


def number(refusal):
    """The number of a refusal, by its name."""
    with open(NUMBERS) as f:
        return re.search(r"^number %s = (\d+)$" % refusal, f.read(), re.M).group(1)


def printed(expected):
    """The lines that a job with this outcome prints."""
    refused = re.fullmatch(r"Err (\w+)", expected.strip())
    if refused:
        return ["refused " + number(refused.group(1))]
    part = lambda name: re.search(r"%s = ([^;]*);" % name, expected).group(1)
    words, lines = numbers(part("words")), []
    while words:
        n = words[1]
        lines.append(" ".join(["%d" % words[0], "%d" % n] + ["%016x" % w for w in words[2 : 2 + n]]))
        words = words[2 + n :]
    return lines + [" ".join(["read"] + ["%d" % c for c in numbers(part("cells"))])]


def main(refjob, *options):
    differ = rooms = 0
    with tempfile.TemporaryDirectory() as folder:
        case, requests = os.path.join(folder, "case.bin"), os.path.join(folder, "requests.bin")
        for path in sorted(glob.glob(os.path.join(SPECS, "*.antt"))):
            with open(path) as f:
                source = f.read()
            if "pub expected :" not in source:
                continue
            with open(case, "wb") as f:
                f.write(written(definition(source, "file")))
            with open(requests, "wb") as f:
                f.write(written(definition(source, "requests")))
            lent = re.search(r"lends (\d+) (\d+) (\d+) (\d+)", source).groups()
            command = [refjob, case, requests, *options]
            for name, n in zip(("--words", "--floats", "--marks", "--answers"), lent):
                command += [name, n]
            out = subprocess.run(command, check=True, capture_output=True, text=True).stdout.splitlines()
            rooms += 1
            if out != printed(definition(source, "expected")):
                differ += 1
                print("differs: " + os.path.basename(path))
    print("%d rooms, %d differ" % (rooms, differ))
    return 1 if differ or not rooms else 0


if __name__ == "__main__":
    sys.exit(main(*sys.argv[1:]))
