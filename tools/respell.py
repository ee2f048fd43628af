#!/usr/bin/env python3
"""Brings the names of this repository's own definitions and lemmas to the spelling of today's Rattle: words in snake case.

usage: tools/respell.py [FOLDER]     FOLDER holds crates/; without it this repository

It runs once, right after the kit's port.py, and a second run changes nothing. It does four things, in the files of specs/ and
proofs/, in the clauses of src/, in must-fail/ and in the pages:
- a name that specs/ or proofs/ declares in camel case, as `faceAt`, is written in snake case, `face_at`, also as a part of a
  lemma's name, as `face_at-end`; `centre2D` is `centre_2d`, and `getD` in a name is `get_or`, as the library has it now;
- the names of OWN below, which would be the same as another's, get the dash back that port.py took;
- specs/Contracts.antt is specs/Ensures.antt, since Rattle makes a module `specs.contracts` itself;
- a name that port.py took to snake case is written so in must-fail/ and in the pages too, where port.py changes nothing.
"""
import re
import subprocess
import sys
from pathlib import Path

root = Path(sys.argv[1]) if len(sys.argv) > 1 else Path(__file__).resolve().parents[1]
DECLARED = re.compile(r"^\s*(?:(?:abbrev|unfoldable)\s+)?(?:pub\s+)?([^\s:(){}=.,]+) :(?: |$)")
CAMEL = re.compile(r"(?<![A-Za-z0-9_])[a-z][a-z0-9]*(?:[A-Z][a-z0-9]*)+(?![A-Za-z0-9_])")
# Lemmas whose name would be a definition's too, by the file that declares them or, where that is None, everywhere.
OWN = [("cell_in", "cell-in", None), ("cell_out", "cell-out", None), ("counts_of", "counts-of", "crates/job_reads/proofs/Laws.antt")]
# What port.py took to snake case in specs/ and proofs/, for the files that it does not turn.
TURNED = """allBytes allOf answerOf anyOf boundsOf bytesOf cellAt cellOf cellsIn cellsOf codeOf countOf crossingOf cutOf endIn endOf
fieldOf firstOf floatAt halfOf hasKey headOf homeOf indexAt jobOf keyAt leBytes lengthOf numberOf pieceOf placeIn placesOf readAll
readOf sideIn sizeOf storedAt tableOf upTo valuesOf withSign wordsIn wordsOf""".split()


def snake(name):
    name = name.replace("getD", "get_or")
    name = re.sub(r"([23])D\b", r"_\1d", name)
    return re.sub(r"(?<=[a-z0-9])([A-Z])", lambda m: "_" + m[1].lower(), name)


def files(*patterns):
    return sorted({p for pattern in patterns for p in root.glob(pattern) if "/out/" not in str(p)})


antt = files("crates/*/specs/**/*.antt", "crates/*/proofs/**/*.antt")
names = {m[1] for p in antt for line in p.read_text().splitlines() if (m := DECLARED.match(line))}
words = {w for name in names for w in CAMEL.findall(name)}
fixed = {w: snake(w) for w in words}
late = fixed | {w: snake(w) for w in TURNED}
taken = set(fixed.values())
assert len(taken) == len(fixed), "two names fall together"

for path in files("crates/*/specs/**/*.antt", "crates/*/proofs/**/*.antt", "crates/*/src/**/*.rt", "crates/*/must-fail/*.edit",
                  "docs/**/*.md", "README.md", "CONTRIBUTING.md"):
    if path.name in ("01-scope.md", "02-change-requests.md"):
        continue
    text = old = path.read_text()
    if path.suffix == ".antt":
        for a, b, where in OWN:
            if where is None or str(path).endswith(where):
                text = re.sub(rf"(?<![\w'.-]){a}(?![\w'-])", b, text)
        text = text.replace("get_d", "get_or").replace("getD", "get_or")
    table = fixed if path.suffix in (".antt", ".rt") else late
    text = CAMEL.sub(lambda m: table.get(m[0], m[0]), text)
    if path.suffix == ".antt":
        text = re.sub(r"(?<=[a-z]-)([23])D\b", r"\1d", text)
    text = re.sub(r"\b(specs[./])Contracts\b" if path.suffix == ".md" else r"\b(specs[./]|pub mod |)Contracts\b", r"\1Ensures", text)
    if path.name == "Lib.antt":
        head, *_ = text.split("pub mod ", 1)
        mods = re.findall(r"^pub mod \w+\n", text, flags=re.M)
        if "pub mod Ensures\n" in mods and text == head + "".join(mods):
            text = head + "".join(sorted(mods))
    if text != old:
        path.write_text(text)

for path in files("crates/*/specs/Contracts.antt"):
    subprocess.run(["git", "-C", str(root), "mv", str(path.relative_to(root)), str(path.with_name("Ensures.antt").relative_to(root))], check=True)
