"""Writes crates/test_rooms/specs/Computing.antt: one name for every definition that the rooms compute with.

python3 oracle/rooms/computing.py, in the repository. A definition that is added to a crate's specs/ joins the list so.
"""
import re
from pathlib import Path

KIT = "add sub mul div lt le eq of_bits to_bits of_int round to_unsigned is_nan neg size odd".split()
LEFT_OUT = {"test_rooms", "job_reads", "listing"}


def listed():
    """The crates that job stands on, and job, from the bottom up."""
    lines = [line.partition(":") for line in Path("crates.txt").read_text().splitlines() if not line.startswith("#")]
    needs = {name: deps.split() for name, _, deps in lines}
    reached, left = set(), ["job"]
    while left:
        name = left.pop()
        if name not in reached:
            reached.add(name)
            left += needs.get(name, [])
    return [name for name, _, _ in lines if name in reached]


def main():
    uses, names, seen = [], [], {}
    for crate in [c for c in listed() if c not in LEFT_OUT]:
        for path in sorted(Path("crates", crate, "specs").glob("*.antt")):
            found = []
            for name in re.findall(r"^\s*unfoldable pub (\S+) :", path.read_text(), re.M):
                seen[name] = seen.get(name, 0) + 1
                alias = name if seen[name] == 1 and name not in KIT else f"{name}-{seen[name] + (name in KIT)}"
                found.append(name if alias == name else f"{name} as {alias}")
                names.append(alias)
            if found:
                uses.append(f"use Rattle.{crate}.specs.{path.stem}.{{{', '.join(found)}}}")
    text = "-- One name for all that the rooms compute with: to unfold it is to unfold these.\n"
    text += f"use Rattle.std.specs.Float.Ieee.{{{', '.join(KIT)}}}\n" + "\n".join(uses)
    text += "\n\nunfoldable pub computing : Unit {0}\nunfolding " + " ".join(KIT + names) + "\ncomputing = tt\n"
    Path("crates/test_rooms/specs/Computing.antt").write_text(text)


if __name__ == "__main__":
    main()
