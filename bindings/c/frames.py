#!/usr/bin/env python3
"""Adds up the stack frames along the deepest way of calls from each exported function of the static library.

    frames.py target/staticlib/libcapi.a

Reads the disassembly for x86-64 (objdump): a frame is what a function pushes and subtracts from rsp, 8 more for the call. Ends with 1 where
a function calls itself, by whatever way, where a call goes through a pointer, or where a frame has a variable size.
"""
import re
import subprocess
import sys


def read(library):
    """Each function's frame, the functions that it calls, and the lines that no bound can be given for."""
    text = subprocess.run(["objdump", "-d", "-r", "--no-show-raw-insn", library], check=True, capture_output=True, text=True).stdout
    frames, calls, first, open_lines = {}, {}, {}, []
    section = function = operation = None
    for line in text.splitlines():
        if found := re.match(r"Disassembly of section (.+):$", line):
            section, function = found.group(1), None
        elif found := re.match(r"[0-9a-f]+ <(.+)>:$", line):
            function = found.group(1)
            frames[function], calls[function] = 0, set()
            first.setdefault(section, function)
        elif found := re.match(r"\s+[0-9a-f]+:\s+R_X86_64_\S+\s+(\S+?)([-+]0x[0-9a-f]+)?$", line):
            if operation in ("call", "jmp"):
                calls[function].add(found.group(1))
        elif function and (found := re.match(r"\s*[0-9a-f]+:\s+(\S+)\s*(.*)$", line)):
            operation, argument = found.groups()
            if operation == "push":
                frames[function] += 8
            elif operation == "sub" and (size := re.match(r"\$0x([0-9a-f]+),%rsp", argument)):
                frames[function] += int(size.group(1), 16)
            elif operation == "call" and argument.startswith("*") or operation == "sub" and argument.endswith(",%rsp"):
                open_lines.append(function + ": " + line.strip())
            elif operation in ("call", "jmp") and (target := re.search(r"<(.+?)(\+0x[0-9a-f]+)?>$", argument)):
                if target.group(1) != function or operation == "call" and not target.group(2):
                    calls[function].add(target.group(1))
    return frames, {f: {first.get(g, g) for g in c} for f, c in calls.items()}, open_lines


def main(library):
    frames, calls, open_lines = read(library)
    depth = {}

    def deep(function, above):
        if function in above:
            open_lines.append(function + " calls itself")
            return 0
        if function not in depth:
            below = [deep(g, above | {function}) + 8 for g in calls[function] if g in frames]
            depth[function] = frames[function] + max(below, default=0)
        return depth[function]

    for function in sorted(f for f in frames if f.startswith("hookyellow_")):
        print("%s: %d bytes" % (function, deep(function, frozenset()) + 8))
    print("calls of others: " + " ".join(sorted({g for c in calls.values() for g in c if g not in frames})))
    print("\n".join(open_lines), end="\n" if open_lines else "")
    return 1 if open_lines else 0


if __name__ == "__main__":
    sys.exit(main(sys.argv[1]))
