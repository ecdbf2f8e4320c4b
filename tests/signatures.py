#!/usr/bin/env python3
"""No public signature of the crates takes `Wait`, the handle by which a call may wait for another thread."""
import glob
import os
import re
import sys

TOP = os.path.dirname(os.path.dirname(os.path.abspath(__file__)))


def signatures(text):
    for found in re.finditer(r"\b(?:pub\s+fn|fn)\s+(\w+)", text):
        rest = text[found.start():]
        end = re.search(r"\bensures\b|\brequires\b|\{|;", rest)
        yield found.group(1), rest[: end.start() if end else len(rest)]


def main():
    seen, waits = 0, []
    for path in sorted(glob.glob(os.path.join(TOP, "crates/*/src/**/*.rt"), recursive=True)):
        if os.path.basename(path) in ("tests.rt", "main.rt"):
            continue
        with open(path, encoding="utf-8") as file:
            text = re.sub(r"//[^\n]*", "", file.read())
        for name, signature in signatures(text):
            seen += 1
            if re.search(r"\bWait\b", signature):
                waits.append((os.path.relpath(path, TOP), name))
    for path, name in waits:
        print(f"takes Wait: {path}: {name}")
    print(f"{seen - len(waits)} passed, {len(waits)} failed")
    return 1 if waits or not seen else 0


if __name__ == "__main__":
    sys.exit(main())
