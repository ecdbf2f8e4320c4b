#!/usr/bin/env python3
"""Runs each program of examples/ and compares what is written, and the status, with what is stored beside it.

usage: examples.py --bg COMMAND

A program's first line may name options: `// --guess` and the like, and before them the command `annotate`; else it is `verify`. A text
that begins with `error: ` is expected on the error stream, with status 3; any other one on the output, with the status that its lines
tell, 0 for a program. The last line is `N passed, M failed`.
"""
import argparse
import glob
import os
import re
import shlex
import subprocess
import sys

TOP = os.path.dirname(os.path.dirname(os.path.abspath(__file__)))


def wanted(text):
    """Returns the output, the error line and the status that a stored text stands for."""
    if text.startswith(b"error: "):
        return b"", text, 3
    said = re.findall(rb"^(?:implementation \S+ \S+|axioms:) (\w+)", text, re.M)
    return text, b"", 1 if {b"refuted", b"contradictory"} & set(said) else 2 if b"unknown" in said else 0


def words_of(source):
    """Returns the command and the options that the program's first line names."""
    with open(source, encoding="latin-1") as file:
        mark, *words = file.readline().split() or [""]
    command = words[:1] if words[:1] == ["annotate"] else []
    options = words[len(command) :]
    if mark != "//" or not all(word.startswith("--") or word.isdigit() for word in options):
        return ["verify"]
    return (command or ["verify"]) + options


def main():
    parser = argparse.ArgumentParser(description=__doc__.split("\n", maxsplit=1)[0])
    parser.add_argument("--bg", required=True)
    args = parser.parse_args()
    # (the script ./bg then says its failures alone)
    os.environ["BG_QUIET"] = "1"
    passed = failed = 0
    for source in sorted(glob.glob(os.path.join(TOP, "examples", "*.bpl"))):
        with open(source[: -len("bpl")] + "expected", "rb") as file:
            out, err, status = wanted(file.read())
        ran = subprocess.run([*shlex.split(args.bg), *words_of(source), source], capture_output=True, timeout=600)
        if (ran.stdout, ran.stderr, ran.returncode) == (out, err, status):
            passed += 1
            continue
        failed += 1
        print(f"{os.path.relpath(source, TOP)}: status {ran.returncode} for {status}")
        sys.stdout.write((ran.stdout + ran.stderr).decode())
    print(f"{passed} passed, {failed} failed")
    return 1 if failed or not passed else 0


if __name__ == "__main__":
    sys.exit(main())
