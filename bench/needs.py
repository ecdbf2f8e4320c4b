#!/usr/bin/env python3
"""Writes a table of the least numbers of nodes that count (`--nodes`) and of rows (`--rows`) with which each program of examples/ is judged
as with 1,000,000 of both.

usage: needs.py --bg COMMAND
"""
import argparse
import glob
import os
import shlex
import subprocess

TOP = os.path.dirname(os.path.dirname(os.path.abspath(__file__)))
MOST = 1_000_000


def report(bg, source, *words):
    return subprocess.run([*bg, "verify", *words, source], capture_output=True, timeout=600).stdout


def least(bg, source, word):
    """Returns the least number behind the word with which the report is the one of the largest."""
    wanted = report(bg, source, word, str(MOST))
    low, high = 0, 1
    while high < MOST and report(bg, source, word, str(high)) != wanted:
        low, high = high, min(2 * high, MOST)
    while high - low > 1:
        middle = (low + high) // 2
        low, high = (low, middle) if report(bg, source, word, str(middle)) == wanted else (middle, high)
    return high


def main():
    parser = argparse.ArgumentParser(description=__doc__.split("\n", maxsplit=1)[0])
    parser.add_argument("--bg", default=os.path.join(TOP, "bg"))
    bg = shlex.split(parser.parse_args().bg)
    print("| example | verdicts | nodes | rows |\n| --- | --- | --- | --- |")
    for source in sorted(glob.glob(os.path.join(TOP, "examples", "*.bpl"))):
        lines = report(bg, source).decode().splitlines()
        if not lines:
            continue
        verdicts = lines[-1].split("; ")[1]
        print(f"| `{os.path.basename(source)}` | {verdicts} | {least(bg, source, '--nodes')} | {least(bg, source, '--rows')} |", flush=True)


if __name__ == "__main__":
    main()
