#!/usr/bin/env python3
"""Runs `bench 1 200`, twice, and compares its lines with the rule by which the program is made (docs/FORMATS.md).

usage: made.py --bg COMMAND [--seed SEED] [--size SIZE]

Each procedure retains two of its three candidates, and the third where the number that it guesses is the one that is drawn. The last line
is `N passed, M failed`.
"""
import argparse
import os
import shlex
import subprocess
import sys


def draws(seed):
    """Yields the numbers that a seed draws."""
    state = seed % 2**31
    while True:
        state = (state * 1103515245 + 12345) % 2**31
        yield state // 65536


def wanted(seed, size):
    """Returns the lines of the program of a seed and a size."""
    numbers = draws(seed)
    retained = 0
    for _ in range(size):
        next(numbers)
        retained += 2 + (next(numbers) % 3 == 0)
    counts = f"{retained} retained, {3 * size - retained} dropped; {size} verified, 0 refuted, 0 unknown"
    return f"bench {seed} {size}\nretained set: greatest\nsummary: {counts}\n".encode()


def main():
    parser = argparse.ArgumentParser(description=__doc__.split("\n", maxsplit=1)[0])
    parser.add_argument("--bg", required=True)
    parser.add_argument("--seed", type=int, default=1)
    parser.add_argument("--size", type=int, default=200)
    args = parser.parse_args()
    # (the script ./bg then says its failures alone)
    os.environ["BG_QUIET"] = "1"
    words = [*shlex.split(args.bg), "bench", str(args.seed), str(args.size)]
    passed = failed = 0
    for _ in range(2):
        ran = subprocess.run(words, capture_output=True, timeout=600)
        if (ran.stdout, ran.stderr, ran.returncode) == (wanted(args.seed, args.size), b"", 0):
            passed += 1
            continue
        failed += 1
        print(f"bench {args.seed} {args.size}: status {ran.returncode}")
        sys.stdout.write((ran.stdout + ran.stderr).decode())
    print(f"{passed} passed, {failed} failed")
    return 1 if failed else 0


if __name__ == "__main__":
    sys.exit(main())
