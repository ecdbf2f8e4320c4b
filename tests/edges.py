#!/usr/bin/env python3
"""Runs programs over numbers at the ends of 128 bits and with large coefficients, whose truth is known by the way they are made.

usage: edges.py --bg COMMAND [--count N] [--seed N]

At a point that the assumptions fix, a relation of sums and products is true or false. Of sixty assumed rows with large coefficients
one is claimed again with a larger limit, which is true, or one that a planted point breaks, which is false. A verdict against the
truth is a failure; so is a counterexample that does not break the claim, a kept operation that does not leave 128 bits, and any
other answer. The last line is `N passed, M failed`.
"""
import argparse
import operator
import os
import random
import re
import shlex
import subprocess
import sys
import tempfile

TOP, BOTTOM = 2**127 - 1, -(2**127)
SMALL = [0, 1, -1, 2, -2, 3]
EDGES = [TOP, TOP - 1, BOTTOM, BOTTOM + 1, 2**126, -(2**126), 2**64, *SMALL]
RELATIONS = {"<": operator.lt, "<=": operator.le, "==": operator.eq, "!=": operator.ne, ">=": operator.ge, ">": operator.gt}
OPERATIONS = {"+": operator.add, "-": operator.sub, "*": operator.mul, "neg": lambda a, _: -a}


def sum_of(coefficients, values):
    return sum(c * v for c, v in zip(coefficients, values))


def spelled(number):
    """A numeral has no sign, and none is larger than the largest number of 128 bits."""
    return str(number) if number > BOTTOM else f"(-{TOP} - 1)"


def text_of(coefficients, names):
    return " + ".join(f"{spelled(c)} * {x}" for c, x in zip(coefficients, names))


def fixed(rng):
    """Returns a program whose assumptions fix a point, and its claim as a test of values."""
    names = ["x", "y"]
    values = [rng.choice(EDGES) for _ in names]
    left, right = ([rng.choice(SMALL), rng.choice(SMALL), rng.choice(rng.choice([SMALL, EDGES]))] for _ in range(2))
    relation = rng.choice(list(RELATIONS))
    claim = f"{text_of(left, names)} + {spelled(left[2])} {relation} {text_of(right, names)} + {spelled(right[2])}"
    lines = [f"  assume {x} == {spelled(v)};" for x, v in zip(names, values)]
    is_kept = lambda vs: vs == values
    is_claimed = lambda vs: RELATIONS[relation](sum_of(left, vs) + left[2], sum_of(right, vs) + right[2])
    return names, lines, claim, is_kept, is_claimed, is_claimed(values)


def planted(rng):
    """Returns a program of sixty assumed rows that hold at a planted point, and a claim that follows or that the point breaks."""
    names = ["u", "v", "w", "x"]
    size = 2 ** rng.choice([10, 20, 60, 100])
    limit = 2 ** rng.choice([1, 5, 20])
    point = [rng.randint(-limit, limit) for _ in names]
    rows = [[rng.randint(-size, size) for _ in names] for _ in range(60)]
    bounds = [sum_of(r, point) + rng.randint(0, size) for r in rows]
    lines = [f"  assume {text_of(r, names)} <= {b};" for r, b in zip(rows, bounds)]
    is_true = rng.random() < 0.5
    if is_true:
        claimed, bound = rows[0], bounds[0] + rng.randint(0, size)
    else:
        claimed = [rng.randint(-size, size) for _ in names]
        bound = sum_of(claimed, point) - 1
    is_kept = lambda vs: all(sum_of(r, vs) <= b for r, b in zip(rows, bounds))
    return names, lines, f"{text_of(claimed, names)} <= {bound}", is_kept, lambda vs: sum_of(claimed, vs) <= bound, is_true


def fault_in(report, names, is_kept, is_claimed, is_true):
    """Returns what is wrong with a report, or None."""
    if "implementation P 1:1 verified\n" in report:
        return None if is_true else "verified, and false"
    if "implementation P 1:1 refuted\n" in report:
        values = [int(v) for v in re.findall(r"^    var \w+ = (-?\d+)$", report, re.M)]
        if is_true or len(values) != len(names):
            return "refuted, and true"
        return None if is_kept(values) and not is_claimed(values) else "a counterexample that breaks nothing"
    kept = re.search(r"^  unknown assert \S+ range\n    kept (\S+) (-?\d+) (-?\d+)$", report, re.M)
    if kept:
        result = OPERATIONS[kept[1]](int(kept[2]), int(kept[3]))
        return "an operation that stays within 128 bits" if BOTTOM <= result <= TOP else None
    return None if re.search(r"^  unknown assert \S+ (nodes|rows)$", report, re.M) else "another answer"


def main():
    parser = argparse.ArgumentParser(description=__doc__.split("\n", maxsplit=1)[0])
    parser.add_argument("--bg", required=True)
    parser.add_argument("--count", type=int, default=400)
    parser.add_argument("--seed", type=int, default=1)
    args = parser.parse_args()
    # (the script ./bg then says its failures alone)
    os.environ["BG_QUIET"] = "1"
    rng = random.Random(args.seed)
    passed = failed = 0
    told = {"verified": 0, "refuted": 0, "range": 0, "nodes": 0, "rows": 0}
    with tempfile.TemporaryDirectory() as folder:
        path = os.path.join(folder, "a.bpl")
        for n in range(args.count):
            names, lines, claim, is_kept, is_claimed, is_true = (fixed if n % 4 else planted)(rng)
            head = "procedure P(" + ", ".join(f"{x}: int" for x in names) + ") {"
            with open(path, "w", encoding="utf-8") as file:
                file.write("\n".join([head, *lines, f"  assert {claim};", "}", ""]))
            words = [*shlex.split(args.bg), "verify", "--nodes", "1000", "--rows", "1000", path]
            ran = subprocess.run(words, capture_output=True, timeout=600)
            report = ran.stdout.decode()
            fault = fault_in(report, names, is_kept, is_claimed, is_true)
            for word in told:
                told[word] += bool(re.search(rf"^  unknown assert \S+ {word}$|^implementation P 1:1 {word}$", report, re.M))
            passed, failed = (passed + 1, failed) if fault is None else (passed, failed + 1)
            if fault:
                print(f"program {n}: {fault}")
                sys.stdout.write(open(path, encoding="utf-8").read() + report + ran.stderr.decode())
    print(", ".join(f"{count} {word}" for word, count in told.items()))
    print(f"{passed} passed, {failed} failed")
    return 1 if failed or not passed else 0


if __name__ == "__main__":
    sys.exit(main())
