#!/usr/bin/env python3
"""Random formulas over truth values and whole numbers, as procedures of `assume`s before an `assert false`, beside z3 on the same
formulas as SMT-LIB: verified where there is no valuation, refuted where there is one. Unknown is counted, a wrong word fails.

usage: against_z3.py --bg COMMAND [--count N] [--seed S] [--z3 COMMAND] [--batch N] [--keep FOLDER]

Not in the gate: z3 comes from Debian (`apt-get install z3`). The last line is `N agree, M unknown, K undecided by z3, F wrong`.
"""
import argparse
import os
import random
import re
import shlex
import subprocess
import sys
import tempfile


def row(rng, terms):
    """A relation: coefficients by term, its sign, and the number on the right."""
    most = 4 if rng.random() < 0.3 else 2
    chosen = rng.sample(range(terms), min(terms, rng.randint(1, most)))
    by = {x: rng.choice([-3, -2, -1, 1, 2, 3] if len(chosen) > 2 else [-2, -1, -1, 1, 1, 2]) for x in chosen}
    return by, rng.choice(["<=", "<=", "<", ">=", "=="]), rng.randint(-12, 12)


def formula(rng):
    """Atoms (relations, or None for a truth value) and clauses of literals."""
    terms, atoms = rng.randint(1, 5), rng.randint(2, 28)
    made = [row(rng, terms) if rng.random() < 0.75 else None for _ in range(atoms)]
    clauses = []
    for _ in range(rng.randint(atoms, 3 * atoms)):
        size = min(atoms, rng.choice([1, 2, 2, 3, 3, 3, 4]) if rng.random() < 0.9 else 5)
        clauses.append([(a, rng.random() < 0.5) for a in rng.sample(range(atoms), size)])
    for a, r in enumerate(made):
        if r is not None and r[1] == "==" and rng.random() < 0.5:
            clauses.append([(a, True)])
    return terms, made, clauses


def boogie_atom(a, r):
    if r is None:
        return f"b{a}"
    by, sign, bound = r
    left = " + ".join(f"({k}) * x{x}" if k < 0 else f"{k} * x{x}" for x, k in by.items())
    return f"{left} {sign} {bound}"


def boogie(name, f):
    terms, atoms, clauses = f
    formals = [f"x{x}: int" for x in range(terms)] + [f"b{a}: bool" for a, r in enumerate(atoms) if r is None]
    lines = [f"procedure {name}({', '.join(formals)}) {{"]
    for c in clauses:
        lines.append("  assume " + " || ".join(f"({boogie_atom(a, atoms[a])})" if s else f"!({boogie_atom(a, atoms[a])})" for a, s in c) + ";")
    return "\n".join(lines + ["  assert false;", "}", ""])


def smt_number(k):
    return f"(- {-k})" if k < 0 else str(k)


def smt_atom(a, r):
    if r is None:
        return f"b{a}"
    by, sign, bound = r
    parts = [f"(* {smt_number(k)} x{x})" for x, k in by.items()]
    left = parts[0] if len(parts) == 1 else f"(+ {' '.join(parts)})"
    return f"({'=' if sign == '==' else sign} {left} {smt_number(bound)})"


def smt(f):
    terms, atoms, clauses = f
    lines = ["(push)"] + [f"(declare-const x{x} Int)" for x in range(terms)]
    lines += [f"(declare-const b{a} Bool)" for a, r in enumerate(atoms) if r is None]
    for c in clauses:
        ls = [smt_atom(a, atoms[a]) if s else f"(not {smt_atom(a, atoms[a])})" for a, s in c]
        lines.append(f"(assert (or {' '.join(ls)}))" if len(ls) > 1 else f"(assert {ls[0]})")
    return "\n".join(lines + ["(check-sat)", "(pop)", ""])


def batch(rng, size, bg, z3, folder):
    """The words of both for each formula of a batch."""
    fs = [formula(rng) for _ in range(size)]
    text, script = os.path.join(folder, "a.bpl"), os.path.join(folder, "a.smt2")
    with open(text, "w") as file:
        file.write("".join(boogie(f"P{i}", f) for i, f in enumerate(fs)))
    with open(script, "w") as file:
        file.write("(set-option :timeout 4000)\n" + "".join(smt(f) for f in fs))
    ours = subprocess.run([*bg, "verify", text], capture_output=True, text=True, timeout=3600).stdout
    theirs = subprocess.run([*z3, script], capture_output=True, text=True, timeout=3600).stdout
    mine = dict(re.findall(r"^implementation P(\d+) \S+ (\w+)$", ours, re.M))
    other = re.findall(r"^(sat|unsat|unknown|timeout)$", theirs, re.M)
    if len(mine) != size or len(other) != size:
        sys.exit(f"{len(mine)} and {len(other)} answers for {size} formulas: see {folder}")
    return fs, [mine[str(i)] for i in range(size)], other


def main():
    words = argparse.ArgumentParser(description=__doc__, formatter_class=argparse.RawDescriptionHelpFormatter)
    words.add_argument("--bg", required=True)
    words.add_argument("--count", type=int, default=2000)
    words.add_argument("--seed", type=int, default=1)
    words.add_argument("--z3", default="z3")
    words.add_argument("--batch", type=int, default=100)
    words.add_argument("--keep")
    given = words.parse_args()
    rng, bg, z3 = random.Random(given.seed), shlex.split(given.bg), shlex.split(given.z3)
    count = {"agree": 0, "unknown": 0, "undecided": 0, "wrong": 0}
    with tempfile.TemporaryDirectory() as room:
        folder = given.keep or room
        os.makedirs(folder, exist_ok=True)
        for done in range(0, given.count, given.batch):
            fs, mine, other = batch(rng, min(given.batch, given.count - done), bg, z3, folder)
            for f, a, b in zip(fs, mine, other):
                if a == "unknown":
                    kind = "unknown"
                elif b not in ("sat", "unsat"):
                    kind = "undecided"
                else:
                    kind = "agree" if (a == "verified") == (b == "unsat") else "wrong"
                count[kind] += 1
                if kind == "wrong":
                    print(f"bg says {a}, z3 says {b}:\n{boogie('P', f)}", flush=True)
    print(f"{count['agree']} agree, {count['unknown']} unknown, {count['undecided']} undecided by z3, {count['wrong']} wrong")
    sys.exit(1 if count["wrong"] else 0)


if __name__ == "__main__":
    main()
