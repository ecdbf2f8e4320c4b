#!/usr/bin/env python3
"""Runs programs of updates and selects, whose truth is known by the way they are made.

usage: maps.py --bg COMMAND [--count N] [--seed N]

Two variables get updates of unknown maps, behind a bracket or two, at indices that are parameters, which differ or not, or numbers, with
values that are written out, parameters, or selects of the unknown maps; it is claimed that both are the same, that rows of them are, that
they are at some indices, or that one of them has some value there. Which of this holds is seen by trying which parameters are the same,
with maps that have another value at each index. A verdict against that is a failure; so is an unknown one, and a counterexample of which
the judge says something wrong. Chains of updates come besides: twenty are verified within ten seconds of processor time, and two hundred
at indices of which nothing is known end in some way. The last line is `N passed, M failed`.
"""
import argparse
import itertools
import os
import random
import re
import resource
import shlex
import subprocess
import sys
import tempfile

import judge

KINDS = ["[int]int", "[int]int", "[int, int]int", "[T]int", "[T, int]int", "[int]bool", "[T]bool", "[int]T", "[T]T", "[int][int]int", "[T][int]bool", "[int, T][T]int"]


def brackets_of(kind):
    """The index types of each bracket of a map's type, and its base."""
    *front, base = kind.split("]")
    return [tuple(keys[1:].split(", ")) for keys in front], base


class Maps:
    """A program with one claim: its text, and whether the claim holds."""

    def __init__(self, rng):
        self.kind = rng.choice(KINDS)
        self.brackets, self.base = brackets_of(self.kind)
        self.parts = [part for keys in self.brackets for part in keys]
        kinds = {*self.parts, self.base} - {"bool"}
        self.names = {kind: [f"{kind[0].lower()}{k}" for k in range(rng.randint(1, 3))] for kind in sorted(kinds)}
        self.differ = rng.random() < 0.5
        self.made = {name: self.updates(rng, base) for name, base in (("x", "a"), ("y", rng.choice("aab")))}
        if rng.random() < 0.5:
            self.made["y"] = self.made["x"][0], rng.sample(self.made["x"][1], len(self.made["x"][1]))
        self.claim = self.claimed(rng)

    def part(self, rng, kind):
        return rng.choice(self.names[kind]) if kind == "T" or rng.random() < 0.75 else rng.choice([0, 1])

    def key(self, rng, brackets=None):
        return tuple(self.part(rng, kind) for keys in (brackets or self.brackets) for kind in keys)

    def value(self, rng):
        """A value of the base, or an unknown map and an index."""
        if rng.random() < 0.4:
            return rng.choice("ab"), self.key(rng)
        if self.base == "T":
            return rng.choice(self.names["T"])
        return rng.choice([True, False] if self.base == "bool" else [0, 1, 2, *self.names["int"]])

    def updates(self, rng, base):
        return base, [(self.key(rng), self.value(rng)) for _ in range(rng.randrange(5))]

    def claimed(self, rng):
        kind = rng.random()
        if kind < 0.35:
            return ("same", (), ())
        if kind < 0.5 and len(self.brackets) > 1:
            return ("same", self.key(rng, self.brackets[:1]), self.key(rng, self.brackets[:1]))
        name, key = rng.choice("xy"), self.key(rng)
        updates = self.made[name][1]
        if kind < 0.7:
            return ("at", "x", key, "y", key if rng.random() < 0.6 else self.key(rng))
        if updates and rng.random() < 0.6:
            return ("is", name, *rng.choice(updates[-2:]))
        return ("is", name, key, (self.made[name][0], key) if rng.random() < 0.5 else self.value(rng))

    def told(self, value):
        if isinstance(value, tuple):
            return self.at(*value)
        return str(value).lower() if isinstance(value, bool) else str(value)

    def at(self, name, key):
        """A map, and as many of its brackets as a key fills."""
        for keys in self.brackets:
            if key:
                name += f"[{', '.join(map(str, key[:len(keys)]))}]"
            key = key[len(keys):]
        return name

    def text(self):
        typed = [f"{name}: {kind}" for kind, names in self.names.items() for name in names]
        lines = ["type T;"] if "T" in self.names else []
        lines.append(f"procedure P({', '.join([f'a: {self.kind}', f'b: {self.kind}', *typed])})")
        apart = [f"{i} != {j}" for names in self.names.values() for i, j in itertools.combinations(names, 2)]
        lines += [f"  requires {' && '.join(apart)};"] if self.differ and apart else []
        lines += ["{", f"  var x, y: {self.kind};"]
        for name, (base, updates) in self.made.items():
            lines.append(f"  {name} := {base};")
            lines += [f"  {self.at(name, key)} := {self.told(value)};" for key, value in updates]
        if self.claim[0] == "same":
            says = f"{self.at('x', self.claim[1])} == {self.at('y', self.claim[2])}"
        elif self.claim[0] == "at":
            says = f"{self.at(*self.claim[1:3])} == {self.at(*self.claim[3:])}"
        else:
            says = f"{self.at(*self.claim[1:3])} == {self.told(self.claim[3])}"
        return "\n".join([*lines, f"  assert {says};", "}", ""])

    def holds(self):
        names = [name for group in self.names.values() for name in group]
        tried = [range(len(names)) if name[0] == "t" else [0, 1, 2, *range(10, 10 + len(names))] for name in names]
        return all(self.holds_at(dict(zip(names, values))) for values in itertools.product(*tried) if not self.differ or self.are_apart(names, values))

    def are_apart(self, names, values):
        """Whether the indices of each type differ."""
        pairs = itertools.combinations(zip(names, values), 2)
        return all(i[0] != j[0] or v != w for (i, v), (j, w) in pairs)

    def holds_at(self, indices):
        """Whether the claim holds where the names have these values, and unknown maps have another value at each index. Each side of a
        claim is then one of the values that are written, or what an unknown map has at an index: so it holds for all maps where it
        holds for these."""
        place = lambda key: tuple(indices.get(part, part) for part in key)
        worth = lambda value: (value[0], place(value[1])) if isinstance(value, tuple) else indices.get(value, value)
        maps = {name: (base, {place(key): worth(value) for key, value in updates}) for name, (base, updates) in self.made.items()}
        at = lambda name, k: maps[name][1].get(k, (maps[name][0], k))
        if self.claim[0] == "same":
            left, right = map(place, self.claim[1:])
            # (at an index that stands nowhere, unknown maps have what they have)
            rests = {key[len(front):] for name, front in (("x", left), ("y", right)) for key in maps[name][1] if key[:len(front)] == front}
            same_rest = (maps["x"][0], left) == (maps["y"][0], right)
            return same_rest and all(at("x", left + rest) == at("y", right + rest) for rest in rests)
        left = at(self.claim[1], place(self.claim[2]))
        return left == (at(self.claim[3], place(self.claim[4])) if self.claim[0] == "at" else worth(self.claim[3]))


def chain(count, differ):
    """Updates at so many indices, and in the other order; they are the same where the indices differ."""
    names = [f"i{k}" for k in range(count)]
    lines = [f"procedure P(a: [int]int, {', '.join(f'{name}: int' for name in names)})", "{", "  var x, y: [int]int;", "  x, y := a, a;"]
    lines += [f"  assume {names[k]} < {names[k + 1]};" for k in range(count - 1) if differ]
    lines += [f"  x[{name}] := {k};" for k, name in enumerate(names)]
    lines += [f"  y[{name}] := {k};" for k, name in reversed(list(enumerate(names)))]
    return "\n".join([*lines, "  assert x == y;", "}", ""])


def spent():
    """The processor seconds of the programs that have ended."""
    used = resource.getrusage(resource.RUSAGE_CHILDREN)
    return used.ru_utime + used.ru_stime


def reported(bg, path, text, words=()):
    """What is reported of a program, its status, and how many seconds of processor time it took."""
    with open(path, "w", encoding="ascii") as file:
        file.write(text)
    start = spent()
    ran = subprocess.run([*shlex.split(bg), "verify", *words, path], capture_output=True, timeout=600)
    return ran.stdout.decode("latin-1"), ran.returncode, spent() - start


def fault_of(text, report, holds):
    """What is wrong with a report, or None."""
    said = re.findall(r"^implementation \S+ \S+ (\w+)$", report, re.M)
    if said != ["verified" if holds else "refuted"]:
        return f"{said} for {'a truth' if holds else 'what is false'}"
    return "; ".join(judge.faults_in(text, report, 30)) or None


def main():
    parser = argparse.ArgumentParser(description=__doc__.split("\n", maxsplit=1)[0])
    parser.add_argument("--bg", required=True)
    parser.add_argument("--count", type=int, default=200)
    parser.add_argument("--seed", type=int, default=1)
    args = parser.parse_args()
    # (the script ./bg then says its failures alone)
    os.environ["BG_QUIET"] = "1"
    rng, tried = random.Random(args.seed), []
    with tempfile.TemporaryDirectory() as folder:
        path = os.path.join(folder, "a.bpl")
        for number in range(args.count):
            made = Maps(rng)
            report, _, _ = reported(args.bg, path, made.text())
            tried.append((f"program {number}", fault_of(made.text(), report, made.holds()), made.text() + report))
        for count, differ in ((2, False), (2, True), (4, True), (8, True), (20, True)):
            text = chain(count, differ)
            report, _, seconds = reported(args.bg, path, text)
            fault = fault_of(text, report, differ) or (f"{seconds:.0f} seconds" if seconds > 10 else None)
            tried.append((f"a chain of {count}", fault, report))
        report, status, _ = reported(args.bg, path, chain(200, False), ["--nodes", "40", "--rows", "200"])
        tried.append(("a chain of 200", None if status in (1, 2) else f"status {status}", report))
    for name, fault, shown in tried:
        if fault:
            print(f"{name}: {fault}\n{shown}")
    failed = sum(fault is not None for _, fault, _ in tried)
    print(f"{len(tried) - failed} passed, {failed} failed")
    return 1 if failed or len(tried) == failed else 0


if __name__ == "__main__":
    sys.exit(main())
