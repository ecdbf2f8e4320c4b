#!/usr/bin/env python3
"""Makes random programs with the whole statement language, and judges their reports (judge.py).

usage: random_programs.py --bg COMMAND [--count N] [--seed K] [--runs N] [--truths] [--types] [--maps] [--constants] [--candidates]
                          [--workers N..] [--budget N] [--jobs N] [--keep FOLDER]

Of each implementation N runs are tried. With --truths there are no whole numbers. With --types there are two user types, some
constants of each, and synonyms. With --maps there are maps of a few types, a constant of each, synonyms of two, selects, updates and
assignments behind brackets; with --types also maps over elements and to them. With --constants most programs have constants, of which some are unique, functions with and without a
body, and axioms. With --candidates most programs declare some; what `annotate` writes of them, with guesses and without, has the same
words for its implementations, and is annotated as it is. With --workers each program is judged once with each of these numbers of
workers: where no report has an unknown, their verdict lines are the same. With --budget the program gets as many inner nodes and rows.
With --keep programs and reports are written to a folder, and left there. The last line is `N passed, M failed`.
"""
import argparse
import collections
import concurrent.futures
import functools
import os
import random
import re
import shlex
import subprocess
import sys
import tempfile

import judge

SIGNS = ["&&", "||", "==>", "<==", "<==>", "==", "!="]
RELATIONS = ["<", "<=", ">", ">=", "==", "!="]
MAPS = {"m": "[int]int", "o": "[int]bool", "q": "[int, int]int", "d": "[int][int]int"}
ELEMENT_MAPS = {"w": "[T]int", "y": "[int]T", "z": "[T, int]U"}
TYPES = {"n": "int", "t": "T", "u": "U", **MAPS, **ELEMENT_MAPS}  # by the last letter of a name; others are truth values
SYNONYMS = {"int": "N", "T": "V"}  # of types, where user types are asked for
MAP_SYNONYMS = {"[int]int": "M", "[int][int]int": "[int]M"}  # where maps are asked for
NUMBERS = [0, 0, 1, 1, 1, 2, 2, 3, 5, 7, 60, 2**63, 2**126]


def type_of(name):
    """The type of a variable or a function of this name."""
    return TYPES.get(name.rstrip("'")[-1], "bool")


def is_number(name):
    """Whether a variable of this name is a whole number."""
    return type_of(name) == "int"


def keys_of(kind):
    """The index types of a map's type, and its result type."""
    keys, _, result = kind[1:].partition("]")
    return keys.split(", "), result


def some_letter(rng, kinds):
    """A last letter for a name, of these; or none."""
    if not kinds or rng.random() >= 0.6:
        return ""
    return kinds if len(kinds) == 1 else rng.choice(kinds)


def some_names(rng, letter, most, kinds):
    """Fewer than so many names, some with last letters of these."""
    return [f"{letter}{k}{some_letter(rng, kinds)}" for k in range(rng.randrange(most))]


class Procedure:
    """A procedure's names, and which globals it modifies."""

    def __init__(self, rng, number, names, kinds):
        self.name = f"P{number}"
        self.params = some_names(rng, "p", 3, kinds)
        self.results = some_names(rng, "r", 3, kinds)
        self.modifies = [g for g in names if rng.random() < 0.5]


class Body:
    """Statements of one implementation."""

    def __init__(self, rng, program, procedure, params, results):
        self.rng, self.program, self.procedure = rng, program, procedure
        self.locals = some_names(rng, "x", 4, program.kinds)
        self.reads = program.constants + program.names + params + results + self.locals
        self.writes = procedure.modifies + results + self.locals
        self.labels = 0

    def label(self):
        self.labels += 1
        return f"L{self.labels}"

    def formula(self, depth=2):
        return self.program.formula(self.rng, self.reads, depth, old=True)

    def value(self, name, depth=2):
        return self.program.expression(self.rng, self.reads, depth, type_of(name), old=True)

    def clause(self):
        """What an assertion or an invariant that is checked says."""
        if self.program.maps and self.rng.random() < 0.2:
            return self.program.guarded(self.rng, self.program.law(self.rng, self.reads))
        return self.program.guarded(self.rng, self.formula())

    def side(self, name):
        """What is assigned to, a variable or what stands behind brackets of a map, and its type."""
        side, kind = name, type_of(name)
        while kind.startswith("[") and self.rng.random() < 0.7:
            keys, kind = keys_of(kind)
            side += f"[{self.program.indices(self.rng, self.reads, 1, keys, old=True)}]"
        return side, kind

    def sides(self, most=2):
        """Variables that are assigned to, both sides of an assignment to them."""
        names = self.rng.sample(self.writes, min(len(self.writes), self.rng.randint(1, most)))
        sides = [self.side(name) for name in names]
        values = [self.program.expression(self.rng, self.reads, 2, kind, old=True) for _, kind in sides]
        return names, [side for side, _ in sides], values

    def takes(self, q):
        """Variables that may take the results of a call, or None."""
        free, taken = list(self.writes), []
        for result in q.results:
            fits = [name for name in free if type_of(name) == type_of(result)]
            if not fits:
                return None
            taken.append(self.rng.choice(fits))
            free.remove(taken[-1])
        return taken

    def call(self, indent):
        fits = [q for q in self.program.procedures if set(q.modifies) <= set(self.procedure.modifies)]
        q = self.rng.choice(fits) if fits else None
        takes = self.takes(q) if q else None
        if takes is None:
            return [f"{indent}assume {self.formula()};"]
        args = ", ".join(self.value(name, 1) for name in q.params)
        front = f"{', '.join(takes)} := " if takes else ""
        return [f"{indent}call {front}{q.name}({args});"]

    def loop(self, indent, depth, ahead, inside):
        guard = "*" if self.rng.random() < 0.4 else self.formula(1)
        label = self.label() if self.rng.random() < 0.3 else None
        lines = [f"{indent}{label}:"] if label else []
        lines.append(f"{indent}while ({guard})")
        for _ in range(self.rng.randrange(3)):
            is_free = self.rng.random() < 0.25
            lines.append(f"{indent}  free invariant {self.formula()};" if is_free else f"{indent}  invariant {self.clause()};")
        within = inside + [None] + ([label] if label else [])
        return lines + [f"{indent}{{"] + self.statements(indent + "  ", depth - 1, ahead, within) + [f"{indent}}}"]

    def branch(self, indent, depth, ahead, inside):
        label = self.label() if self.rng.random() < 0.2 else None
        within = inside + ([label] if label else [])
        lines = [f"{indent}{label}:"] if label else []
        word = "if"
        for _ in range(self.rng.randint(1, 2)):
            guard = "*" if self.rng.random() < 0.3 else self.formula(1)
            lines.append(f"{indent}{word} ({guard}) {{")
            lines += self.statements(indent + "  ", depth - 1, ahead, within)
            word = "} else if"
        if self.rng.random() < 0.5:
            lines.append(f"{indent}}} else {{")
            lines += self.statements(indent + "  ", depth - 1, ahead, within)
        return lines + [f"{indent}}}"]

    def leave(self, indent, ahead, inside):
        ways = ["return;"]
        if ahead:
            ways.append(f"goto {', '.join(self.rng.sample(ahead, self.rng.randint(1, min(2, len(ahead)))))};")
        ways += ["break;" if name is None else f"break {name};" for name in inside]
        return [f"{indent}{self.rng.choice(ways)}"]

    def statement(self, indent, depth, ahead, inside):
        kind = self.rng.random()
        if kind < 0.2:
            return [f"{indent}assert {self.clause()};"]
        if kind < 0.3:
            return [f"{indent}assume {self.formula()};"]
        if kind < 0.4 and self.writes:
            return [f"{indent}havoc {', '.join(self.sides()[0])};"]
        if kind < 0.62 and self.writes:
            _, sides, values = self.sides()
            return [f"{indent}{', '.join(sides)} := {', '.join(values)};"]
        if kind < 0.76:
            return self.call(indent)
        if kind < 0.84 and depth:
            return self.loop(indent, depth, ahead, inside)
        if kind < 0.94 and depth:
            return self.branch(indent, depth, ahead, inside)
        return self.leave(indent, ahead, inside)

    def statements(self, indent, depth, ahead, inside):
        count = self.rng.randrange(5)
        marks = {k: self.label() for k in range(1, count + 1) if self.rng.random() < 0.25}
        lines = []
        for k in range(count):
            lines += [f"{indent}{marks[k]}:"] if k in marks else []
            later = [name for at, name in marks.items() if at > k]
            lines += self.statement(indent, depth, later + ahead, inside)
        return lines + ([f"{indent}{marks[count]}:"] if count in marks else [])

    def lines(self):
        declared = [f"  var {name}: {self.program.written(self.rng, name)};" for name in self.locals]
        return ["{"] + declared + self.statements("  ", 3, [], []) + ["}"]


class Function:
    """A function's name, which has the type of its result, its arguments, and, often, a body over them, constants and earlier functions."""

    def __init__(self, rng, program, number):
        self.name = f"f{number}{some_letter(rng, program.kinds)}"
        self.params = some_names(rng, "a", 4, program.kinds)
        reads = program.constants + self.params
        self.body = None
        if rng.random() < 0.6:
            self.body = program.expression(rng, reads, 2, type_of(self.name))

    def line(self, written):
        """Its declaration, with types as they are written."""
        params = ", ".join(f"{name}: {written(name)}" for name in self.params)
        return f"function {self.name}({params}): {written(self.name)}{';' if self.body is None else f' {{ {self.body} }}'}"


class Program:
    """A program: candidates, at most as many as asked, constants, functions and axioms where asked, globals, procedures and implementations."""

    def __init__(self, rng, numbers, candidates=0, constants=False, types=False, maps=False):
        letters = [*MAPS, *(ELEMENT_MAPS if types else [])] if maps else []
        self.maps = rng.sample(letters, min(len(letters), 3))
        self.maps += ["m"] if "d" in self.maps and "m" not in self.maps else []
        self.numbers, self.types, self.kinds = numbers, types, "n" * numbers + "tu" * types + "".join(self.maps)
        self.constants, self.uniques, self.functions, self.axioms = [], [], [], []
        if types:
            self.constants = [f"e{k}{kind}" for kind in "tu" for k in range(rng.randint(1, 3))]
        self.constants += [f"h{letter}" for letter in self.maps]
        if constants:
            self.constants += some_names(rng, "k", 4, self.kinds)
        if types or constants:
            self.uniques = [name for name in self.constants if rng.random() < 0.35]
        if constants:
            for k in range(rng.randrange(4)):
                self.functions.append(Function(rng, self, k))
            self.axioms = [self.formula(rng, self.constants, 2) for _ in range(rng.randrange(3)) if self.constants or rng.random() < 0.2]
        self.candidates = [f"c{k}" for k in range(rng.randint(0, candidates))] if candidates else []
        self.names = some_names(rng, "g", 4, self.kinds)
        self.procedures = [Procedure(rng, k, self.names, self.kinds) for k in range(rng.randint(1, 4))]
        self.text = "\n".join(self.lines(rng)) + "\n"

    def guarded(self, rng, says):
        """The same, or guarded by a candidate."""
        if not self.candidates or rng.random() < 0.3:
            return says
        guard = rng.choice(self.candidates)
        whole = f"{guard} ==> {self.bracketed(says)}"
        return f"({whole})" if rng.random() < 0.1 else whole

    def formula(self, rng, names, depth, old=False):
        kind = rng.random()
        applied = self.application(rng, names, depth, old, "bool")
        if applied:
            return applied
        if self.numbers and rng.random() < 0.4:
            sides = [self.number(rng, names, min(depth, 1), old) for _ in range(2)]
            return f" {rng.choice(RELATIONS)} ".join(sides)
        if self.types and rng.random() < 0.3:
            wanted = TYPES[rng.choice("tu")]
            return f" {rng.choice(['==', '!='])} ".join(self.element(rng, names, min(depth, 1), wanted, old) for _ in range(2))
        if self.maps and rng.random() < 0.25:
            wanted = TYPES[rng.choice(self.maps)]
            return f" {rng.choice(['==', '==', '!='])} ".join(self.map(rng, names, min(depth, 1), wanted, old) for _ in range(2))
        selected = self.select(rng, names, min(depth, 1), old, "bool")
        if selected:
            return selected
        if not depth or kind < 0.3:
            truths = [name for name in names if type_of(name) == "bool"]
            if not truths or rng.random() < 0.1:
                return rng.choice(["true", "false"])
            return rng.choice(truths)
        if kind < 0.45:
            return "!" + self.operand(rng, names, depth - 1, old)
        if old and kind < 0.52:
            return f"old({self.formula(rng, names, depth - 1)})"
        sign = rng.choice(SIGNS)
        count = rng.randint(2, 3) if sign in ("&&", "||", "==>") else 2
        return f" {sign} ".join(self.operand(rng, names, depth - 1, old) for _ in range(count))

    def number(self, rng, names, depth, old=False):
        """A linear expression."""
        kind = rng.random()
        applied = self.application(rng, names, depth, old, "int")
        if applied:
            return applied
        selected = self.select(rng, names, depth, old, "int")
        if selected:
            return selected
        numbers = [name for name in names if is_number(name)]
        if not depth or kind < 0.4:
            if not numbers or rng.random() < 0.35:
                return str(rng.choice(NUMBERS))
            return rng.choice(numbers)
        part = lambda: self.bracketed(self.number(rng, names, depth - 1, old))
        if old and kind < 0.46:
            return f"old({self.number(rng, names, depth - 1)})"
        if kind < 0.54:
            return f"-{part()}"
        if kind < 0.66:
            return f"{rng.choice([2, 3, 5])} * {part()}"
        return f"{part()} {rng.choice('+-')} {part()}"

    def element(self, rng, names, depth, wanted, old=False):
        """An element of this user type."""
        applied = self.application(rng, names, depth, old, wanted) or self.select(rng, names, depth, old, wanted)
        if applied:
            return applied
        if old and depth and rng.random() < 0.1:
            return f"old({self.element(rng, names, depth - 1, wanted)})"
        return rng.choice([name for name in names if type_of(name) == wanted])

    def expression(self, rng, names, depth, wanted, old=False):
        """An expression of this type."""
        if wanted == "bool":
            return self.formula(rng, names, depth, old)
        if wanted.startswith("["):
            return self.map(rng, names, depth, wanted, old)
        return self.number(rng, names, depth, old) if wanted == "int" else self.element(rng, names, depth, wanted, old)

    def map(self, rng, names, depth, wanted, old=False):
        """A map of this type."""
        applied = self.application(rng, names, depth, old, wanted) or self.select(rng, names, depth, old, wanted)
        if applied:
            return applied
        kind = rng.random()
        if depth and kind < 0.35:
            keys, result = keys_of(wanted)
            front = self.bracketed(self.map(rng, names, depth - 1, wanted, old))
            return f"{front}[{self.indices(rng, names, 0, keys, old)} := {self.expression(rng, names, depth - 1, result, old)}]"
        if old and depth and kind < 0.45:
            return f"old({self.map(rng, names, depth - 1, wanted)})"
        return rng.choice([name for name in names if type_of(name) == wanted])

    def indices(self, rng, names, depth, keys, old=False):
        """An index: a part for each of these types."""
        return ", ".join(self.expression(rng, names, depth, key, old) for key in keys)

    def select(self, rng, names, depth, old, wanted):
        """What a map has at an index, of this type, now and then, where there is such a map."""
        fits = [TYPES[letter] for letter in self.maps if keys_of(TYPES[letter])[1] == wanted]
        if not fits or rng.random() < (0.6 if depth else 0.88):
            return None
        kind = rng.choice(fits)
        front = self.bracketed(self.map(rng, names, max(depth - 1, 0), kind, old))
        return f"{front}[{self.indices(rng, names, max(depth - 1, 0), keys_of(kind)[0], old)}]"

    def law(self, rng, names):
        """What updates and selects of two maps are to one another; some of it holds of all maps, and some only where two indices differ."""
        kind = TYPES[rng.choice(self.maps)]
        keys, result = keys_of(kind)
        m, o = (self.bracketed(self.map(rng, names, 1, kind, old=True)) for _ in range(2))
        i, j = (self.indices(rng, names, rng.randrange(2), keys, old=True) for _ in range(2))
        v, w = (self.bracketed(self.expression(rng, names, 1, result, old=True)) for _ in range(2))
        return rng.choice([
            f"{m}[{i} := {v}][{i}] == {v}", f"{m}[{i} := {m}[{i}]] == {m}", f"{m}[{i} := {v}][{i} := {w}] == {m}[{i} := {w}]",
            f"{m}[{i} := {v}][{j}] == {m}[{j}]", f"{m}[{i} := {v}][{j} := {w}] == {m}[{j} := {w}][{i} := {v}]",
            f"{m} == {o} ==> {m}[{i}] == {o}[{i}]", f"{m}[{i} := {v}] == {o} ==> {o}[{i}] == {v}",
        ])  # fmt: skip

    def application(self, rng, names, depth, old, wanted):
        """A function of this type applied to arguments, now and then, where there is one."""
        fits = [f for f in self.functions if type_of(f.name) == wanted]
        if not fits or not depth or rng.random() < 0.7:
            return None
        f = rng.choice(fits)
        given = [self.expression(rng, names, depth - 1, type_of(a), old) for a in f.params]
        return f"{f.name}({', '.join(given)})"

    def bracketed(self, text):
        return text if re.fullmatch(r"[\w!]+|(old|f\d[a-z]?)\(\w*\)|\w+\[\w+\]", text) else f"({text})"

    def operand(self, rng, names, depth, old):
        return self.bracketed(self.formula(rng, names, depth, old))

    def specification(self, rng, q):
        lines = [f"  modifies {', '.join(q.modifies)};"] if q.modifies else []
        outer = self.constants + self.names
        for word, names in (("requires", outer + q.params), ("ensures", outer + q.params + q.results)):
            for _ in range(rng.randrange(3)):
                says = self.formula(rng, names, 2, old=word == "ensures")
                lines.append(f"  free {word} {says};" if rng.random() < 0.2 else f"  {word} {self.guarded(rng, says)};")
        return lines

    def written(self, rng, name):
        """The type of this name as a declaration has it: now and then a synonym."""
        kind = type_of(name)
        synonyms = {**(SYNONYMS if self.types else {}), **(MAP_SYNONYMS if self.maps else {})}
        return synonyms[kind] if kind in synonyms and rng.random() < 0.3 else kind

    def head(self, rng, word, q, params, results):
        typed = lambda names: ", ".join(f"{name}: {self.written(rng, name)}" for name in names)
        returns = f" returns ({typed(results)})" if results else ""
        return f"{word} {q.name}({typed(params)}){returns}"

    def lines(self, rng):
        lines = ["type V = T, T;", "type U, N = int;"] if self.types else []
        lines += ["type M = [int]int;"] if self.maps else []
        lines += [f"const {{:existential true}} {name}: bool;" for name in self.candidates]
        lines += [f"const {'unique ' if name in self.uniques else ''}{name}: {self.written(rng, name)};" for name in self.constants]
        lines += [f.line(lambda name: self.written(rng, name)) for f in self.functions]
        lines += [f"axiom {says};" for says in self.axioms]
        lines += [f"var {name}: {self.written(rng, name)};" for name in self.names]
        for q in self.procedures:
            if rng.random() < 0.6:
                lines.append(self.head(rng, "procedure", q, q.params, q.results))
                lines += self.specification(rng, q)
                lines += Body(rng, self, q, q.params, q.results).lines()
                continue
            lines.append(self.head(rng, "procedure", q, q.params, q.results) + ";")
            lines += self.specification(rng, q)
            for _ in range(rng.randrange(3)):
                params, results = ([f"{name}'" for name in names] for names in (q.params, q.results))
                lines.append(self.head(rng, "implementation", q, params, results))
                lines += Body(rng, self, q, params, results).lines()
        return lines


def verdict_lines(report):
    """The lines of a report that its program determines where nothing is unknown."""
    return [line for line in report.split("\n") if not line.startswith("    ")]


def reported(args, folder, number, text, workers):
    """The report of a program, and what is wrong with it, a list of lines."""
    source = os.path.join(folder, f"{number}.bpl")
    with open(source, "w", encoding="ascii") as file:
        file.write(text)
    budget = ["--nodes", str(args.budget), "--rows", str(args.budget)] if args.budget else []
    seats = ["--workers", str(workers)] if workers else []
    ran = subprocess.run([*shlex.split(args.bg), "verify", *seats, *budget, source], capture_output=True, timeout=600)
    report = ran.stdout.decode("latin-1")
    with open(os.path.join(folder, f"{number}.report"), "w", encoding="latin-1") as file:
        file.write(report)
    said = re.findall(r"^implementation \S+ \S+ (\w+)$", report, re.M)
    said += re.findall(r"^axioms: (\w+)", report)
    want = 1 if {"refuted", "contradictory"} & set(said) else 2 if "unknown" in said else 0
    if ran.returncode != want or ran.stderr:
        return report, [f"status {ran.returncode} for {want}: {ran.stderr.decode('latin-1').strip()}"]
    budgets = {"nodes": args.budget, "rows": args.budget} if args.budget else {}
    return report, judge.faults_in(text, report, args.runs, args.seed, **budgets)


# What a search may use up in programs that are annotated: with guesses they have many candidates.
FEW = ["--nodes", "300", "--rows", "300"]


def written(args, command, options, source):
    """What a command writes of a program, and its status."""
    ran = subprocess.run([*shlex.split(args.bg), command, *options, *FEW, source], capture_output=True, timeout=600)
    return ran.stdout.decode("latin-1"), ran.returncode


def annotation_faults(args, folder, number, options):
    """What is wrong with the annotated program: its implementations have the words that the program's have, and it is its own annotated one."""
    report, status = written(args, "verify", options, os.path.join(folder, f"{number}.bpl"))
    text, same = written(args, "annotate", options, os.path.join(folder, f"{number}.bpl"))
    source = os.path.join(folder, f"{number}.annotated.bpl")
    with open(source, "w", encoding="latin-1") as file:
        file.write(text)
    again, other = written(args, "verify", [], source)
    words = [re.findall(r"^implementation (\S+) \S+ (\w+)$", it, re.M) for it in (report, again)]
    if " unknown" in report + again:
        return []
    if (status, status, words[0], text) != (same, other, words[1], written(args, "annotate", [], source)[0]):
        return [f"the program that annotate writes {' '.join(options)} is another one"]
    return []


def judged(args, folder, number):
    """What is wrong with the reports of one program, a list of lines, and the words that they say of candidates and implementations."""
    rng = random.Random(args.seed * 1_000_003 + number)
    text = Program(rng, not args.truths, 8 if args.candidates else 0, args.constants, args.types, args.maps).text
    reports, faults = [], []
    for workers in args.workers or [None]:
        report, wrong = reported(args, folder, number, text, workers)
        reports.append(report)
        faults += wrong
    is_known = not any(re.search(r" unknown", report) for report in reports)
    if is_known and any(verdict_lines(report) != verdict_lines(reports[0]) for report in reports):
        faults.append(f"the verdict lines of {args.workers} workers differ")
    if args.candidates:
        faults += annotation_faults(args, folder, number, []) + annotation_faults(args, folder, number, ["--guess"])
    return faults, re.findall(r"^(?:axioms:|(?:candidate|implementation) \S+(?: \d+:\d+)?) (\w+)", "\n".join(reports), re.M)


def main():
    parser = argparse.ArgumentParser(description=__doc__.split("\n", maxsplit=1)[0])
    parser.add_argument("--bg", required=True)
    parser.add_argument("--count", type=int, default=300)
    parser.add_argument("--seed", type=int, default=1)
    parser.add_argument("--runs", type=int, default=100)
    parser.add_argument("--truths", action="store_true")
    parser.add_argument("--types", action="store_true")
    parser.add_argument("--maps", action="store_true")
    parser.add_argument("--constants", action="store_true")
    parser.add_argument("--candidates", action="store_true")
    parser.add_argument("--workers", type=int, nargs="+")
    parser.add_argument("--budget", type=int)
    parser.add_argument("--jobs", type=int, default=1)
    parser.add_argument("--keep")
    args = parser.parse_args()
    # (the script ./bg then says its failures alone)
    os.environ["BG_QUIET"] = "1"
    failed, words = 0, collections.Counter()
    with tempfile.TemporaryDirectory() as folder:
        if args.keep:
            os.makedirs(args.keep, exist_ok=True)
        asked = functools.partial(judged, args, args.keep or folder)
        with concurrent.futures.ProcessPoolExecutor(args.jobs) as pool:
            for number, (wrong, said) in enumerate(pool.map(asked, range(args.count))):
                words.update(said)
                failed += bool(wrong)
                for line in wrong:
                    print(f"{number}: {line}", flush=True)
    told = ("retained", "dropped") * args.candidates + ("verified", "refuted", "unknown") + ("consistent", "contradictory") * (args.constants or args.types or args.maps)
    print(", ".join(f"{words[word]} {word}" for word in told))
    print(f"{args.count - failed} passed, {failed} failed")
    return 1 if failed or not args.count else 0


if __name__ == "__main__":
    sys.exit(main())
