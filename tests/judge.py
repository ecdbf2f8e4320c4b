#!/usr/bin/env python3
"""Judges a report by executing the program: whether it is right of what it says, as far as runs can tell.

usage: judge.py FILE.bpl REPORT [--runs N] [--seed K] [--nodes N] [--rows N]

The report has the form that docs/FORMATS.md gives, with the places that the program has. Each counterexample is replayed: the run
fails at the place that it is printed for, and takes each printed choice. What is kept of an unknown place is its budget, or an
operation that leaves 128 bits. Of each implementation N runs (100) are made at random, half with loops that turn and half with
loops that are cut, from values of the constants that the axioms take and entry values that its preconditions take; none may fail at a
place that the report doesn't list. All runs are made under the retained candidates. Where the axioms are called contradictory, no values
of the constants that were tried may meet them. The status is 0 where nothing is wrong, and 1 where something is, which is printed.
"""
import argparse
import random
import re
import sys
from dataclasses import dataclass, field

from evaluator import ListedChoices, RandomChoices, Run, meets, places, table_of, text_of, value_of
from language import TABLES, TextFault, read_program

FATES = r"retained|retained unchecked|dropped|dropped unknown (?:nodes|rows|range)"
AXIOMS = ("consistent", "contradictory", "unknown nodes", "unknown rows", "unknown range")
WORDS = ("verified", "refuted", "unknown")
OPERATIONS = {"+": lambda a, b: a + b, "-": lambda a, b: a - b, "*": lambda a, b: a * b, "neg": lambda a, _: -a}
NUMBER = r"(?:0|-?[1-9][0-9]*)"
STEPS = 400


class Wrong(Exception):
    """What is wrong with a report."""


@dataclass
class Place:
    """A place that isn't proved: what is said of it, and the lines below it."""

    name: str
    word: str
    lines: list


@dataclass
class Said:
    """What a report says of one implementation."""

    title: str
    word: str
    places: list = field(default_factory=list)


@dataclass
class Report:
    """What a report says: of the axioms, of each candidate, of the retained set, and of each implementation."""

    axioms: str
    fates: dict
    is_greatest: bool
    said: list

    def retained(self):
        return {name for name, fate in self.fates.items() if fate.startswith("retained")}


def read_front(lines):
    """Takes what a report says of axioms and candidates from its lines, and returns it with whether the retained set is called greatest."""
    axioms = lines[0].removeprefix("axioms: ")
    if f"axioms: {axioms}" != lines[0] or axioms not in AXIOMS or lines[-1] != "" or len(lines) < 4:
        raise Wrong("the report has not the form of one")
    fates, at = {}, 1
    while found := re.fullmatch(rf"candidate (\S+) ({FATES})", lines[at]):
        fates[found[1]] = found[2]
        at += 1
    found = re.fullmatch("retained set: (greatest|inductive)", lines[at])
    if not found:
        raise Wrong(f"a line that no report has: {lines[at]}")
    del lines[: at + 1]
    return axioms, fates, found[1] == "greatest"


def read_report(text):
    """Returns what a report says; its lines are those of the form, and its counts are right."""
    lines = text.split("\n")
    axioms, fates, is_greatest = read_front(lines)
    said = []
    for line in lines[:-2]:
        found = re.fullmatch(r"implementation (\S+ \d+:\d+) (verified|refuted|unknown)", line)
        below = re.fullmatch(r"  (refuted) (.+)|  (unknown) (.+ (?:nodes|rows|range))", line)
        if found:
            said.append(Said(*found.groups()))
        elif below and said:
            said[-1].places.append(Place(below[2] or below[4].rpartition(" ")[0], (below[1] or below[4].rpartition(" ")[2]), []))
        elif line.startswith("    ") and said and said[-1].places:
            said[-1].places[-1].lines.append(line[4:])
        else:
            raise Wrong(f"a line that no report has: {line}")
    report = Report(axioms, fates, is_greatest, said)
    counts = f"{len(report.retained())} retained, {len(fates) - len(report.retained())} dropped; "
    counts += ", ".join(f"{sum(it.word == word for it in said)} {word}" for word in WORDS)
    if lines[-2] != f"summary: {counts}":
        raise Wrong(f"the summary is {lines[-2]}, and the counts are {counts}")
    return report


def check_candidates(program, report):
    """The report speaks of each candidate, in order; those without a place are unchecked, and the set is the greatest but for unknown drops."""
    if list(report.fates) != program.candidates:
        raise Wrong(f"the candidates are {program.candidates}")
    checked = {candidate for own in program.implementations for _, candidate in places(program, own)}
    for name, fate in report.fates.items():
        if (fate == "retained unchecked") != (name not in checked):
            raise Wrong(f"candidate {name} is {fate}, and has {'a' if name in checked else 'no'} place")
    if report.is_greatest and any("unknown" in fate for fate in report.fates.values()):
        raise Wrong("a candidate was dropped unknown, and the set is called greatest")


def check_form(program, said):
    """The report speaks of the implementations and places of the program, in their order, and each word is that of the places."""
    titles = [it.title() for it in program.implementations]
    if [it.title for it in said] != titles:
        raise Wrong(f"the implementations are {titles}")
    for it, own in zip(said, program.implementations):
        there = [name for name, candidate in places(program, own) if candidate is None]
        listed = [place.name for place in it.places]
        if [name for name in there if name in listed] != listed:
            raise Wrong(f"{it.title}: the places listed are {listed}, and its places are {there}")
        open_words = {place.word for place in it.places}
        if it.word != ("refuted" if "refuted" in open_words else "unknown" if open_words else "verified"):
            raise Wrong(f"{it.title}: {it.word} is not the word of what is listed below it")


def check_kept(place, budgets):
    """Below an unknown place stands what is kept."""
    if place.word in budgets:
        if place.lines != [f"kept {budgets[place.word]}"]:
            raise Wrong(f"{place.name}: kept is {place.lines}, and the budget {budgets[place.word]}")
        return
    found = re.fullmatch(rf"kept (\+|-|\*|neg) ({NUMBER}) ({NUMBER})", "\n".join(place.lines))
    if not found or -(2**127) <= OPERATIONS[found[1]](int(found[2]), int(found[3])) < 2**127:
        raise Wrong(f"{place.name}: no operation that leaves 128 bits: {place.lines}")


def entry_values(variables, lines, kind="var"):
    """The values that the first lines give to variables or constants, by name."""
    values = {}
    if len(lines) < len(variables):
        raise Wrong(f"{len(variables)} variables, and {len(lines)} lines")
    for it, line in zip(variables, lines):
        head, text = f"{kind} {it.name} = ", line.partition(" = ")[2]
        value = value_of(text, it.type)
        if not line.startswith(head) or value is None:
            raise Wrong(f"{head}with a value of type {it.type} is wanted in place of: {line}")
        values[it.name] = value
    return values


def tables_in(program, lines):
    """The tables that the first lines give to functions without a body, by name."""
    tables = {}
    for (name, it), line in zip(program.bodiless().items(), [*lines, *[""] * len(program.functions)]):
        head, table = f"function {name} = ", table_of(line.partition(" = ")[2], it)
        if not line.startswith(head) or table is None:
            raise Wrong(f"{head}with a table is wanted in place of: {line}")
        tables[name] = table
    return tables


def check_counterexample(program, own, place, retained):
    """The printed constants and tables meet the axioms, and the printed run fails at its place and takes each printed choice."""
    constants = entry_values(program.constants, place.lines, "const")
    constants[TABLES] = tables_in(program, place.lines[len(program.constants) :])
    if not meets(program, constants):
        raise Wrong(f"the axioms are not met by {shown(constants)}")
    outer, inner, lines = program.globals, own.inner(), place.lines[len(program.constants) + len(program.bodiless()) :]
    state = constants, entry_values(outer, lines), entry_values(inner, lines[len(outer) :])
    lines = lines[len(outer) + len(inner) :]
    if not all(line.startswith("choice ") for line in lines):
        raise Wrong(f"choices are wanted behind the variables: {lines}")
    choices = ListedChoices([line[len("choice ") :] for line in lines])
    end = Run(program, own, choices, candidates=retained).run(*state)
    if (end.word, end.place) != ("failed", place.name):
        raise Wrong(f"the run {end}")
    if choices.taken != len(lines):
        raise Wrong(f"the run takes {choices.taken} choices of {len(lines)}")


def pool_of(text):
    """Whole numbers to try: small ones, and those beside the numbers of the program."""
    numbers = {int(it) for it in re.findall(r"(?<![\w'~#$^.?`])[0-9]{1,40}", text)}
    near = {sign * number + step for number in sorted(numbers)[:40] for sign in (1, -1) for step in (-1, 0, 1)}
    return [*range(-3, 6)] * (1 + len(near) // 12) + sorted(near)


def shown(values):
    return ", ".join(f"{name} = {text_of(value)}" for name, value in values.items() if value != {})


def interpretation(program, choices):
    """Values of the constants and tables at random that meet the axioms, or None where none were found."""
    for _ in range(60):
        constants = {it.name: choices.value(it.type) for it in program.constants}
        constants[TABLES] = {name: choices.table([v.type for v in it.params], it.result) for name, it in program.bodiless().items()}
        if meets(program, constants):
            return constants
    return None


def start(program, own, choices, asked):
    """Values at random: of the constants, and entry values, if they are found, of those that the preconditions take."""
    constants = interpretation(program, choices)
    if constants is None:
        return None
    run = Run(program, own, choices, candidates=asked.retained)
    wanted = [it for it in run.procedure.clauses if it.kind == "requires"]
    for _ in range(30):
        outer = {it.name: choices.value(it.type) for it in program.globals}
        inner = {it.name: choices.value(it.type) for it in own.inner()}
        run.begin(constants, outer, inner)
        if run.holds_all(wanted):
            break
    return constants, outer, inner


def attack(program, own, said, asked):
    """No run at random fails at a place that is not listed, that of a retained candidate among them."""
    open_places = {it.name for it in said.places}
    for number in range(asked.runs):
        choices = RandomChoices(f"{asked.seed} {said.title} {number}", asked.pool)
        values = start(program, own, choices, asked)
        if values is None:
            continue
        end = Run(program, own, choices, None if number % 2 else STEPS, asked.retained).run(*values)
        if end.word == "failed" and end.place not in open_places:
            values = ", ".join(said for said in map(shown, values) if said)
            kind = "with loops cut" if number % 2 else "with loops that turn"
            raise Wrong(f"{end.place} is called proved, and a run {kind} fails there from {values or 'the only state'}")


@dataclass
class Asked:
    """How a program is attacked: by how many runs, from which seed, with which numbers, and under which candidates."""

    runs: int
    seed: int
    pool: list
    retained: set


def check_axioms(program, report, asked):
    """Where the axioms are called contradictory, no values at random meet them; and without axioms they are consistent, but for three unique truths."""
    truths = [it for it in program.uniques if it.type == "bool"]
    if not program.axioms and report.axioms != ("contradictory" if len(truths) > 2 else "consistent"):
        raise Wrong(f"there are no axioms, and they are {report.axioms}")
    for number in range(asked.runs if report.axioms == "contradictory" else 0):
        constants = interpretation(program, RandomChoices(f"{asked.seed} axioms {number}", asked.pool))
        if constants is not None:
            raise Wrong(f"the axioms are called contradictory, and are met by {shown(constants)}")


def faults_in(text, report, runs=100, seed=1, nodes=20_000, rows=20_000):
    """What is wrong with the report of a program: a list of lines."""
    program = read_program(text)
    try:
        report = read_report(report)
        check_candidates(program, report)
        check_form(program, report.said)
    except Wrong as wrong:
        return [str(wrong)]
    faults, asked = [], Asked(runs, seed, pool_of(text), report.retained())

    def ask(where, question, *words):
        try:
            question(*words)
        except Wrong as wrong:
            faults.append(f"{where}: {wrong}")

    ask("axioms", check_axioms, program, report, asked)
    for it, own in zip(report.said, program.implementations):
        for place in it.places:
            where = f"{it.title}, {place.name}"
            if place.word == "refuted":
                ask(where, check_counterexample, program, own, place, asked.retained)
            else:
                ask(where, check_kept, place, {"nodes": nodes, "rows": rows})
        ask(it.title, attack, program, own, it, asked)
    return faults


def main():
    parser = argparse.ArgumentParser(description=__doc__.split("\n", maxsplit=1)[0])
    parser.add_argument("program")
    parser.add_argument("report")
    for word, usual in (("--runs", 100), ("--seed", 1), ("--nodes", 20_000), ("--rows", 20_000)):
        parser.add_argument(word, type=int, default=usual)
    args = parser.parse_args()
    with open(args.program, encoding="latin-1") as file:
        text = file.read()
    with open(args.report, encoding="latin-1") as file:
        report = file.read()
    try:
        faults = faults_in(text, report, args.runs, args.seed, args.nodes, args.rows)
    except TextFault as fault:
        faults = [f"the program is not one that is judged: {fault}"]
    print(*faults, sep="\n", end="\n" if faults else "")
    return 1 if faults else 0


if __name__ == "__main__":
    sys.setrecursionlimit(20_000)
    sys.exit(main())
