"""Executes programs over truth values, whole numbers, elements of user types and maps, for the judge of reports; the rules are those of docs/MEANING.md.

Statements are executed and nothing is proved; whole numbers have no bound. A run is a source run, in which loops turn, or an
induction run, in which a loop checks its invariants, forgets what its body may change, and makes one turn or none. Calls go by
the callee's contract in both.
"""
import operator
import random
import re
from typing import NamedTuple

from language import FUNCTIONS, TABLES, updated, walk

OPERATORS = {
    "<==>": operator.eq, "==": operator.eq, "!=": operator.ne, "<": operator.lt, "<=": operator.le, ">": operator.gt,
    ">=": operator.ge, "+": operator.add, "-": operator.sub, "*": operator.mul,
    "&&": lambda a, b: a and b, "||": lambda a, b: a or b, "==>": lambda a, b: not a or b,
}  # fmt: skip
VALUES = {"bool": r"true|false", "int": r"0|-?[1-9][0-9]*"}


class Element(NamedTuple):
    """The element with a number of the user type with a name."""

    type: str
    number: int


class Table(NamedTuple):
    """A map, or what a function without a body gives: a value for some keys, which rise, and one for all others, which none of these has.
    Tables are in the order of their entries, and then of what they say of all others."""

    entries: tuple
    default: object

    def at(self, key):
        return dict(self.entries).get(tuple(key), self.default)

    def put(self, key, value):
        return table(((*self.entries, (tuple(key), value))), self.default)

    def __str__(self):
        entries = [f"{','.join(map(text_of, key))} := {text_of(value)}, " for key, value in self.entries]
        return f"[{''.join(entries)}else {text_of(self.default)}]"


def table(entries, default):
    """The table of entries of which the last one at a key counts."""
    known = {tuple(key): value for key, value in entries}
    return Table(tuple(sorted((key, value) for key, value in known.items() if value != default)), default)


def evaluate(now, entry, says):
    """The value of an expression; `now` and `entry` have the value of each name and the functions, and `entry` is what `old` sees."""
    kind = says[0]
    if kind in ("num", "bool"):
        return says[1]
    if kind == "name":
        return now[says[1]]
    if kind == "apply":
        own = now[FUNCTIONS][says[1]]
        if own.body is None:
            return now[TABLES][says[1]].at([evaluate(now, entry, part) for part in says[2]])
        given = {it.name: evaluate(now, entry, part) for it, part in zip(own.params, says[2])}
        inside = {**now, **given}
        return evaluate(inside, inside, own.body)
    if kind in ("select", "update"):
        own, key = evaluate(now, entry, says[1]), [evaluate(now, entry, part) for part in says[2]]
        return own.at(key) if kind == "select" else own.put(key, evaluate(now, entry, says[3]))
    if kind == "old":
        return evaluate(entry, entry, says[1])
    if kind == "not":
        return not evaluate(now, entry, says[1])
    if kind == "neg":
        return -evaluate(now, entry, says[1])
    return OPERATORS[says[1]](evaluate(now, entry, says[2]), evaluate(now, entry, says[3]))


class Texts:
    """Reads values of a text, as they are written; `None` where no value of the type is spelled."""

    def __init__(self, text):
        self.text, self.at = text, 0

    def accept(self, part):
        is_there = self.text.startswith(part, self.at)
        self.at += len(part) * is_there
        return is_there

    def value(self, kind):
        if isinstance(kind, tuple):
            return self.table(*kind)
        plain = VALUES.get(kind, rf"{re.escape(kind)}!({VALUES['int']})")
        found = re.compile(plain).match(self.text, self.at)
        if not found:
            return None
        self.at = found.end()
        if kind not in VALUES:
            return Element(kind, int(found[1]))
        return found[0] == "true" if kind == "bool" else int(found[0])

    def key(self, kinds):
        """What stands for these types before a value."""
        parts = []
        for number, kind in enumerate(kinds):
            if number and not self.accept(","):
                return None
            parts.append(self.value(kind))
        return tuple(parts) if self.accept(" := ") and None not in parts else None

    def table(self, kinds, result):
        """A table whose entries rise by their keys, and of which none says what the default says."""
        if not self.accept("["):
            return None
        entries = []
        while not self.accept("else "):
            entries.append((self.key(kinds), self.value(result)))
            if None in entries[-1] or not self.accept(", "):
                return None
        default = self.value(result)
        keys = [key for key, _ in entries]
        is_plain = all(a < b for a, b in zip(keys, keys[1:])) and all(value != default for _, value in entries)
        return Table(tuple(entries), default) if default is not None and self.accept("]") and is_plain else None


def value_of(text, kind):
    """The value that a text spells, or None."""
    texts = Texts(text)
    value = texts.value(kind)
    return value if texts.at == len(text) else None


def table_of(text, function):
    """The table of a function that a text spells, or None."""
    return value_of(text, (tuple(it.type for it in function.params), function.result))


def text_of(value):
    if isinstance(value, dict):
        return "; ".join(f"{name} {entries}" for name, entries in value.items())
    if isinstance(value, Element):
        return f"{value.type}!{value.number}"
    return str(value).lower() if isinstance(value, bool) else str(value)


class End(Exception):
    """The end of a run: ended, blocked, going, bad choice, or failed at a place."""

    def __init__(self, word, place=None):
        super().__init__(word)
        self.word, self.place = word, place

    def __str__(self):
        return f"{self.word} at {self.place}" if self.place else self.word


class ListedChoices:
    """Choices that are printed, in order; where they are assumed to be otherwise, the run is blocked."""

    tries = 1

    def __init__(self, texts):
        self.texts, self.taken = texts, 0

    def next(self):
        if self.taken == len(self.texts):
            raise End("bad choice")
        self.taken += 1
        return self.texts[self.taken - 1]

    def branch(self, count):
        found = re.fullmatch(r"branch (0|[1-9][0-9]*)", self.next())
        if not found or int(found[1]) >= count:
            raise End("bad choice")
        return int(found[1])

    def value(self, kind):
        value = value_of(self.next(), kind)
        if value is None:
            raise End("bad choice")
        return value


class RandomChoices:
    """Choices at random; those that an assumption denies at once are made anew a few times."""

    tries = 12

    def __init__(self, seed, pool):
        self.random, self.pool = random.Random(seed), pool

    def branch(self, count):
        return self.random.randrange(count)

    def value(self, kind):
        if isinstance(kind, tuple):
            return self.table(*kind)
        if kind not in VALUES:
            return Element(kind, self.random.randrange(-1, 4))
        return self.random.random() < 0.5 if kind == "bool" else self.random.choice(self.pool)

    def table(self, kinds, result):
        """A table with a few entries."""
        entries = [([self.value(kind) for kind in kinds], self.value(result)) for _ in range(self.branch(4))]
        return table(entries, self.value(result))


class Run:
    """A run of an implementation. `fixed` has the values of the constants and the functions, `outer` and `inner` those of the globals
    and of the implementation's own names."""

    def __init__(self, program, implementation, choices, steps=None, candidates=()):
        """An induction run, or a source run of at most so many steps, under a set of candidates: clauses of others are absent."""
        self.program, self.implementation, self.choices, self.steps = program, implementation, choices, steps
        self.candidates = candidates
        self.fixed = {FUNCTIONS: program.functions}
        self.procedure = program.procedures[implementation.procedure]
        self.is_induction = steps is None
        self.outer, self.inner, self.entry = {}, {}, {}

    def run(self, constants, outer, inner):
        """The end of the run from these values."""
        self.begin(constants, outer, inner)
        try:
            if not self.holds_all(it for it in self.procedure.clauses if it.kind == "requires"):
                return End("blocked")
            self.statements(self.implementation.body)
            for clause in self.procedure.checked("ensures"):
                self.check(clause, f"postcondition {spot(clause)}", self.own())
            return End("ended")
        except End as end:
            return end

    def begin(self, constants, outer, inner):
        self.fixed = {**constants, FUNCTIONS: self.program.functions}
        self.outer, self.inner, self.entry = dict(outer), dict(inner), dict(outer)

    def now(self):
        return {**self.fixed, **self.outer, **self.inner}

    def before(self):
        return {**self.fixed, **self.entry, **self.inner}

    def own(self):
        """The procedure's names, which stand for the implementation's by position: their values now and as `old` sees them."""
        theirs = self.procedure.params + self.procedure.results
        mine = self.implementation.params + self.implementation.results
        names = {it.name: self.inner[other.name] for it, other in zip(theirs, mine)}
        return {**self.fixed, **self.outer, **names}, {**self.fixed, **self.entry, **names}

    def value(self, says):
        return evaluate(self.now(), self.before(), says)

    def is_there(self, clause):
        return clause.candidate is None or clause.candidate in self.candidates

    def holds_all(self, clauses):
        now, before = self.own()
        return all(evaluate(now, before, it.says) for it in clauses if self.is_there(it))

    def check(self, clause, place, scope):
        if not self.is_there(clause):
            return
        self.step()
        if not evaluate(*scope, clause.says):
            raise End("failed", place)

    def step(self):
        if self.steps is not None:
            if self.steps == 0:
                raise End("going")
            self.steps -= 1

    def store(self, name, value):
        (self.inner if name in self.inner else self.outer)[name] = value

    def type_of(self, name):
        known = {it.name: it.type for it in self.program.globals + self.implementation.inner()}
        return known[name]

    # Statements end normally (None), or by a jump: ("goto", label), ("break", label or None), ("return", None).
    def statements(self, statements):
        at = 0
        while at < len(statements):
            jump = self.statement(statements[at])
            at += 1
            if jump is None:
                continue
            ahead = [k for k, it in enumerate(statements) if jump[0] == "goto" and jump[1] in it.labels]
            if not ahead:
                return jump
            at = ahead[0]
        return None

    def statement(self, it):
        self.step()
        jump = getattr(self, f"do_{it.kind}")(it)
        is_left = jump and jump[0] == "break" and it.kind in ("if", "while") and jump[1] in it.labels
        return None if is_left else jump

    def do_skip(self, _):
        return None

    def do_assert(self, it):
        self.check(it.clause, f"assert {spot(it)}", (self.now(), self.before()))

    def do_assume(self, it):
        if not self.value(it.says):
            raise End("blocked")

    def do_havoc(self, it):
        for name in it.names:
            self.store(name, self.choices.value(self.type_of(name)))

    def do_assign(self, it):
        values = [self.value(updated(("name", name), brackets, says)) for name, brackets, says in zip(it.names, it.brackets, it.values)]
        for name, value in zip(it.names, values):
            self.store(name, value)

    def do_goto(self, it):
        return ("goto", it.names[self.choices.branch(len(it.names)) if len(it.names) > 1 else 0])

    def do_break(self, it):
        return ("break", it.names[0] if it.names else None)

    def do_return(self, _):
        return ("return", None)

    def is_first(self, guard):
        """Whether a conditional takes its first side, or a loop makes a turn."""
        return self.choices.branch(2) == 0 if guard is None else self.value(guard)

    def do_if(self, it):
        return self.statements(it.body if self.is_first(it.says) else it.other)

    def holds_here(self, clauses):
        return all(self.value(it.says) for it in clauses if self.is_there(it))

    def do_while(self, it):
        when = "entry"
        while True:
            for clause in it.invariants:
                if not clause.free:
                    self.check(clause, f"invariant {when} {spot(clause)}", (self.now(), self.before()))
            if self.is_induction:
                if when == "turn":
                    raise End("ended")
                self.settle(lambda: self.forget(it.body), lambda: self.holds_here(it.invariants))
            elif not self.holds_here(it.invariants):
                raise End("blocked")
            self.step()
            if not self.is_first(it.says):
                return None
            jump = self.statements(it.body)
            if jump == ("break", None):
                return None
            if jump is not None:
                return jump
            when = "turn"

    def settle(self, choose, holds):
        """Makes choices under which something is assumed."""
        for _ in range(self.choices.tries):
            choose()
            if holds():
                return
        raise End("blocked")

    def forget(self, body):
        """Chooses values of what the body may change: of globals, and then of the implementation's names, as they are declared."""
        changed = set()
        for it in walk(body):
            if it.kind in ("assign", "havoc", "call"):
                changed.update((name in self.inner, name) for name in it.names)
            if it.kind == "call":
                changed.update((False, name) for name in self.program.procedures[it.callee].modifies)
        for group, is_inner in ((self.program.globals, False), (self.implementation.inner(), True)):
            for it in group:
                if (is_inner, it.name) in changed:
                    (self.inner if is_inner else self.outer)[it.name] = self.choices.value(it.type)

    def do_call(self, it):
        callee = self.program.procedures[it.callee]
        given = {v.name: self.value(says) for v, says in zip(callee.params, it.values)}
        for clause in callee.checked("requires"):
            scope = {**self.fixed, **self.outer, **given}
            self.check(clause, f"precondition {spot(it)} of {spot(clause)}", (scope, scope))
        before, results = dict(self.outer), {}

        def choose():
            for v in self.program.globals:
                if v.name in callee.modifies:
                    self.outer[v.name] = self.choices.value(v.type)
            results.update((v.name, self.choices.value(v.type)) for v in callee.results)

        def holds():
            now, entry = {**self.fixed, **self.outer, **given, **results}, {**self.fixed, **before, **given, **results}
            return all(evaluate(now, entry, it.says) for it in callee.clauses if it.kind == "ensures" and self.is_there(it))

        self.settle(choose, holds)
        for name, v in zip(it.names, callee.results):
            self.store(name, results[v.name])


def meets(program, constants):
    """Whether the unique constants of each type differ and all axioms are true where the constants have these values."""
    for kind in {it.type for it in program.uniques}:
        values = [constants[it.name] for it in program.uniques if it.type == kind]
        if len(set(values)) < len(values):
            return False
    scope = {**constants, FUNCTIONS: program.functions}
    return all(evaluate(scope, scope, says) for says in program.axioms)


def spot(it):
    return f"{it.pos[0]}:{it.pos[1]}"


def places(program, implementation):
    """The places of an implementation, in their order: what is checked and where, and the candidate that guards it, or None."""
    found = []

    def add(statements):
        for it in statements:
            if it.kind == "assert":
                found.append((f"assert {spot(it)}", it.clause.candidate))
            if it.kind == "call":
                checked = program.procedures[it.callee].checked("requires")
                found.extend((f"precondition {spot(it)} of {spot(clause)}", clause.candidate) for clause in checked)
            checked = [clause for clause in it.invariants if not clause.free]
            found.extend((f"invariant entry {spot(clause)}", clause.candidate) for clause in checked)
            add(it.body)
            add(it.other)
            found.extend((f"invariant turn {spot(clause)}", clause.candidate) for clause in checked)

    add(implementation.body)
    own = program.procedures[implementation.procedure].checked("ensures")
    return found + [(f"postcondition {spot(clause)}", clause.candidate) for clause in own]
