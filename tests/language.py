"""Reads programs over truth values, whole numbers, elements of user types and maps, for the judge of reports: tokens, trees, names and types.

It is written from the rules of the language in docs/TEXT.md, and knows nothing of the program that it judges. A text that
breaks one of them is refused (`TextFault`) at a place near the fault.

Types are "int", "bool", the names of user types, and maps (index types, result type); synonyms are unfolded. Expressions are tuples:
("num", n), ("bool", b), ("name", x), ("old", e), ("not", e), ("neg", e), ("bin", sign, left, right), ("apply", f, arguments),
("select", map, indices) and ("update", map, indices, value).
"""
import re
from dataclasses import dataclass, field

KEYWORDS = set("""assert assume axiom bool break call const else ensures false free function goto havoc if implementation int
invariant modifies old procedure requires return returns true type unique var while""".split())
RESERVED = set("async complete datatype div exists extends finite forall lambda mod par real then where yield".split())
SIGNS = "<==> ==> <== := <= >= == != && || ( ) [ ] { } , ; : = < > ! + - *".split()
NAME = r"[A-Za-z'~#$^_.?`][A-Za-z0-9'~#$^_.?`]*"
TOKEN = re.compile(
    rf"""(?P<layout>[ \t\r\n]+|//[^\n]*)|(?P<comment>/\*)|(?P<name>{NAME})|(?P<num>[0-9]+(?![A-Za-z]))"""
    rf"""|(?P<string>"(?:[^"\\\n]|\\[^\n])*")|(?P<sign>{"|".join(re.escape(it) for it in SIGNS)})"""
)
SYNONYMS = {"&&", "||", "==>", "<==", "<==>"}
ORDERS = {"<", "<=", ">", ">="}
FUNCTIONS = "()"  # where functions stand beside variables; no name is this
TABLES = "[]"  # where the tables of functions without a body stand beside the values of constants


class TextFault(Exception):
    """The text is no program of this language."""


@dataclass(frozen=True)
class Token:
    kind: str  # name, num, string, sign, word or end
    text: str
    pos: tuple  # line and column, both from 1


def end_of_comment(text, at):
    depth = 0
    for found in re.compile(r"/\*|\*/").finditer(text, at):
        depth += 1 if found.group() == "/*" else -1
        if depth == 0:
            return found.end()
    raise TextFault("an open comment")


def tokens_of(text):
    tokens, at, line, start = [], 0, 1, 0
    while at < len(text):
        found = TOKEN.match(text, at)
        pos = (line, at - start + 1)
        if not found:
            raise TextFault(f"{pos}: no token")
        end = found.end() if found.lastgroup != "comment" else end_of_comment(text, at)
        if found.lastgroup not in ("layout", "comment"):
            word = found.group()
            if word in RESERVED:
                raise TextFault(f"{pos}: {word} is reserved")
            tokens.append(Token("word" if word in KEYWORDS else found.lastgroup, word, pos))
        if "\n" in text[at:end]:
            line += text.count("\n", at, end)
            start = text.rindex("\n", at, end) + 1
        at = end
    return [*tokens, Token("end", "", (line, at - start + 1))]


@dataclass
class Variable:
    name: str
    type: str


@dataclass
class Function:
    """A function: its arguments, the type of its result, and its body; None where it has none."""

    params: list
    result: str
    body: tuple


@dataclass
class Clause:
    """A clause of a procedure or a loop, or an assertion: its kind, what it says, where its first word stands, and the candidate that guards it."""

    kind: str
    free: bool
    says: tuple
    pos: tuple
    candidate: str = None


@dataclass
class Procedure:
    name: str
    params: list
    results: list
    pos: tuple
    clauses: list = field(default_factory=list)
    modifies: set = field(default_factory=set)

    def checked(self, kind):
        return [it for it in self.clauses if it.kind == kind and not it.free]


@dataclass
class Implementation:
    procedure: str
    params: list
    results: list
    locals: list
    body: list
    pos: tuple

    def title(self):
        return f"{self.procedure} {self.pos[0]}:{self.pos[1]}"

    def inner(self):
        return self.params + self.results + self.locals


@dataclass
class Statement:
    """A statement; `kind` is its keyword, or assign, or skip for labels with nothing behind them."""

    kind: str
    pos: tuple
    labels: list = field(default_factory=list)
    clause: Clause = None  # of an assertion
    says: tuple = None  # of an assumption; the guard of a loop or a conditional, none for *
    names: list = field(default_factory=list)  # left sides, what is forgotten, what takes results, labels
    brackets: list = field(default_factory=list)  # for each left side the indices of each of its brackets
    values: list = field(default_factory=list)  # right sides, arguments
    callee: str = None
    body: list = field(default_factory=list)
    other: list = field(default_factory=list)
    invariants: list = field(default_factory=list)


@dataclass
class Program:
    types: dict = field(default_factory=dict)  # by name: what a synonym stands for, or None
    candidates: list = field(default_factory=list)
    constants: list = field(default_factory=list)
    uniques: list = field(default_factory=list)  # those of the constants that are unique
    functions: dict = field(default_factory=dict)
    axioms: list = field(default_factory=list)
    globals: list = field(default_factory=list)
    procedures: dict = field(default_factory=dict)
    implementations: list = field(default_factory=list)

    def bodiless(self):
        """The functions without a body, by name, in their order."""
        return {name: it for name, it in self.functions.items() if it.body is None}


class Reader:
    """One method for each rule of the grammar."""

    def __init__(self, text):
        self.tokens, self.at = tokens_of(text), 0
        self.program = Program()

    def now(self, ahead=0):
        return self.tokens[min(self.at + ahead, len(self.tokens) - 1)]

    def sees(self, *texts):
        return self.now().kind in ("sign", "word") and self.now().text in texts

    def take(self, text=None, kind=None):
        token = self.now()
        if (text is not None and not self.sees(text)) or (kind is not None and token.kind != kind):
            raise TextFault(f"{token.pos}: {text or kind} is wanted, and here stands {token.text}")
        self.at += 1
        return token

    def accept(self, text):
        return self.take() if self.sees(text) else None

    def name(self):
        return self.take(kind="name").text

    def commas(self, item, end=None):
        """Items between commas; none where the end stands here."""
        if end and self.sees(end):
            return []
        items = [item()]
        while self.accept(","):
            items.append(item())
        return items

    def attributes(self):
        """Passes attributes, and returns the texts between their braces."""
        found = []
        while self.sees("{") and self.now(1).text == ":":
            found.append([])
            while self.take().text != "}":
                if self.now().kind == "end":
                    raise TextFault(f"{self.now().pos}: an open attribute")
                found[-1].append(self.now().text)
            found[-1].pop()
        return found

    def whole(self):
        rules = {
            "type": self.types, "const": self.constants, "function": self.function, "axiom": self.axiom, "var": self.globals,
            "procedure": self.procedure, "implementation": self.implementation,
        }  # fmt: skip
        while self.now().kind != "end":
            token = self.take(kind="word")
            if token.text not in rules:
                raise TextFault(f"{token.pos}: {token.text} is not judged")
            if token.text != "const":
                self.attributes()
            rules[token.text](token.pos)
        return self.program

    def types(self, _):
        def one():
            name = self.name()
            self.program.types[name] = self.type() if self.accept("=") else None

        self.commas(one)
        self.take(";")

    def constants(self, _):
        is_candidate = [":", "existential", "true"] in self.attributes()
        is_unique = self.accept("unique") is not None
        names = self.commas(self.name)
        self.take(":")
        kind = self.type()
        self.take(";")
        if is_candidate:
            if is_unique:
                raise TextFault("a candidate is not unique")
            self.program.candidates += names
            return
        made = [Variable(name, kind) for name in names]
        self.program.constants += made
        self.program.uniques += made if is_unique else []

    def function(self, pos):
        name = self.name()
        self.take("(")
        params = self.commas(self.argument, ")")
        self.take(")")
        if self.accept("returns"):
            self.take("(")
            result = self.argument().type
            self.take(")")
        else:
            self.take(":")
            result = self.type()
        if self.accept(";"):
            self.program.functions[name] = Function(params, result, None)
            return
        self.take("{")
        self.program.functions[name] = Function(params, result, self.expression())
        self.take("}")

    def argument(self):
        name = None
        if self.now(1).text == ":":
            name = self.name()
            self.take(":")
        return Variable(name, self.type())

    def axiom(self, _):
        self.program.axioms.append(self.expression())
        self.take(";")

    def globals(self, _):
        self.program.globals += self.formals()
        self.take(";")

    def formals(self):
        def group():
            self.attributes()
            names = self.commas(self.name)
            self.take(":")
            return [(name, kind) for kind in [self.type()] for name in names]

        return [Variable(name, kind) for names in self.commas(group) for name, kind in names]

    def type(self):
        if self.accept("("):
            inner = self.type()
            self.take(")")
            return inner
        if self.accept("["):
            keys = self.commas(self.type)
            self.take("]")
            return tuple(keys), self.type()
        if not self.sees("int", "bool") and self.now().kind != "name":
            raise TextFault(f"{self.now().pos}: no type that is judged")
        return self.take().text

    def signature(self):
        def group():
            self.take("(")
            found = [] if self.sees(")") else self.formals()
            self.take(")")
            return found

        params = group()
        return params, group() if self.accept("returns") else []

    def procedure(self, pos):
        it = Procedure(self.name(), *self.signature(), pos)
        is_open = not self.accept(";")
        while self.sees("free", "requires", "ensures", "modifies"):
            if self.accept("modifies"):
                it.modifies.update(self.commas(self.name, ";"))
                self.take(";")
            else:
                free = bool(self.accept("free"))
                it.clauses.append(self.clause(self.take(), free))
        self.program.procedures[it.name] = it
        if is_open:
            self.body(it.name, it.params, it.results, pos)

    def clause(self, word, free):
        self.attributes()
        says = self.expression()
        self.take(";")
        return Clause(word.text, free, says, word.pos)

    def guard_clauses(self):
        """A clause that is checked and says `b ==> e` of a candidate b says e, guarded by b."""
        names = set(self.program.candidates)
        for clause in clauses_of(self.program):
            says = clause.says
            is_guarded = not clause.free and says[:2] == ("bin", "==>") and says[2][0] == "name" and says[2][1] in names
            if is_guarded:
                clause.candidate, clause.says = says[2][1], says[3]

    def implementation(self, pos):
        self.body(self.name(), *self.signature(), pos)

    def body(self, procedure, params, results, pos):
        variables = []
        self.take("{")
        while self.accept("var"):
            variables += self.formals()
            self.take(";")
        body = self.statements()
        self.take("}")
        self.program.implementations.append(Implementation(procedure, params, results, variables, body, pos))

    def statements(self):
        found, labels = [], []
        while not self.sees("}"):
            if self.now().kind == "name" and self.now(1).text == ":":
                labels.append(self.name())
                self.take(":")
                continue
            it = self.statement()
            it.labels, labels = labels, []
            found.append(it)
        return found + ([Statement("skip", self.now().pos, labels)] if labels else [])

    def block(self):
        self.take("{")
        found = self.statements()
        self.take("}")
        return found

    def statement(self):
        token = self.now()
        it = Statement(token.text, token.pos)
        if token.kind == "name":
            sides = self.commas(self.side)
            it.kind, it.names, it.brackets = "assign", [name for name, _ in sides], [brackets for _, brackets in sides]
            self.take(":=")
            it.values = self.commas(self.expression)
            self.take(";")
            return it
        self.take(kind="word")
        if token.text in ("if", "while"):
            return self.branch(it) if token.text == "if" else self.loop(it)
        if token.text == "assert":
            it.clause = self.clause(token, False)
            return it
        self.simple(it)
        self.take(";")
        return it

    def side(self):
        """A left side: a name, and the indices of each bracket behind it."""
        name, brackets = self.name(), []
        while self.accept("["):
            brackets.append(self.commas(self.expression))
            self.take("]")
        return name, brackets

    def simple(self, it):
        if it.kind == "assume":
            self.attributes()
            it.says = self.expression()
        elif it.kind in ("havoc", "goto"):
            it.names = self.commas(self.name)
        elif it.kind == "break":
            it.names = self.commas(self.name, ";")
        elif it.kind == "call":
            self.call(it)
        elif it.kind != "return":
            raise TextFault(f"{it.pos}: no statement")

    def call(self, it):
        self.attributes()
        if self.now(1).text in (",", ":="):
            it.names = self.commas(self.name)
            self.take(":=")
        it.callee = self.name()
        self.take("(")
        it.values = self.commas(self.expression, ")")
        self.take(")")

    def guard(self):
        self.take("(")
        says = None if self.accept("*") else self.expression()
        self.take(")")
        return says

    def branch(self, it):
        it.says, it.body = self.guard(), self.block()
        if self.accept("else"):
            it.other = [self.branch(Statement("if", self.take().pos))] if self.sees("if") else self.block()
        return it

    def loop(self, it):
        it.says = self.guard()
        while self.sees("free", "invariant"):
            free = bool(self.accept("free"))
            it.invariants.append(self.clause(self.take("invariant"), free))
        it.body = self.block()
        return it

    # Chains of one level go to the left, but for ==>.
    def expression(self):
        left = self.implications()
        while self.accept("<==>"):
            left = ("bin", "<==>", left, self.implications())
        return left

    def implications(self):
        parts = [self.junctions()]
        sign = self.now().text if self.sees("==>", "<==") else None
        while sign and self.accept(sign):
            parts.append(self.junctions())
        if sign == "==>":
            parts.reverse()
        whole = parts[0]
        for part in parts[1:]:
            whole = ("bin", "==>", part, whole)
        return whole

    def chain(self, part, *signs):
        left = part()
        while self.sees(*signs):
            left = ("bin", self.take().text, left, part())
        return left

    def junctions(self):
        left = self.relation()
        sign = self.now().text if self.sees("&&", "||") else None
        while sign and self.accept(sign):
            left = ("bin", sign, left, self.relation())
        return left

    def relation(self):
        left = self.sum()
        if self.sees("==", "!=", "<", "<=", ">", ">="):
            return ("bin", self.take().text, left, self.sum())
        return left

    def sum(self):
        return self.chain(self.product, "+", "-")

    def product(self):
        return self.chain(self.signed, "*")

    def signed(self):
        signs = []
        while self.sees("!", "-"):
            signs.append(self.take().text)
        inner = self.bracketed()
        for sign in reversed(signs):
            inner = ("not" if sign == "!" else "neg", inner)
        return inner

    def bracketed(self):
        inner = self.atom()
        while self.accept("["):
            indices = self.commas(self.expression)
            inner = ("update", inner, indices, self.expression()) if self.accept(":=") else ("select", inner, indices)
            self.take("]")
        return inner

    def atom(self):
        token = self.take()
        if token.kind == "num":
            return ("num", int(token.text))
        if token.kind == "name" and self.accept("("):
            given = self.commas(self.expression, ")")
            self.take(")")
            return ("apply", token.text, given)
        if token.kind == "name":
            return ("name", token.text)
        if token.kind == "word" and token.text in ("true", "false"):
            return ("bool", token.text == "true")
        is_old = token.kind == "word" and token.text == "old"
        if is_old:
            self.take("(")
        elif token.kind != "sign" or token.text != "(":
            raise TextFault(f"{token.pos}: no expression")
        inner = self.expression()
        self.take(")")
        return ("old", inner) if is_old else inner


def walk(statements):
    """All statements, in the order of the text."""
    for it in statements:
        yield it
        yield from walk(it.body)
        yield from walk(it.other)


def clauses_of(program):
    """All clauses that a candidate may guard."""
    for it in program.procedures.values():
        yield from it.clauses
    for it in program.implementations:
        for statement in walk(it.body):
            yield from statement.invariants
            if statement.clause:
                yield statement.clause


def type_of(types, says):
    """Returns the type of an expression over variables of these types; a fault where it has none."""
    kind = says[0]
    if kind in ("num", "bool"):
        return "int" if kind == "num" else "bool"
    if kind == "name":
        if says[1] not in types:
            raise TextFault(f"no variable {says[1]}")
        return types[says[1]]
    if kind == "apply":
        if says[1] not in types[FUNCTIONS]:
            raise TextFault(f"no function {says[1]}")
        own = types[FUNCTIONS][says[1]]
        check_list(types, says[2], [v.type for v in own.params])
        return own.result
    if kind == "old":
        return type_of(types, says[1])
    if kind in ("select", "update"):
        own = type_of(types, says[1])
        if not isinstance(own, tuple):
            raise TextFault(f"no map: {says[1]}")
        check_list(types, says[2], own[0])
        return own[1] if kind == "select" else own if wanted(types, says[3], own[1]) else None
    if kind in ("not", "neg"):
        return wanted(types, says[1], "bool" if kind == "not" else "int")
    sign, left, right = says[1:]
    if sign in ("==", "!="):
        wanted(types, right, type_of(types, left))
        return "bool"
    parts = "bool" if sign in SYNONYMS else "int"
    wanted(types, left, parts)
    wanted(types, right, parts)
    return "bool" if sign in SYNONYMS | ORDERS else "int"


def wanted(types, says, kind):
    if type_of(types, says) != kind:
        raise TextFault(f"no {kind}: {says}")
    return kind


def names_and_types(program, *groups):
    """Types by name, constants' among them; the later group hides the earlier one."""
    types = {it.name: it.type for group in (program.constants, *groups) for it in group}
    return {**types, FUNCTIONS: program.functions}


def check_types(program):
    """Refuses a program that names what isn't there, or of which a part has no type or another than is wanted."""
    for it in program.functions.values():
        if it.body is not None:
            wanted(names_and_types(program, it.params), it.body, it.result)
    for says in program.axioms:
        wanted(names_and_types(program), says, "bool")
    for it in program.procedures.values():
        for clause in it.clauses:
            seen = it.params + (it.results if clause.kind == "ensures" else [])
            wanted(names_and_types(program, program.globals, seen), clause.says, "bool")
    for it in program.implementations:
        types, own = names_and_types(program, program.globals, it.inner()), program.procedures.get(it.procedure)
        if own is None or [v.type for v in own.params + own.results] != [v.type for v in it.params + it.results]:
            raise TextFault(f"no procedure for the implementation {it.title()}")
        for statement in walk(it.body):
            check_statement(program, types, statement)


def check_statement(program, types, it):
    clauses = it.invariants + ([it.clause] if it.clause else [])
    for says in [clause.says for clause in clauses] + ([it.says] if it.says else []):
        wanted(types, says, "bool")
    if it.kind == "assign":
        kinds = [type_of(types, selected(("name", name), brackets)) for name, brackets in zip(it.names, it.brackets)]
        if len(set(it.names)) < len(it.names):
            raise TextFault(f"{it.pos}: a variable stands twice on the left")
        check_list(types, it.values, kinds)
    if it.kind == "call":
        if it.callee not in program.procedures:
            raise TextFault(f"{it.pos}: no procedure {it.callee}")
        callee = program.procedures[it.callee]
        check_list(types, it.values, [v.type for v in callee.params])
        check_list(types, [("name", name) for name in it.names], [v.type for v in callee.results])


def selected(says, brackets):
    """What an expression is behind these brackets."""
    for indices in brackets:
        says = ("select", says, indices)
    return says


def updated(says, brackets, value):
    """The map that is assigned where a value is assigned to what stands behind these brackets."""
    if not brackets:
        return value
    indices, *inner = brackets
    return ("update", says, indices, updated(("select", says, indices), inner, value))


def check_list(types, values, kinds):
    if len(values) != len(kinds):
        raise TextFault(f"{len(values)} values for {len(kinds)}")
    for value, kind in zip(values, kinds):
        wanted(types, value, kind)


def unfolded(program, kind, left=None):
    """A type without synonyms, of which at most so many stand in one another; the index types of a map are whole numbers and user types."""
    left = len(program.types) if left is None else left
    if isinstance(kind, tuple):
        keys = tuple(unfolded(program, it, left) for it in kind[0])
        if any(it == "bool" or isinstance(it, tuple) for it in keys):
            raise TextFault(f"no index type: {kind}")
        return keys, unfolded(program, kind[1], left)
    if kind in ("int", "bool"):
        return kind
    if kind not in program.types:
        raise TextFault(f"no type {kind}")
    if program.types[kind] is None:
        return kind
    if left == 0:
        raise TextFault(f"the synonym {kind} reaches itself")
    return unfolded(program, program.types[kind], left - 1)


def unfold_types(program):
    """Unfolds synonyms everywhere."""
    groups = [program.constants, program.globals, *(it.params for it in program.functions.values())]
    groups += [group for it in program.procedures.values() for group in (it.params, it.results)]
    groups += [it.inner() for it in program.implementations]
    for name in program.types:
        unfolded(program, name)
    for it in (it for group in groups for it in group):
        it.type = unfolded(program, it.type)
    for it in program.functions.values():
        it.result = unfolded(program, it.result)


def read_program(text):
    reader = Reader(text)
    program = reader.whole()
    unfold_types(program)
    reader.guard_clauses()
    check_types(program)
    return program
