#!/usr/bin/env python3
"""Certificates through bg: what certify writes is accepted, and no other text is that should not be.

usage: certificates.py --bg COMMAND [--short]

- Each program of examples/ that is verified as it is written: what `certify` writes has its status, and `check` accepts it. For each other
  one that is judged, `check` names the first place that its report doesn't call proved.
- The first reason why a certificate is rejected or refused, for texts written by hand; among them values and tables with elements of
   user types, and with maps, wrong in one way each.
 - The lines of a place's terms and instances: those that name what isn't there are rejected, and the others change nothing.
- A certificate without one of its lines, with two of its sections exchanged or with one twice, is never accepted: so nothing in it is idle.
- Hostile texts: numbers out of range, a hundred thousand splits, a text cut off behind each line, one line as long as a text may be: a
  named status, and memory that grows with the text alone. With --short these are shorter.

The last line is `N passed, M failed`.
"""
import argparse
import glob
import os
import re
import resource
import shlex
import subprocess
import sys
import tempfile

TOP = os.path.dirname(os.path.dirname(os.path.abspath(__file__)))
MOST = 67_108_864  # bytes of a certificate's text
FRONT = "bg-cert 1\ninterp\n"
EMPTY = FRONT + "end\n"
COPY = "procedure P(a: bool) { var b: bool; b := a; assert b == a; }"
COUNT = """const {:existential true} b0, b1, b2: bool;
procedure Count(n: int) returns (i: int) requires 0 <= n; ensures i == n;
{ i := 0; while (i < n) invariant b0 ==> i >= 0; invariant b1 ==> i >= 1; invariant b2 ==> i <= n; { i := i + 1; } }"""
CONSTANTS = "const c: int; const on: bool; axiom 2 <= c && c < 5; axiom on ==> c == 4;"
ELEMENTS = """type S = T, T, U; const unique a, b: T; const unique d: S; const c: U;
function f(x: S, n: int): U; function g(t: T, u: U): S; axiom f(a, 1) != c && f(b, 1) == c;"""
OF_ELEMENTS = """const a T!-1
const b T!3
const d T!7
const c U!3
function f [T!-1,1 := U!0, else U!3]
function g [T!-2,U!0 := T!1, T!3,U!-1 := T!2, T!3,U!4 := T!3, else T!0]
"""
MAPS = """type T; const m: [int]int; const n: [int,T]bool; type G = [int]H, H = [int]int; const g: G; const t: T;
function f(x: H): [T]int; axiom m[1] == 2 && m[0] == 0 && n[3, t] && g[1] == m && f(m)[t] == 5 && f(g[0]) == f(m)[t := 3];"""
OF_MAPS = """const m [1 := 2, else 0]
const n [3,T!0 := true, else false]
const g [1 := [1 := 2, else 0], else [else 0]]
const t T!0
function f [[else 0] := [T!0 := 3, else 1], [1 := 2, else 0] := [T!0 := 5, else 1], else [else 0]]
"""
UNPROVED = "rejected: P 1:1 assert 1:45\n"
TIMES = 60  # kilobytes of memory for each kilobyte of a hostile text, at most
BASE = 60_000  # kilobytes of memory that any run may take

# what may not stand in a certificate's values of ELEMENTS: why, a part of them, and what stands in its place. Nothing else is wrong there
WRONG_ELEMENTS = [
    ("one element for two unique constants, of which one is declared by a synonym", "d T!7", "d T!3"),
    ("another element, with which an axiom is false", "c U!3", "c U!0"),
    ("an element of another type", "b T!3", "b U!3"),
    ("an element of a synonym, for a constant of its type", "b T!3", "b S!3"),
    ("an element of a synonym, for a constant that is declared by it", "d T!7", "d S!7"),
    ("an element of no type", "b T!3", "b V!3"),
    ("a number for an element", "c U!3", "c 3"),
    ("a key of another type", "[T!-1,1", "[U!-1,1"),
    ("a key of a synonym", "[T!-1,1", "[S!-1,1"),
    ("an element for a number in a key", "[T!-1,1", "[T!-1,T!1"),
    ("a number for an element in a key", "[T!-2,U!0", "[T!-2,0"),
    ("a key with a part too few", "[T!-2,U!0", "[T!-2"),
    ("a key with a part too many", "[T!-2,U!0", "[T!-2,U!0,U!0"),
    ("an entry's value of another type", ":= T!1", ":= U!1"),
    ("a default of another type", "else U!3", "else T!3"),
    ("a default of a synonym", "else T!0", "else S!0"),
]
# and what no line has: why, a part of them, what stands in its place, and the line
NO_ELEMENTS = [
    ("keys in another order by their first parts", "U!0, else", "U!0, T!-2,1 := U!5, else", 7),
    ("keys in another order by their second parts", "T!3,U!-1 := T!2, T!3,U!4 := T!3", "T!3,U!4 := T!3, T!3,U!-1 := T!2", 8),
    ("an entry with the default", "U!0, else", "U!0, T!4,1 := U!3, else", 7),
    ("a needless zero in an element's number", "U!0, else", "U!00, else", 7),
    ("an element without a number", "U!0, else", "U!, else", 7),
    ("an element without a name", "U!0, else", "!0, else", 7),
    ("two marks in an element", "a T!-1", "a T!-1!-1", 3),
    ("a comma in the name of an element's type", "a T!-1", "a T,T!-1", 3),
    ("an element's number past 128 bits", "a T!-1", f"a T!{2**127}", 3),
]

# the same of MAPS
WRONG_MAPS = [
    ("another value, with which an axiom is false", "m [1 := 2", "m [1 := 3"),
    ("another key, with which an axiom is false", "m [1 := 2", "m [2 := 2"),
    ("another default, with which an axiom is false", "m [1 := 2, else 0]", "m [1 := 2, else 1]"),
    ("another map at a key, with which an axiom is false", "[1 := [1 := 2, else 0]", "[1 := [1 := 2, 5 := 1, else 0]"),
    ("a number for a map", "m [1 := 2, else 0]", "m 2"),
    ("a map for an element", "t T!0", "t [else T!0]"),
    ("a number for an inner map", "[1 := [1 := 2, else 0]", "[1 := 2"),
    ("a number for an inner map as the default", "else [else 0]]\nconst", "else 0]\nconst"),
    ("parts of a key in another order", "[3,T!0", "[T!0,3"),
    ("a key with a part too few", "[3,T!0", "[3"),
    ("a key with a part too many", "[3,T!0", "[3,T!0,1"),
    ("an element of another type in a key", "[3,T!0", "[3,U!0"),
    ("a number for an element in a key", "[3,T!0", "[3,0"),
    ("an entry's value of another type", ":= true", ":= 1"),
    ("a default of another type", "else false", "else 0"),
    ("keys of a function's table that are no maps", "[[else 0] := [T!0 := 3, else 1], [1 := 2, else 0]", "[0 := [T!0 := 3, else 1], 1"),
    ("a key of a function's table that is another map", "[1 := 2, else 0] := [T", "[1 := true, else false] := [T"),
]
NO_MAPS = [
    ("keys in another order", "m [1 := 2", "m [1 := 2, 0 := 3", 3),
    ("two entries at a key", "m [1 := 2", "m [1 := 2, 1 := 3", 3),
    ("an entry with the default", "m [1 := 2", "m [1 := 2, 4 := 0", 3),
    ("a map without a default", "m [1 := 2, else 0]", "m [1 := 2]", 3),
    ("an empty map", "m [1 := 2, else 0]", "m []", 3),
    ("a bracket that isn't closed", "m [1 := 2, else 0]", "m [1 := 2, else 0", 3),
    ("a bracket too many", "m [1 := 2, else 0]", "m [1 := 2, else 0]]", 3),
    ("something behind the default", "m [1 := 2, else 0]", "m [1 := 2, else 0, 3 := 4]", 3),
    ("no space behind an entry", "m [1 := 2, else", "m [1 := 2,else", 3),
    ("a space within a key", "[3,T!0", "[3, T!0", 4),
    ("no space before a value", "m [1 := 2", "m [1 :=2", 3),
    ("an entry with the default of an inner map", "[1 := [1 := 2, else 0]", "[1 := [1 := 2, 2 := 0, else 0]", 5),
    ("an inner map that the default says", "[1 := [1 := 2, else 0]", "[0 := [else 0], 1 := [1 := 2, else 0]", 5),
    ("maps as keys in another order", "[[else 0] := [T!0 := 3, else 1], ", "[[1 := 3, else 0] := [T!0 := 3, else 1], ", 7),
    ("a map twice as a key", "[[else 0] := [T!0 := 3, else 1], ", "[[1 := 2, else 0] := [T!0 := 3, else 1], ", 7),
    ("a number in a map past 128 bits", "m [1 := 2", f"m [1 := {2**127}", 3),
]

# a program, a certificate, the status, what is written to the output and to the errors
ANSWERS = [
    ("", EMPTY, 0, "accepted\n", ""),
    ("", "bg-cert 1\nno interp\nend\n", 1, "rejected: axioms\n", ""),
    (COUNT, FRONT + "retain b2\nretain b0\nend\n", 1, "rejected: retain b0\n", ""),
    (COUNT, FRONT + "retain b9\nend\n", 1, "rejected: retain b9\n", ""),
    (COPY, EMPTY, 1, UNPROVED, ""),
    (COPY, FRONT + "place 0 0\nclause 0\nend\n", 1, UNPROVED, ""),
    (COPY, FRONT + "place 0 0\nclause 9\nend\n", 1, UNPROVED, ""),
    (COPY, FRONT + "place 0 0\nunit b\nend\n", 1, UNPROVED, ""),
    (COPY, FRONT + "place 0 0\nknown 0\nend\n", 1, UNPROVED, ""),
    ("", FRONT + "place 0 0\nclause 0\nend\n", 1, "rejected: place 0 0\n", ""),
    (CONSTANTS, FRONT + "const c 2\nconst on false\nend\n", 0, "accepted\n", ""),
    (CONSTANTS, FRONT + "const c 4\nconst on true\nend\n", 0, "accepted\n", ""),
    (CONSTANTS, FRONT + "const c 2\nconst on true\nend\n", 1, "rejected: axioms\n", ""),
    (CONSTANTS, FRONT + "const c 5\nconst on false\nend\n", 1, "rejected: axioms\n", ""),
    (CONSTANTS, FRONT + "const on false\nconst c 2\nend\n", 1, "rejected: axioms\n", ""),
    (CONSTANTS, FRONT + "const c 2\nconst off false\nend\n", 1, "rejected: axioms\n", ""),
    (CONSTANTS, FRONT + "const c 2\nconst on 0\nend\n", 1, "rejected: axioms\n", ""),
    (CONSTANTS, FRONT + "const c 2\nend\n", 1, "rejected: axioms\n", ""),
    (CONSTANTS, FRONT + "const c 2\nconst on false\nconst on false\nend\n", 1, "rejected: axioms\n", ""),
    (CONSTANTS, EMPTY, 1, "rejected: axioms\n", ""),
    ("", FRONT + "const c 2\nend\n", 1, "rejected: axioms\n", ""),
    ("", "bg-cert 1\nno interp\nconst c 2\nend\n", 3, "", "error: certificate line 3\n"),
    ("", FRONT + "const c 02\nend\n", 3, "", "error: certificate line 3\n"),
    ("", "bg-cert 3\ninterp\nend\n", 3, "", "error: certificate version\n"),
    ("", "bg-cert 1\nend\n", 3, "", "error: certificate line 2\n"),
    ("", FRONT, 3, "", "error: certificate line 3\n"),
    ("", FRONT + "end", 3, "", "error: certificate line 3\n"),
    ("", EMPTY + "\n", 3, "", "error: certificate line 4\n"),
    ("", FRONT + "place 0 0\nrows 1\nsum 0 -1 0 1\nend\n", 3, "", "error: certificate line 5\n"),
    ("", FRONT + "place 0 0\nsplit 170141183460469231731687303715884105728\nend\n", 3, "", "error: certificate line 4\n"),
    ("", FRONT + "place 0 00\nclause 0\nend\n", 3, "", "error: certificate line 3\n"),
    ("procedure P() { assert x; }", "bg-cert 2\n", 3, "", "error: 1:24 unknown x\n"),
]


# two terms, of which the congruence is wanted; the lines with one more behind it, or in its place
LINED = "function f(int): int; procedure P(x: int, y: int) { assert f(x) != f(y) ==> x != y; }"
CONGRUENT = "inst c 0 1\n"
NOT_THERE = ["inst c 0 2\n", "inst c 170141183460469231731687303715884105727 0\n", "inst s 0 2\n", "inst d 0 1 2\n", "inst x 2 0\n"]
NOT_THERE += ["pick 0 0\n", "pick 2 0\n", "pick 4 0\n", "pick 0 2\n", "names 0 1\n", "names 2 3\n", "names 0 4\n", "apart 0 1\n"]
SAY_NOTHING = ["inst s 0 1\n", "inst d 0 1 1\n", "inst x 0 1\n"]


class Trial:
    def __init__(self, bg, folder):
        self.bg, self.folder, self.passed, self.failed = shlex.split(bg), folder, 0, 0

    def run(self, words):
        done = subprocess.run([*self.bg, *words], capture_output=True, timeout=600, stdin=subprocess.DEVNULL)
        return done.returncode, done.stdout, done.stderr

    def stored(self, name, data):
        path = os.path.join(self.folder, name)
        with open(path, "wb") as file:
            file.write(data)
        return path

    def check(self, cert, program):
        return self.run(["check", "--cert", self.stored("c.txt", cert), program])

    def holds(self, name, is_so, got=b""):
        self.passed += bool(is_so)
        self.failed += not is_so
        if not is_so:
            print(f"failed: {name}: {got!r}"[:400])


def first_reason(report):
    """Why a program doesn't accept what `certify` writes beside this report: the axioms, where no interpretation that meets them was
    found, else the first place that isn't proved; None where there is no reason."""
    if not report.startswith(b"axioms: consistent\n"):
        return b"rejected: axioms\n"
    name = None
    for line in report.decode().splitlines():
        if line.startswith("implementation "):
            name = line.split()[1:3]
        told = re.fullmatch(r"  refuted (.*)|  unknown (.*) \w+", line)
        if told and name:
            return f"rejected: {name[0]} {name[1]} {told[1] or told[2]}\n".encode()
    return None


def example(t, source):
    """A program of examples/: its certificate, and what is answered of it; nothing where its text is refused."""
    status, report, _ = t.run(["verify", source])
    if status > 2:
        return
    name = os.path.relpath(source, TOP)
    certified, cert, err = t.run(["certify", source])
    t.holds(f"{name}: certify ends as verify", (certified, err) == (status, b""), (certified, err))
    wanted = (0, b"accepted\n", b"") if status == 0 else (1, first_reason(report), b"")
    got = t.check(cert, source)
    t.holds(f"{name}: check", got == wanted, (got, wanted))


def answers(t):
    for program, cert, status, out, err in ANSWERS:
        path = t.stored("a.bpl", program.encode())
        got = t.check(cert.encode(), path)
        t.holds(f"{cert!r} for {program!r}", got == (status, out.encode(), err.encode()), got)


def values(t, name, program, lines, wrong, none):
    """Values and tables of a program, and what may not stand in one's place: each is wrong in one way."""
    path = t.stored("a.bpl", program.encode())
    rejected = [(why, part, other, (1, b"rejected: axioms\n", b"")) for why, part, other in wrong]
    refused = [(why, part, other, (3, b"", b"error: certificate line %d\n" % line)) for why, part, other, line in none]
    for why, part, other, wanted in [("as they should be", "", "", (0, b"accepted\n", b"")), *rejected, *refused]:
        cert = FRONT + lines.replace(part, other, 1) + "end\n"
        got = t.check(cert.encode(), path)
        t.holds(f"{name}: {why}", part in lines and got == wanted, (cert, got))


def lined(t):
    """Lines of terms and instances: one that names what isn't there, or nothing that fits, is rejected, behind the others and before them."""
    path = t.stored("a.bpl", LINED.encode())
    _, cert, _ = t.run(["certify", path])
    cert = cert.decode()
    accepted, rejected = (0, b"accepted\n", b""), (1, b"rejected: P 1:23 assert 1:53\n", b"")
    t.holds("lines: the congruence is wanted", cert.count(CONGRUENT) == 1, cert)
    t.holds("lines: without the congruence", t.check(cert.replace(CONGRUENT, "").encode(), path) == rejected)
    for lines, wanted in [(NOT_THERE, rejected), (SAY_NOTHING, accepted)]:
        for line in lines:
            for other in (CONGRUENT + line, line + CONGRUENT):
                got = t.check(cert.replace(CONGRUENT, other).encode(), path)
                t.holds(f"lines: {other!r}", got == wanted, got)


def sections_of(lines):
    """The lines in front of the sections, and the sections."""
    starts = [i for i, line in enumerate(lines) if line.startswith(b"place ")] + [len(lines) - 1]
    return lines[: starts[0]], [lines[a:b] for a, b in zip(starts, starts[1:])]


def doctored(t, source):
    """Certificates that lack a line, or whose sections stand otherwise: none is accepted."""
    name = os.path.relpath(source, TOP)
    _, cert, _ = t.run(["certify", source])
    lines = cert.splitlines(keepends=True)
    for i in range(len(lines)):
        got = t.check(b"".join(lines[:i] + lines[i + 1 :]), source)
        t.holds(f"{name}: without line {i + 1}", got[0] in (1, 3), got)
    front, sections = sections_of(lines)
    for i in range(len(sections) - 1):
        swapped = sections[:i] + [sections[i + 1], sections[i]] + sections[i + 2 :]
        got = t.check(b"".join(front + sum(swapped, []) + [b"end\n"]), source)
        t.holds(f"{name}: sections {i} and {i + 1} exchanged", got[:2] == (1, b"rejected: " + sections[i][0]), got)
    twice = sections[:1] + sections
    got = t.check(b"".join(front + sum(twice, []) + [b"end\n"]), source)
    t.holds(f"{name}: a section twice", got[:2] == (1, b"rejected: " + sections[0][0]), got)


def fronts(t, source):
    """A certificate that is cut off behind each line: the line that is missing is named."""
    name = os.path.relpath(source, TOP)
    _, cert, _ = t.run(["certify", source])
    lines = cert.splitlines(keepends=True)
    for i in range(1, len(lines)):
        got = t.check(b"".join(lines[:i]), source)
        t.holds(f"{name}: {i} lines", got == (3, b"", b"error: certificate line %d\n" % (i + 1)), got)


def hostile(t, size, most):
    """Texts that are long in one way."""
    path = t.stored("a.bpl", COPY.encode())
    front = FRONT.encode() + b"place 0 0\n"
    longest = 0
    for name, cert, wanted in (
        ("splits that end", front + b"split 0\n" * size + b"clause 0\n" * (size + 1) + b"end\n", (1, UNPROVED.encode(), b"")),
        ("splits without end", front + b"split 0\n" * size, (3, b"", b"error: certificate line %d\n" % (size + 4))),
        ("lemmas in lemmas", front + b"lemma +0\n" * size, (3, b"", b"error: certificate line %d\n" % (size + 4))),
        ("steps", front + b"rows %d\npath 0\n" % size + b"tight 0\n" * (size - 1) + b"end\n", (1, UNPROVED.encode(), b"")),
        ("more rows than stand there", front + b"table %d\n" % (2**127 - 1) + b"end\n", (3, b"", b"error: certificate line 5\n")),
        ("sections", FRONT.encode() + b"place 0 1\nclause 0\n" * size + b"end\n", (1, UNPROVED.encode(), b"")),
        ("retained names", FRONT.encode() + b"retain b\n" * size + b"end\n", (1, b"rejected: retain b\n", b"")),
        ("one line", b"x" * most, (3, b"", b"error: certificate line 1\n")),
        ("one number", front + b"split " + b"9" * (most - 38) + b"\nend\n", (3, b"", b"error: certificate line 4\n")),
        ("too long", b"x" * (MOST + 1), (8, b"", b"error: limit bytes 67108865\n")),
    ):
        got = t.check(cert, path)
        t.holds(f"hostile: {name}", got == wanted, got)
        longest = max(longest, len(cert))
    peak = resource.getrusage(resource.RUSAGE_CHILDREN).ru_maxrss
    print(f"peak memory {peak // 1000} MB, longest text {longest // 1_000_000} MB")
    t.holds("memory", peak < BASE + TIMES * longest // 1000, peak)


def main():
    parser = argparse.ArgumentParser(description=__doc__.split("\n", maxsplit=1)[0])
    parser.add_argument("--bg", required=True)
    parser.add_argument("--short", action="store_true")
    args = parser.parse_args()
    # (the script ./bg then says its failures alone)
    os.environ["BG_QUIET"] = "1"
    with tempfile.TemporaryDirectory() as folder:
        t = Trial(args.bg, folder)
        for source in sorted(glob.glob(os.path.join(TOP, "examples", "*.bpl"))):
            example(t, source)
        answers(t)
        values(t, "elements", ELEMENTS, OF_ELEMENTS, WRONG_ELEMENTS, NO_ELEMENTS)
        values(t, "maps", MAPS, OF_MAPS, WRONG_MAPS, NO_MAPS)
        lined(t)
        short = "count_inferred", "update_by_itself"
        for name in short if args.short else (*short, "insertion_inferred", "gcd", "bank_inferred", "pair_indices", "filled_inferred"):
            source = os.path.join(TOP, "examples", name + ".bpl")
            doctored(t, source)
            fronts(t, source)
        hostile(t, 10_000 if args.short else 100_000, 1_000_000 if args.short else MOST)
    print(f"{t.passed} passed, {t.failed} failed")
    sys.exit(1 if t.failed else 0)


if __name__ == "__main__":
    main()
