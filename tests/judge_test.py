#!/usr/bin/env python3
"""The judge of reports finds nothing wrong in the stored reports of examples/, and finds what is wrong with doctored ones.

Each doctored report is a right one in which a text is replaced by another; a phrase of what the judge says of it is wanted. The last
line is `N passed, M failed`.
"""
import glob
import os
import sys

import judge

TOP = os.path.dirname(os.path.dirname(os.path.abspath(__file__)))

STEP = """procedure Step(n: int) returns (r: int)
  requires n >= 0;
  ensures r == n;
{
  r := 0;
  while (r != n)
    invariant r <= n;
    free invariant r >= 0;
  {
    r := r + 2;
  }
}
"""
STEP_REPORT = """axioms: consistent
retained set: greatest
implementation Step 1:1 refuted
  refuted invariant turn 7:5
    var n = 1
    var r = 0
    choice 0
summary: 0 retained, 0 dropped; 0 verified, 1 refuted, 0 unknown
"""
PICK = """var g: int, done: bool;
procedure Take(k: int) returns (left: int);
  requires k > 0;
  modifies g;
  ensures left == old(g) - k && g == left;
  free ensures left >= 0;
procedure Pick(c: bool) returns (a: int)
  modifies g, done;
  ensures g == old(g) - 1;
{
  var x: int;
  outer: while (*)
    invariant g == old(g);
  {
    havoc x;
    if (x > 7) {
      goto one, two;
    } else if (c) {
      break outer;
    }
    assert x != 3;
    goto two;
    one:
    call a := Take(x);
    return;
    two:
    assert done ==> x <= 7;
  }
  call a := Take(1);
}
"""
PICK_REPORT = """axioms: consistent
retained set: greatest
implementation Pick 7:1 refuted
  refuted assert 21:5
    var g = 0
    var done = true
    var c = false
    var a = 0
    var x = 3
    choice 0
    choice 0
    choice 0
    choice branch 0
    choice 3
  refuted assert 27:5
    var g = 0
    var done = true
    var c = false
    var a = 0
    var x = 8
    choice 0
    choice 0
    choice 0
    choice branch 0
    choice 8
    choice branch 1
  refuted postcondition 9:3
    var g = 8
    var done = true
    var c = true
    var a = 0
    var x = 8
    choice 8
    choice 0
    choice 8
    choice branch 0
    choice 8
    choice branch 0
    choice 0
    choice 0
summary: 0 retained, 0 dropped; 0 verified, 1 refuted, 0 unknown
"""
POST = PICK_REPORT[PICK_REPORT.index("  refuted postcondition") : PICK_REPORT.index("summary")]
FAR = "procedure Far(x: int) {\n  assert x + x != 1;\n}\n"
FAR_REPORT = """axioms: consistent
retained set: greatest
implementation Far 1:1 unknown
  unknown assert 2:3 range
    kept + 170141183460469231731687303715884105727 1
summary: 0 retained, 0 dropped; 0 verified, 0 refuted, 1 unknown
"""
BUDGET_REPORT = FAR_REPORT.replace(" range\n    kept + 170141183460469231731687303715884105727 1", " nodes\n    kept 20000")
KEPT = """const {:existential true} low, high, past: bool;
const {:why} {:existential true} lone: bool;
procedure Next(k: int) returns (r: int);
  requires low ==> k >= 0;
  ensures lone ==> r == k + 1;
procedure Count(n: int) returns (i: int)
  requires n >= 0;
  ensures i >= n;
{
  i := 0;
  while (i < n)
    invariant low ==> i >= 0;
    invariant (high ==> i <= n);
    invariant past ==> i < n ==> i < 3;
  {
    call i := Next(i);
  }
}
"""
KEPT_REPORT = """axioms: consistent
candidate low retained
candidate high retained
candidate past dropped
candidate lone retained unchecked
retained set: greatest
implementation Count 6:1 verified
summary: 3 retained, 1 dropped; 1 verified, 0 refuted, 0 unknown
"""
FIXED = """const c: int;
const on: bool;
function twice(x: int): int { x + x }
function far(x: int, y: int) returns (r: bool) { twice(x - y) > 2 || twice(y - x) > 2 }
axiom c > 2;
axiom on ==> far(c, 0);
var g: int;
procedure P(x: int)
  requires on;
  modifies g;
{
  g := twice(x);
  assert far(x, 1) || g < 2 * c - 1 || x == 4;
  assert g != 6 || x + c > 6;
}
"""
FIXED_REPORT = """axioms: consistent
retained set: greatest
implementation P 8:1 refuted
  refuted assert 14:3
    const c = 3
    const on = true
    var g = 0
    var x = 3
summary: 0 retained, 0 dropped; 0 verified, 1 refuted, 0 unknown
"""
TABLED = """const c: int;
function f(x: int): int;
function twice(x: int): int { x + x }
function on(int, bool) returns (r: bool);
function any(): int;
axiom f(c) == 2 && any() > f(1);
procedure P(x: int) {
  assert on(f(x), x > 0) ==> f(twice(x)) != any();
}
"""
TABLED_REPORT = """axioms: consistent
retained set: greatest
implementation P 7:1 refuted
  refuted assert 8:3
    const c = 0
    function f = [0 := 2, 6 := 1, else 0]
    function on = [0,false := true, 0,true := true, else false]
    function any = [ := 1, else 0]
    var x = 3
summary: 0 retained, 0 dropped; 0 verified, 1 refuted, 0 unknown
"""
OWNED = """type Owner = Thread, Thread, Key;
const unique nobody, first: Thread;
const unique key: Key;
function next(t: Owner, k: Key): Thread;
axiom next(nobody, key) == first;
var owner: Owner;
procedure P(me: Thread)
  modifies owner;
{
  havoc owner;
  assert next(owner, key) == me || owner == nobody;
}
"""
OWNED_REPORT = """axioms: consistent
retained set: greatest
implementation P 7:1 refuted
  refuted assert 11:3
    const nobody = Thread!0
    const first = Thread!1
    const key = Key!0
    function next = [Thread!0,Key!0 := Thread!1, Thread!2,Key!0 := Thread!-3, else Thread!0]
    var owner = Thread!0
    var me = Thread!0
    choice Thread!2
summary: 0 retained, 0 dropped; 0 verified, 1 refuted, 0 unknown
"""
MAPPED = """type T;
type Row = [int]int;
const first: T;
const seats: [T]int;
function none(s: [T]int): [int]bool;
function with(m: [int]bool, k: int): [int]bool;
axiom seats == seats[first := 2] && with(with(none(seats), 1), 1)[0];
procedure Move(m: Row, i: int, j: int) returns (grid: [int]Row, on: [int, int]bool)
{
  var k: Row;
  k, grid[i][j] := m[i := 5], k[0];
  on[i, j] := grid[i][j] == k[i] - 5;
  havoc k;
  assert k == m[i := k[i]] || old(grid)[i] != grid[i][j := 0] || !on[i, j];
}
"""
MAPPED_REPORT = """axioms: consistent
retained set: greatest
implementation Move 8:1 refuted
  refuted assert 14:3
    const first = T!0
    const seats = [T!0 := 2, else 0]
    function none = [else [else false]]
    function with = [[else false],1 := [1 := true, else false], [1 := true, else false],1 := [else true], else [else false]]
    var m = [-1 := 3, 1 := 4, else 0]
    var i = 1
    var j = 2
    var grid = [1 := [5 := 7, else 0], else [else 0]]
    var on = [1,3 := true, 2,-1 := true, else false]
    var k = [else 0]
    choice [1 := 4, else 3]
summary: 0 retained, 0 dropped; 0 verified, 1 refuted, 0 unknown
"""
RIGHT = [("loop", STEP, STEP_REPORT), ("jumps", PICK, PICK_REPORT), ("range", FAR, FAR_REPORT), ("budget", FAR, BUDGET_REPORT), ("candidates", KEPT, KEPT_REPORT), ("constants", FIXED, FIXED_REPORT), ("functions", TABLED, TABLED_REPORT), ("user types", OWNED, OWNED_REPORT), ("maps", MAPPED, MAPPED_REPORT)]
# What is doctored, the program, its right report, a text of it and what stands in its place, and a phrase of the answer.
DOCTORED = [
    ("a counterexample's value", STEP, STEP_REPORT, "var n = 1", "var n = 2", "the run ended"),
    ("a value that a precondition denies", STEP, STEP_REPORT, "var n = 1", "var n = -1", "the run blocked"),
    ("a value that a free invariant denies", STEP, STEP_REPORT, "choice 0", "choice -1", "the run blocked"),
    ("a counterexample's place", STEP, STEP_REPORT, "turn 7:5", "entry 7:5", "the run failed at invariant turn 7:5"),
    ("a place that isn't there", STEP, STEP_REPORT, "turn 7:5", "turn 8:5", "its places are"),
    ("a choice that is left over", STEP, STEP_REPORT, "choice 0\n", "choice 0\n    choice 0\n", "takes 1 choices of 2"),
    ("a choice that is missing", STEP, STEP_REPORT, "    choice 0\n", "", "the run bad choice"),
    ("a choice of another kind", STEP, STEP_REPORT, "choice 0", "choice branch 0", "the run bad choice"),
    ("a choice that is none", STEP, STEP_REPORT, "choice 0", "chance 0", "choices are wanted"),
    ("a variable that is missing", STEP, STEP_REPORT, "    var r = 0\n", "", "var r = "),
    ("variables in another order", STEP, STEP_REPORT, "var n = 1\n    var r = 0", "var r = 0\n    var n = 1", "var n = "),
    ("a truth value for a number", STEP, STEP_REPORT, "var r = 0", "var r = true", "a value of type int is wanted"),
    ("a number with a needless zero", STEP, STEP_REPORT, "var r = 0", "var r = 00", "a value of type int is wanted"),
    ("an implementation's word", STEP, STEP_REPORT.replace("0 verified, 1", "1 verified, 0"), "1:1 refuted", "1:1 verified", "not the word"),
    ("the summary", STEP, STEP_REPORT, "0 verified, 1", "1 verified, 0", "the counts are"),
    ("the front", STEP, STEP_REPORT, "consistent", "inconsistent", "has not the form"),
    ("axioms that aren't there", STEP, STEP_REPORT, "consistent", "contradictory", "there are no axioms"),
    ("axioms that are met", FIXED, FIXED_REPORT, "consistent", "contradictory", "are met by"),
    ("a constant that axioms deny", FIXED, FIXED_REPORT, "const c = 3", "const c = 2", "the axioms are not met"),
    ("a constant's value", FIXED, FIXED_REPORT, "const c = 3", "const c = 4", "the run ended"),
    ("a constant that is missing", FIXED, FIXED_REPORT, "    const on = true\n", "", "const on = "),
    ("a constant as a variable", FIXED, FIXED_REPORT, "const c = 3", "var c = 3", "const c = "),
    ("constants in another order", FIXED, FIXED_REPORT, "const c = 3\n    const on = true", "const on = true\n    const c = 3", "const c = "),
    ("a table that axioms deny", TABLED, TABLED_REPORT, "[0 := 2, 6", "[0 := 3, 6", "the axioms are not met"),
    ("a table's entry", TABLED, TABLED_REPORT, "6 := 1, else", "6 := 4, else", "the run ended"),
    ("a table's default", TABLED, TABLED_REPORT, "1, else 0]\n    function on", "1, else 5]\n    function on", "the axioms are not met"),
    ("keys in another order", TABLED, TABLED_REPORT, "[0 := 2, 6 := 1", "[6 := 1, 0 := 2", "a table is wanted"),
    ("a key of two", TABLED, TABLED_REPORT, "0,true := true", "0, true := true", "a table is wanted"),
    ("an entry that says what the default says", TABLED, TABLED_REPORT, "6 := 1, else", "6 := 1, 7 := 0, else", "a table is wanted"),
    ("a function that is missing", TABLED, TABLED_REPORT, "    function any = [ := 1, else 0]\n", "", "function any = "),
    ("a function with a body", TABLED, TABLED_REPORT, "    function on", "    function twice = [else 0]\n    function on", "function on = "),
    ("an element of another type", OWNED, OWNED_REPORT, "var me = Thread", "var me = Key", "a value of type Thread is wanted"),
    ("an element of a synonym", OWNED, OWNED_REPORT, "var owner = Thread", "var owner = Owner", "a value of type Thread is wanted"),
    ("a number for an element", OWNED, OWNED_REPORT, "const key = Key!0", "const key = 0", "a value of type Key is wanted"),
    ("an element with a needless zero", OWNED, OWNED_REPORT, "var me = Thread!0", "var me = Thread!-0", "a value of type Thread is wanted"),
    ("a chosen element of another type", OWNED, OWNED_REPORT, "choice Thread", "choice Key", "the run bad choice"),
    ("another element", OWNED, OWNED_REPORT, "var me = Thread!0", "var me = Thread!-3", "the run ended"),
    ("unique elements that are one", OWNED, OWNED_REPORT, "first = Thread!1", "first = Thread!0", "the axioms are not met"),
    ("keys of elements in another order", OWNED, OWNED_REPORT, "[Thread!0,Key!0 := Thread!1, Thread!2,", "[Thread!2,Key!0 := Thread!1, Thread!0,", "a table is wanted"),
    ("a key's part of another type", OWNED, OWNED_REPORT, "Thread!2,Key!0", "Thread!2,Thread!0", "a table is wanted"),
    ("a map that axioms deny", MAPPED, MAPPED_REPORT, "[T!0 := 2, else 0]", "[T!1 := 2, else 0]", "the axioms are not met"),
    ("a table of a map", MAPPED, MAPPED_REPORT, "[1 := true, else false],1 := [else true]", "[1 := true, else false],2 := [else true]", "the axioms are not met"),
    ("a table's keys of maps in another order", MAPPED, MAPPED_REPORT, "[[else false],1 := [1 := true, else false]", "[[3 := true, else false],1 := [else true]", "a table is wanted"),
    ("a map's entries in another order", MAPPED, MAPPED_REPORT, "[-1 := 3, 1 := 4, else 0]", "[1 := 4, -1 := 3, else 0]", "a value of type"),
    ("two entries at a key", MAPPED, MAPPED_REPORT, "[-1 := 3, 1 := 4, else 0]", "[1 := 3, 1 := 4, else 0]", "a value of type"),
    ("a map's entry that says what the default says", MAPPED, MAPPED_REPORT, "[-1 := 3, 1 := 4, else 0]", "[-1 := 0, 1 := 4, else 0]", "a value of type"),
    ("an inner map's entry that says what the default says", MAPPED, MAPPED_REPORT, "[5 := 7, else 0]", "[5 := 0, else 0]", "a value of type"),
    ("a map that says what the default map says", MAPPED, MAPPED_REPORT, "[1 := [5 := 7, else 0], else [else 0]]", "[1 := [else 0], else [else 0]]", "a value of type"),
    ("a map for a map of maps", MAPPED, MAPPED_REPORT, "[1 := [5 := 7, else 0], else [else 0]]", "[1 := 7, else 0]", "a value of type"),
    ("a key of one part for one of two", MAPPED, MAPPED_REPORT, "[1,3 := true, 2,-1", "[1 := true, 2,-1", "a value of type"),
    ("a key with a space", MAPPED, MAPPED_REPORT, "1,3 := true", "1, 3 := true", "a value of type"),
    ("a map's key of another type", MAPPED, MAPPED_REPORT, "[T!0 := 2", "[0 := 2", "a value of type"),
    ("a map without a default", MAPPED, MAPPED_REPORT, "var k = [else 0]", "var k = []", "a value of type"),
    ("a map with something behind it", MAPPED, MAPPED_REPORT, "var k = [else 0]", "var k = [else 0]]", "a value of type"),
    ("a chosen map of another type", MAPPED, MAPPED_REPORT, "choice [1 := 4, else 3]", "choice [1 := true, else false]", "the run bad choice"),
    ("another map", MAPPED, MAPPED_REPORT, "choice [1 := 4, else 3]", "choice [-1 := 3, else 0]", "the run ended"),
    ("a map's default", MAPPED, MAPPED_REPORT, "var k = [else 0]", "var k = [else 1]", "the run ended"),
    ("a line", STEP, STEP_REPORT, "  refuted inv", "  rejected inv", "a line that no report has"),
    ("an implementation that is missing", STEP, STEP_REPORT, "Step 1:1", "Step 2:1", "the implementations are"),
    ("places in another order", PICK, PICK_REPORT, "  refuted assert 21:5\n", f"{POST}  refuted assert 21:5\n", "its places are"),
    ("what a loop forgets", PICK, PICK_REPORT, "    choice 0\n    choice 0\n    choice 0\n", "    choice 0\n    choice 0\n", "the run bad choice"),
    ("a branch", PICK, PICK_REPORT, "choice 8\n    choice branch 1", "choice 8\n    choice branch 0", "the run bad choice"),
    ("a branch that isn't there", PICK, PICK_REPORT, "choice 8\n    choice branch 1", "choice 8\n    choice branch 2", "the run bad choice"),
    ("what a call may give", PICK, PICK_REPORT, "branch 0\n    choice 0\n    choice 0\n", "branch 0\n    choice 0\n    choice 1\n", "the run blocked"),
    ("an operation within 128 bits", FAR, FAR_REPORT, "727 1", "726 1", "no operation that leaves"),
    ("no operation", FAR, FAR_REPORT, "kept + 1", "kept / 1", "no operation that leaves"),
    ("a budget", FAR, BUDGET_REPORT, "kept 20000", "kept 19999", "the budget 20000"),
    ("a candidate that doesn't hold", KEPT, KEPT_REPORT.replace("3 retained, 1", "4 retained, 0"), "past dropped", "past retained", "invariant turn 14:5 is called proved"),
    ("a candidate that another one rests on", KEPT, KEPT_REPORT.replace("3 retained, 1", "2 retained, 2"), "lone retained unchecked", "lone dropped", "candidate lone is dropped"),
    ("a candidate that is checked", KEPT, KEPT_REPORT, "low retained", "low retained unchecked", "candidate low is retained unchecked"),
    ("a candidate that is missing", KEPT, KEPT_REPORT.replace("3 retained", "2 retained"), "candidate high retained\n", "", "the candidates are"),
    ("candidates in another order", KEPT, KEPT_REPORT, "candidate low retained\ncandidate high retained", "candidate high retained\ncandidate low retained", "the candidates are"),
    ("how many are retained", KEPT, KEPT_REPORT, "3 retained", "4 retained", "the counts are"),
    ("a greatest set after an unknown drop", KEPT, KEPT_REPORT, "past dropped", "past dropped unknown nodes", "the set is called greatest"),
    ("the set", KEPT, KEPT_REPORT, "set: greatest", "set: great", "a line that no report has"),
]
# A program of which one place fails in some runs, and the place; the report calls it proved.
UNSOUND = [
    ("an assertion", "procedure P(x: int) {\n  assert x != 3;\n}\n", "assert 2:3"),
    ("a truth", "procedure P(a: bool, b: bool) {\n  assert (a ==> b) <==> (b <== !a);\n}\n", "assert 2:3"),
    ("signs", "procedure P(x: int) {\n  assert -x - 1 - 1 != 2 * x + 4;\n}\n", "assert 2:3"),
    ("an invariant on arrival", "procedure P(x: int) {\n  while (*)\n    invariant x <= 4;\n  {\n  }\n}\n", "invariant entry 3:5"),
    ("an invariant after a turn", STEP, "invariant turn 7:5"),
    ("a precondition", "procedure Q(k: int);\n  requires k > 0;\nprocedure P(n: int) {\n  call Q(n);\n}\n", "precondition 4:3 of 2:3"),
    ("a postcondition", "var g: int;\nprocedure P()\n  modifies g;\n  ensures g == old(g) + 1;\n{\n  g := 2 * g;\n}\n", "postcondition 4:3"),
    ("a postcondition by another name", "procedure P(x: int, y: int) returns (z: int);\n  ensures z == x - y;\n"
     "implementation P(y: int, x: int) returns (r: int) {\n  r := x - y;\n}\n", "postcondition 2:3"),
    ("what a call changes", "var g: int;\nprocedure Q();\n  modifies g;\nprocedure P()\n  modifies g;\n{\n  g := 1;\n  call Q();\n"
     "  assert g == 1;\n}\n", "assert 9:3"),
    ("the end of a loop", "procedure P(n: int)\n{\n  var x: int;\n  x := 0;\n  while (x < n)\n  {\n    x := x + 1;\n  }\n"
     "  assert x == n;\n}\n", "assert 9:3"),
    ("a break", "procedure P(c: bool)\n{\n  var x: int;\n  x := 0;\n  out: if (*) {\n    x := 1;\n    if (c) {\n      break out;\n    }\n"
     "    x := 0;\n  }\n  assert x == 0;\n}\n", "assert 12:3"),
    ("a jump", "procedure P()\n{\n  var x: bool;\n  goto a, b;\n  a:\n  x := true;\n  b:\n  assert x;\n}\n", "assert 8:3"),
    ("a constant's value", "const c: int;\naxiom c > 1;\nprocedure P(x: int) {\n  assert x <= c;\n}\n", "assert 4:3"),
    ("a function's body", "function f(x: int, y: int): int { x - y }\nprocedure P(x: int) {\n  assert f(x, 1) == f(1, x);\n}\n", "assert 3:3"),
    ("a function without a body", "function f(x: int): int;\naxiom f(0) == 0;\nprocedure P(x: int) {\n  assert f(x) <= f(0);\n}\n", "assert 4:3"),
    ("which elements are the same", "type T;\nprocedure P(a: T, b: T, c: T) {\n  assert a == b ==> b == c ==> a != c;\n}\n", "assert 3:3"),
    ("unique constants", "type T;\nconst unique a, b: T;\nprocedure P(c: T) {\n  assert c == a || c == b;\n}\n", "assert 4:3"),
    ("a function on elements", "type T;\nfunction f(t: T): T;\nprocedure P(a: T) {\n  assert f(f(a)) == a || f(a) == a;\n}\n", "assert 4:3"),
    ("an update at its index", "procedure P(m: [int]int, i: int) {\n  assert m[i := 1][i] == m[i];\n}\n", "assert 2:3"),
    ("an update elsewhere", "procedure P(m: [int]int, i: int, j: int) {\n  assert m[i := 1][j] == m[j];\n}\n", "assert 2:3"),
    ("two updates", "procedure P(m: [int]int, i: int, j: int) {\n  assert m[i := 1][j := 2] == m[j := 2][i := 1];\n}\n", "assert 2:3"),
    ("maps that differ", "procedure P(m: [int]bool, n: [int]bool) {\n  assert m[0] == n[0] ==> m == n;\n}\n", "assert 2:3"),
    ("a map of maps", "procedure P(m: [int][int]int) {\n  assert m[0] == m[1];\n}\n", "assert 2:3"),
    ("an index of two", "procedure P(m: [int,int]int, i: int, j: int) {\n  assert m[i, j] == m[j, i];\n}\n", "assert 2:3"),
    ("brackets on the left", "procedure P() {\n  var m: [int][int]int;\n  m[0][1] := 2;\n  assert m[1][0] == m[0][1];\n}\n", "assert 4:3"),
    ("two targets", "procedure P() {\n  var m, n: [int]int;\n  m[0], n[0] := n[0], m[0];\n  assert m[0] == n[0];\n}\n", "assert 4:3"),
    ("an index that is selected", "procedure P() {\n  var m: [int]int;\n  m[m[0]] := 1;\n  assert m[m[0]] == 1;\n}\n", "assert 4:3"),
    ("a map as it was", "var m: [int]int;\nprocedure P(i: int)\n  modifies m;\n{\n  m[0] := i;\n  assert old(m)[m[0]] == old(m[0]);\n}\n", "assert 6:3"),
    ("a map in a loop", "procedure P() {\n  var m: [int]int;\n  m[0] := 1;\n  while (*) {\n    m[1] := 2;\n  }\n  assert m[0] == 1;\n}\n", "assert 7:3"),
    ("a map that a call changes", "var m: [int]int;\nprocedure Q();\n  modifies m;\n  ensures m[0] == old(m)[0];\nprocedure P()\n  modifies m;\n{\n  call Q();\n"
     "  assert m[1] == old(m[1]);\n}\n", "assert 9:3"),
    ("a function that gives maps", "function f(x: int): [int]int;\nprocedure P(x: int) {\n  assert f(x)[0] == f(0)[0];\n}\n", "assert 3:3"),
    ("old in an argument", "var g: int;\nfunction f(x: int): int { x + 1 }\nprocedure P()\n  modifies g;\n{\n  g := f(g);\n  assert f(old(g)) == f(g);\n}\n", "assert 7:3"),
    ("a return", "procedure P(c: bool) returns (r: int)\n  ensures r == 1;\n{\n  r := 0;\n  if (c) {\n    return;\n  }\n  r := 1;\n}\n", "postcondition 2:3"),
]  # fmt: skip


def verified(text):
    """The report that calls each implementation of a program verified."""
    titles = [it.title() for it in judge.read_program(text).implementations]
    lines = [f"implementation {it} verified" for it in titles]
    return "\n".join(["axioms: consistent", "retained set: greatest", *lines, f"summary: 0 retained, 0 dropped; {len(titles)} verified, 0 refuted, 0 unknown", ""])


def trials():
    """What is tried: its name, a program, a report, and the phrase that is wanted of the judge, None where nothing is wrong."""
    for name, text, report in RIGHT:
        yield f"right: {name}", text, report, None
    for source in sorted(glob.glob(os.path.join(TOP, "examples", "*.bpl"))):
        with open(source, encoding="latin-1") as file, open(source[: -len("bpl")] + "expected", encoding="latin-1") as other:
            text, report = file.read(), other.read()
        if not report.startswith("error: ") and not text.startswith(("// --", "// annotate")):
            yield f"right: {os.path.basename(source)}", text, report, None
    for name, text, report, part, other, phrase in DOCTORED:
        assert part in report, name
        yield f"doctored: {name}", text, report.replace(part, other, 1), phrase
    for name, text, place in UNSOUND:
        yield f"called proved: {name}", text, verified(text), f"{place} is called proved"


def main():
    passed = failed = 0
    for name, text, report, phrase in trials():
        faults = judge.faults_in(text, report)
        is_well = any(phrase in it for it in faults) if phrase else not faults
        passed, failed = passed + is_well, failed + (not is_well)
        if not is_well:
            print(f"{name}: wanted {phrase or 'no fault'}, found {faults}")
    print(f"{passed} passed, {failed} failed")
    return 1 if failed or not passed else 0


if __name__ == "__main__":
    sys.exit(main())
