#!/usr/bin/env python3
"""Times of programs of doubling size, as ratios: bodies of assignments, of checks and of conditionals, lists of procedures, chains of
calls, loops, all over truth values; chains of relations between numbers, nests of loops that count, small procedures over numbers; and
reading alone. And the least numbers of nodes that count (`--nodes`) and of rows (`--rows`) with which some are judged as with many."""
import argparse
import os
import subprocess
import tempfile
import time


def body(n):
    lines = ["procedure P(a: bool) { var x, y, z: bool;", "x := a;"]
    lines += [f"{'xyz'[i % 3]} := {'xyz'[(i + 2) % 3]};" for i in range(1, n)]
    return "\n".join(lines + [f"assert {'xyz'[(n - 1) % 3]} == a; }}", ""])


def procedures(n):
    return "".join(
        f"procedure P{i}(a: bool) {{ var b: bool; b := a; assert b == a; }}\n" for i in range(n)
    )


def checks(n):
    lines = ["procedure P(a: bool) { var b: bool; b := a;"]
    return "\n".join(lines + ["assert b == a;"] * n + ["}", ""])


def diamonds(n):
    lines = ["procedure P(a: bool) { var x: bool; x := a;"]
    lines += ["if (*) { x := !x; x := !x; } else { x := x == true; }"] * n
    return "\n".join(lines + ["assert x == a;", "}", ""])


def chain(n):
    lines = ["procedure P0(a: bool) returns (r: bool) ensures r == a; { r := a; }"]
    lines += [
        f"procedure P{i}(a: bool) returns (r: bool) ensures r == a; {{ call r := P{i - 1}(a); }}" for i in range(1, n)
    ]
    return "\n".join(lines + [""])


def loops(n):
    lines = ["procedure P(a: bool) { var x: bool; x := a;"]
    lines += ["while (*) invariant x == a; { x := !x; x := !x; }"] * n
    return "\n".join(lines + ["assert x == a;", "}", ""])


def relations(n):
    names = [f"x{i}" for i in range(n + 1)]
    lines = ["procedure P(" + ", ".join(f"{x}: int" for x in names) + ") {"]
    return lines + [f"assume {a} <= {b};" for a, b in zip(names, names[1:])]


def ordered(n):
    return "\n".join([*relations(n), f"assert x0 <= x{n};", "}", ""])


def unordered(n):
    return "\n".join([*relations(n), f"assert x{n} <= x0;", "}", ""])


def crowd(n):
    """Assumptions and checks that keep one number out of ranges, which stand in no order."""
    lines = ["procedure P(x: int) {"]
    for k in range(2 * n):
        low = 37 * k % 1009
        lines.append(f"{'assume' if k < n else 'assert'} x <= {low} || x >= {low + 2 + k % 50};")
    return "\n".join([*lines, "}", ""])


def nearer(n):
    """Each check keeps a number out of more than the one before it."""
    lines = ["procedure P(x: int) {"]
    return "\n".join([*lines, *(f"assert x <= {n - k} || x >= {n + k};" for k in range(n)), "}", ""])


def apart(n):
    """Assumptions and checks, each of a number of its own."""
    lines = ["procedure P(" + ", ".join(f"x{k}: int" for k in range(n)) + ") {"]
    lines += [f"assume x{k} <= 10 || x{k} >= 20;" for k in range(n)]
    return "\n".join([*lines, *(f"assert x{k} <= 5 || x{k} >= 30;" for k in range(n)), "}", ""])


def nest(n):
    """Loops within loops, each of which counts to the same limit and keeps what the outer ones count."""
    lines = ["procedure P(limit: int) requires 0 <= limit; {", "var " + ", ".join(f"i{k}" for k in range(n)) + ": int;"]
    for k in range(n):
        lines += [f"i{k} := 0;", f"while (i{k} < limit)"]
        lines += [f"  invariant 0 <= i{j} && i{j} {'<=' if j == k else '<'} limit;" for j in range(k + 1)] + ["{"]
    for k in reversed(range(n)):
        lines += [f"i{k} := i{k} + 1;", "}"]
    return "\n".join([*lines, "assert i0 == limit;", "}", ""])


def larger(n):
    return "".join(
        f"procedure P{i}(a: int, b: int) returns (m: int)\n  ensures a <= m && b <= m && (m == a || m == b);\n"
        "{ if (a <= b) { m := b; } else { m := a; } }\n"
        for i in range(n)
    )


PART = """procedure P{0}(a: bool, b: bool, n: int) returns (r: bool)
  requires a ==> b;
  ensures r || !a;
{{
  var x: int, y: [int]bool;
  x := x + 1 * 2 - 3;
  y[x] := a && b && r;
  while (x < n) invariant x <= n + 10; {{
    x := x + 1;
    if (y[x]) {{ r := true; }} else if (a) {{ call r := P0(a, b, x); }}
  }}
  assert r ==> a == b;
}}
"""


def parts(size):
    made, k = [], 0
    while size > 0:
        made.append(PART.format(k))
        size -= len(made[-1])
        k += 1
    return "".join(made)


def tokens(size):
    """No program begins with the first token: the others are only taken apart."""
    return "; " + parts(size)


def tree(size):
    """The last token is the first with which no program goes on."""
    return parts(size) + ";"


def measure(bg, text, folder):
    path = os.path.join(folder, "a.bpl")
    with open(path, "w") as file:
        file.write(text)
    best = None
    for _ in range(5):
        start = time.perf_counter()
        ran = subprocess.run([bg, "verify", path], capture_output=True)
        took = time.perf_counter() - start
        best = took if best is None else min(best, took)
    return best, ran.returncode, (ran.stdout + ran.stderr).decode().splitlines()[-1]


def least(bg, text, folder, word):
    """Returns the least number behind a word with which a program is judged as with 1,000,000, or None where that is unknown."""
    path = os.path.join(folder, "a.bpl")
    with open(path, "w") as file:
        file.write(text)
    judged = lambda n: subprocess.run([bg, "verify", word, str(n), path], capture_output=True).stdout
    wanted = judged(1_000_000)
    if not wanted.endswith(b" 0 unknown\n"):
        return None
    low, high = 0, 1
    while judged(high) != wanted:
        low, high = high, 2 * high
    while high - low > 1:
        middle = (low + high) // 2
        low, high = (low, middle) if judged(middle) == wanted else (middle, high)
    return high


def main():
    parser = argparse.ArgumentParser()
    parser.add_argument("--bg", default="crates/bg_main/out/bg_main")
    bg = os.path.abspath(parser.parse_args().bg)
    rows = [
        ("assignments", body, [1_000, 2_000, 4_000]),
        ("checks", checks, [250, 500, 1_000]),
        ("conditionals", diamonds, [100, 200, 400]),
        ("loops", loops, [50, 100, 200]),
        ("procedures", procedures, [1_000, 2_000, 4_000]),
        ("calls in a chain", chain, [1_000, 2_000, 4_000]),
        ("relations in order", ordered, [20, 40, 80]),
        ("relations against their order", unordered, [20, 40, 80]),
        ("relations of one number", crowd, [50, 100, 200]),
        ("relations ever nearer", nearer, [50, 100, 200]),
        ("relations of numbers apart", apart, [50, 100, 200]),
        ("loops in a nest", nest, [2, 4, 8]),
        ("procedures over numbers", larger, [200, 400, 800]),
        ("bytes into tokens", tokens, [1_000_000, 2_000_000, 4_000_000]),
        ("bytes into a tree", tree, [1_000_000, 2_000_000, 4_000_000]),
        ("bytes through types", parts, [1_000_000, 2_000_000, 4_000_000]),
    ]
    with tempfile.TemporaryDirectory() as folder:
        for what, make, sizes in rows:
            before = None
            for n in sizes:
                took, status, last = measure(bg, make(n), folder)
                ratio = "" if before is None else f" ratio {took / before:.2f}"
                print(f"{n:7} {what}: {took:.3f} s{ratio}; status {status}; {last}")
                before = took
        for what, make, sizes in (
            ("assignments", body, [10, 100]),
            ("conditionals", diamonds, [5, 10, 20]),
            ("loops", loops, [5, 10]),
            ("relations in order", ordered, [20, 40, 80]),
            ("relations against their order", unordered, [20, 40, 80]),
            ("loops in a nest", nest, [2, 4]),
            ("procedures over numbers", larger, [1]),
        ):
            for n in sizes:
                text = make(n)
                print(f"{n:7} {what}: nodes {least(bg, text, folder, '--nodes')}, rows {least(bg, text, folder, '--rows')}")


if __name__ == "__main__":
    main()
