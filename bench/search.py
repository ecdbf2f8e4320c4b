#!/usr/bin/env python3
"""Times of the search: families of programs that grow with a number N, side by side with Boogie where it is installed (run without its
interval inference, and with its theory of arrays where there are maps, since by its own axioms it doesn't prove that maps are equal).

usage: search.py --bg PROGRAM [--families NAME=N,N.. ..] [--runs N] [--seconds N]

Writes a table of verdicts, the median seconds and the peak memory. What both verify has to be the same. The program has to be the proved
one: `./bg`'s other one is slower by far.
"""
import argparse
import os
import random
import re
import shutil
import statistics
import tempfile

import inference

MEASURED = {
    "straight": (100, 800), "counters": (10, 40), "machine": (80,), "settled": (200, 1000), "chain": (1000,),
    "implementations": (1000,), "ways": (8, 12, 32), "checked_ways": (8, 32), "sorter": (3, 5), "tickets": (3, 5, 7),
    "pigeons": (5,), "locals_alone": (1000, 4000), "globals_alone": (1000, 10000), "looked_up": (50, 150), "nested": (10, 40),
    "nested_open": (10, 40), "read_back": (5, 20, 80), "one_misread": (4, 16), "misread": (4, 16), "filled_entries": (5, 20, 80),
    "deposits": (5, 20, 80), "fields": (5, 20, 80), "two_orders": (5, 20, 80),
}  # fmt: skip


def settled(n):
    """Small procedures with a loop and a call each, their invariants written out."""
    lines = []
    for line in inference.text(n).splitlines():
        guess = re.match(r"    invariant ([ade])\d+ ==> (.*)", line)
        if guess and guess[1] != "d":
            lines.append(f"    invariant {guess[2]}")
        elif not guess and not line.startswith("const "):
            lines.append(line)
    return "\n".join(lines) + "\n"


def counters(n):
    """One loop over n counters that go up together."""
    xs = [f"x{i}" for i in range(n)]
    lines = ["procedure P(m: int)", "  requires 0 <= m;", "{", f"  var {', '.join(xs)}, k: int;", "  k := 0;"]
    lines += [f"  {x} := {i};" for i, x in enumerate(xs)] + ["  while (k < m)", "    invariant k <= m;"]
    lines += [f"    invariant {x} == k + {i};" for i, x in enumerate(xs)] + ["  {", "    k := k + 1;"]
    lines += [f"    {x} := {x} + 1;" for x in xs] + ["  }"]
    return "\n".join(lines + [f"  assert {x} == m + {i};" for i, x in enumerate(xs)] + ["}", ""])


def ways(n, checked=False):
    """Conditionals in a row, each of which adds 1 or 2."""
    lines = [f"procedure P({', '.join(f'b{i}: bool' for i in range(n))}) returns (s: int)", f"  ensures {n} <= s && s <= {2 * n};", "{", "  s := 0;"]
    for i in range(n):
        lines.append(f"  if (b{i}) {{ s := s + 1; }} else {{ s := s + 2; }}")
        lines += [f"  assert {i + 1} <= s && s <= {2 * i + 2};"] * checked
    return "\n".join(lines + ["}", ""])


def checked_ways(n):
    """The same, with the bounds of the sum checked behind each."""
    return ways(n, checked=True)


def machine(n):
    """A loop over a state that goes through n states in turn."""
    lines = ["procedure P() {", "  var s, c: int;", "  s := 0; c := 0;", "  while (*)", f"    invariant 0 <= s && s < {n};", "    invariant c >= 0;", "  {"]
    lines += [f"    {'else ' * (i > 0)}if (s == {i}) {{ s := {(i + 1) % n}; c := c + {i}; }}" for i in range(n)]
    return "\n".join(lines + ["  }", f"  assert s != {n};", "}", ""])


def straight(n):
    """Assignments over four numbers, every tenth of them checked."""
    rng, worth = random.Random(n), [0, 1, 2, 3]
    lines = ["procedure P(x: int) {", "  var a, b, c, d: int;", "  a, b, c, d := x, x + 1, x + 2, x + 3;"]
    for i in range(n):
        to, of, by = rng.randrange(4), rng.randrange(4), rng.randrange(-3, 4)
        worth[to] = worth[of] + by
        lines.append(f"  {'abcd'[to]} := {'abcd'[of]} + ({by});")
        lines += [f"  assert {'abcd'[to]} == x + ({worth[to]});"] * (i % 10 == 9)
    return "\n".join(lines + ["}", ""])


def chain(n):
    """Procedures of which each calls the one before it."""
    lines = ["procedure P0(x: int) returns (y: int) ensures y == x + 1; { y := x + 1; }"]
    for i in range(1, n):
        lines += [f"procedure P{i}(x: int) returns (y: int) requires x >= 0; ensures y == x + {i + 1};", f"{{ call y := P{i - 1}(x); y := y + 1; }}"]
    return "\n".join(lines + [""])


def implementations(n):
    """Small procedures that have nothing to do with each other."""
    return "".join(f"procedure P{i}(x: int) returns (r: int) ensures r == x + 1; {{ r := x + 1; }}\n" for i in range(n))


def locals_alone(n):
    """One procedure that sets n locals."""
    lines = ["procedure P() {", f"  var {', '.join(f'x{i}' for i in range(n))}: int;"] + [f"  x{i} := {i};" for i in range(n)]
    return "\n".join(lines + [f"  assert x0 == 0 && x{n - 1} == {n - 1};", "}", ""])


def globals_alone(n):
    """Globals, all of which a call may change."""
    names = ", ".join(f"g{i}" for i in range(n))
    return f"""var {names}: int;
procedure Bump() modifies {names}; ensures g0 == old(g0) + 1; {{ g0 := g0 + 1; }}
procedure Twice() modifies {names}; ensures g0 == old(g0) + 2; {{ call Bump(); call Bump(); }}
"""


def sorter(n):
    """Bubble sort, unrolled: what comes out is in order, and begins with a least one."""
    xs, ys = [f"x{i}" for i in range(n)], [f"y{i}" for i in range(n)]
    lines = [f"procedure Sort({', '.join(f'{x}: int' for x in xs)}) returns ({', '.join(f'{y}: int' for y in ys)})"]
    lines += [f"  ensures {a} <= {b};" for a, b in zip(ys, ys[1:])] + [f"  ensures y0 <= {x};" for x in xs]
    lines += ["{", f"  {', '.join(ys)} := {', '.join(xs)};"]
    lines += [f"  if (y{j} > y{j + 1}) {{ y{j}, y{j + 1} := y{j + 1}, y{j}; }}" for i in range(n - 1, 0, -1) for j in range(i)]
    return "\n".join(lines + ["}", ""])


def pigeons(n):
    """n + 1 different numbers from 1 to n."""
    xs = [f"x{i}" for i in range(n + 1)]
    lines = [f"procedure P({', '.join(f'{x}: int' for x in xs)}) {{"] + [f"  assume 1 <= {x} && {x} <= {n};" for x in xs]
    return "\n".join(lines + [f"  assume {x} != {y};" for i, x in enumerate(xs) for y in xs[:i]] + ["  assert false;", "}", ""])


def tickets(n):
    """A ticket lock: whoever has the ticket that is served is inside, so no two are."""
    lines = ["procedure P() {", f"  var next, served, {', '.join(f't{i}, s{i}' for i in range(n))}: int;", "  next := 0; served := 0;"]
    lines += [f"  t{i} := 0; s{i} := 0;" for i in range(n)] + ["  while (*)", "    invariant 0 <= served && served <= next;"]
    for i in range(n):
        lines.append(f"    invariant 0 <= s{i} && s{i} <= 2 && (s{i} != 0 ==> served <= t{i} && t{i} < next) && (s{i} == 2 ==> t{i} == served);")
        lines += [f"    invariant s{i} != 0 && s{j} != 0 ==> t{i} != t{j};" for j in range(i)]
    lines.append("  {")
    for i in range(n):
        lines += [f"    if (*) {{ if (s{i} == 0) {{ t{i} := next; next := next + 1; s{i} := 1; }}", f"      else if (s{i} == 1) {{ if (t{i} == served) {{ s{i} := 2; }} }}"]
        lines.append(f"      else {{ s{i} := 0; served := served + 1; }} }}")
    return "\n".join(lines + ["  }"] + [f"  assert !(s{i} == 2 && s{j} == 2);" for i in range(n) for j in range(i)] + ["}", ""])


def looked_up(n):
    """A walk through tables: three functions, axioms of ground facts, and n applications in a row."""
    after, price = [(3 * i + 1) % 8 for i in range(8)], [(5 * i + 2) % 7 for i in range(8)]
    lines = ["function after(k: int): int;", "function price(k: int): int;", "function fee(k: int, s: int): int;"]
    lines += [f"axiom after({i}) == {after[i]} && price({i}) == {price[i]};" for i in range(8)]
    lines += ["procedure P(first: int) returns (k: int, s: int)", "  requires first == 0;", "{", "  k := first; s := 0;"]
    at = worth = 0
    for i in range(n // 3):
        lines.append(f"  {'s := s + price(k);' if i % 2 else 'assume fee(k, s) == price(k) + s; s := fee(k, s);'} k := after(k);")
        worth, at = worth + price[at], after[at]
    return "\n".join(lines + [f"  assert s == {worth};", f"  assert k == {at};", "}", ""])


def nested(n, open_ways=False):
    """n applications one in the other, of equal arguments."""
    said = ["f(" * k + x + ")" * k for k in (n, n - 1) for x in "xy"]
    claim = f"{said[0]} == {said[1]} ==> {said[2]} == {said[3]}" if open_ways else f"x == y ==> {said[0]} == {said[1]}"
    return f"function f(int): int;\nprocedure P(x: int, y: int) {{ assert {claim}; }}\n"


def nested_open(n):
    """The same, where the function would have to be one to one."""
    return nested(n, open_ways=True)


def in_order(n):
    """Parameters and what is required of them, so many different whole numbers."""
    return ", ".join(f"i{k}: int" for k in range(n)), [f"  requires i{k} < i{k + 1};" for k in range(n - 1)]


def read_back(n):
    """Updates at n different indices, and what stands there behind them all."""
    params, lines = in_order(n)
    lines = [f"procedure P(m: [int]int, {params})", *lines, "{", "  var x: [int]int;", "  x := m;"]
    lines += [f"  x[i{k}] := {k};" for k in range(n)]
    return "\n".join(lines + [f"  assert x[i{k}] == {k};" for k in range(n)] + ["}", ""])


def filled_entries(n):
    """A loop that fills a map, with invariants of n single indices."""
    lines = [f"procedure P(most: int) returns (m: [int]int)", f"  requires {n} <= most;", "{", "  var k: int;", "  k := 0;", "  while (k < most)"]
    lines += ["    invariant 0 <= k && k <= most;"] + [f"    invariant {j} < k ==> m[{j}] == {j + 1};" for j in range(n)]
    lines += ["  {", "    m[k] := k + 1;", "    k := k + 1;", "  }"]
    return "\n".join(lines + [f"  assert m[{j}] == {j + 1};" for j in range(n)] + ["}", ""])


def deposits(n):
    """Calls that change a global map, each at an index of its own."""
    names = [f"a{k}" for k in range(n)]
    lines = ["type Account;", f"const unique {', '.join(names)}: Account;", "var balance: [Account]int;", "procedure Deposit(a: Account, x: int)"]
    lines += ["  modifies balance;", "  ensures balance == old(balance)[a := old(balance)[a] + x];", "{", "  balance[a] := balance[a] + x;", "}"]
    lines += ["procedure P()", "  modifies balance;"] + [f"  ensures balance[{name}] == old(balance)[{name}] + {k};" for k, name in enumerate(names)]
    return "\n".join(lines + ["{"] + [f"  call Deposit({name}, {k});" for k, name in enumerate(names)] + ["}", ""])


def fields(n):
    """Fields of two records in one heap; what one record has doesn't change what the other one has."""
    names = [f"f{k}" for k in range(n)]
    lines = ["type Ref, Field;", f"const unique {', '.join(names)}: Field;", "var heap: [Ref, Field]int;", "procedure P(r: Ref, s: Ref)", "  requires r != s;"]
    lines += ["  modifies heap;"] + [f"  ensures heap[r, {name}] == old(heap)[r, {name}] + {k};" for k, name in enumerate(names)] + ["{"]
    lines += [f"  heap[r, {name}] := heap[r, {name}] + {k}; heap[s, {name}] := heap[r, {name}];" for k, name in enumerate(names)]
    return "\n".join(lines + ["}", ""])


def two_orders(n):
    """Updates at n different indices in two orders: the maps are equal."""
    params, lines = in_order(n)
    lines = [f"procedure P(m: [int]int, {params})", *lines, "{", "  var x, y: [int]int;", "  x, y := m, m;"]
    lines += [f"  x[i{k}] := {k};" for k in range(n)] + [f"  y[i{k}] := {k};" for k in reversed(range(n))]
    return "\n".join(lines + ["  assert x == y;", "}", ""])


def one_misread(n):
    """Updates at n different indices, and what stands there behind them all, but for what the last one put there."""
    last = f"  assert x[i{n - 1}] == {n - 1};"
    return read_back(n).replace(last, last.replace(f"== {n - 1}", f"== {n}"))


def misread(n):
    """Updates at n indices of which nothing is known: but for the last one, each may have been put over."""
    lines = [f"procedure P({', '.join(f'i{k}: int' for k in range(n))})", "{", "  var x: [int]int;"]
    lines += [f"  x[i{k}] := {k};" for k in range(n)]
    return "\n".join(lines + [f"  assert x[i{k}] == {k};" for k in range(n)] + ["}", ""])


# those with maps
OVER_MAPS = (read_back, one_misread, misread, filled_entries, deposits, fields, two_orders)

FAMILIES = {f.__name__: f for f in (settled, counters, ways, checked_ways, machine, straight, chain, implementations, locals_alone, globals_alone, sorter, pigeons, tickets, looked_up, nested, nested_open, *OVER_MAPS)}


def median(command, runs, seconds):
    """The report, the median seconds and the peak memory of some runs."""
    ran = [inference.run(command, seconds) for _ in range(runs)]
    return ran[-1][0], statistics.median(it[1] for it in ran), max(it[2] for it in ran)


def verdicts(report):
    found = re.search(r"; (\d+) verified, (\d+) refuted, (\d+) unknown$", report, re.M)
    return ", ".join(f"{n} {word}" for n, word in zip(found.groups(), ("verified", "refuted", "unknown")) if n != "0") if found else "none"


def share(ours, theirs):
    """How many times as long as the one the other took."""
    return f"1/{theirs / ours:.0f}" if ours < theirs else f"{ours / theirs:.1f}"


def agree(ours, theirs):
    """Whether both verify as many implementations, and refute the same; where Boogie said nothing it ran out of time."""
    found = re.search(r"finished with (\d+) verified, (\d+) errors?", theirs)
    counts = re.search(r"; (\d+) verified, (\d+) refuted, 0 unknown$", ours, re.M)
    return not theirs or bool(found and counts and found[1] == counts[1] and (found[2] == "0") == (counts[2] == "0"))


def main():
    parser = argparse.ArgumentParser(description=__doc__.split("\n", maxsplit=1)[0])
    parser.add_argument("--bg", required=True)
    parser.add_argument("--families", nargs="+", metavar="NAME=N,N..")
    parser.add_argument("--runs", type=int, default=3)
    parser.add_argument("--seconds", type=int, default=30)
    args = parser.parse_args()
    chosen = {name: tuple(map(int, sizes.split(","))) for name, _, sizes in (it.partition("=") for it in args.families or [])} or MEASURED
    boogie = shutil.which("boogie")
    heads = ["program", "verdicts", "bg"] + ["Boogie", "bg / Boogie"] * bool(boogie)
    print(f"| {' | '.join(heads)} |\n|{' --- |' * len(heads)}")
    with tempfile.TemporaryDirectory() as folder:
        for name, sizes in chosen.items():
            for size in sizes:
                source = os.path.join(folder, f"{name}.bpl")
                with open(source, "w", encoding="ascii") as file:
                    file.write(FAMILIES[name](size))
                report, ours, memory = median([args.bg, "verify", source], args.runs, args.seconds)
                cells = [f"`{name} {size}`", verdicts(report), inference.cell(ours, memory)]
                if boogie:
                    words = ["/nologo", "/noinfer", *["/useArrayTheory"] * (FAMILIES[name] in OVER_MAPS)]
                    said, theirs, room = median([boogie, *words, source], args.runs, args.seconds)
                    cells += [inference.cell(theirs, room), share(ours, theirs) if agree(report, said) else "NOT THE SAME"]
                print(f"| {' | '.join(cells)} |", flush=True)


if __name__ == "__main__":
    main()
