#!/usr/bin/env python3
"""Bad input through bg: the status, the report and the error line that the rules give, and no crash.

usage: hostile.py [--bg FILE] [--short]

With --short texts are smaller and fewer, and those at the limits are left out but for one. The last line is `N passed, M failed`.
"""
import argparse
import os
import re
import resource
import subprocess
import sys
import tempfile

import judge

FRONT = b"axioms: consistent\nretained set: greatest\n"
NONE = FRONT + b"summary: 0 retained, 0 dropped; 0 verified, 0 refuted, 0 unknown\n"
ONE = b"summary: 0 retained, 0 dropped; 1 verified, 0 refuted, 0 unknown\n"
USAGE = b"usage: bg verify|annotate|certify|check|generate|bench ..\n"
NAMES = b"ABCDEFGHIJKLMNOPQRSTUVWXYZabcdefghijklmnopqrstuvwxyz'~#$^_.?`"
SIGNS = b"()[]{},;:=<>!+-*"
MOST_MEMORY = 1_000_000  # kilobytes
LINE = re.compile(rb"error: [1-9][0-9]*:[1-9][0-9]* [^\n]+\n")

# Each construct of the language, on about 60 lines.
PROGRAM = b"""type Ref;
type Field, Heap = [Ref,Field]int;
const unique null: Ref;
const {:existential true} keep, more: bool;
function size(r: Ref): int;
function {:inline} twice(x: int) returns (y: int) { 2 * x }
axiom (size(null) == 0 && twice(2) >= 4) || !(true <==> false);
var heap: Heap, count: int;
procedure Swap(x: int, y: int) returns (a: int, b: int);
  requires x <= y;
  free requires x + y < 100;
  ensures a == y && b == x;
procedure Work(n: int, r: Ref, f: Field) returns (i: int)
  requires n >= 0;
  modifies heap, count;
  ensures i >= n ==> count >= old(count);
  free ensures i != -1;
{
  var m: [int]bool, k: int;
  var z: bool;
  // a comment
  i := 0;
  k, z := 1, m[0 := true][0];
  havoc m, k;
  assume {:note "text", i} k > 0;
  while (i < n)
    invariant keep ==> i <= n;
    invariant more ==> 0 <= i;
    free invariant k > 0;
  {
    i := i + 1;
    heap[r, f] := i - 1;
    if (*) {
      call i, k := Swap(k, k);
    } else if (z) {
      goto done;
    } else {
      while (true) {
        if (i == 3) {
          break;
        }
        m[i] := !m[i];
      }
    }
    count := count + 1;
    done:
    assert (i <= n) <== z;
  }
  /* and
     /* another */ one */
  if (z) {
    goto a, b;
  }
  a:
  assert z ==> z ==> true;
  b:
  return;
}
implementation Work(n: int, r: Ref, f: Field) returns (i: int)
{
  i := n;
}
"""


def cut(data):
    return data if len(data) <= 120 else data[:120] + b" .. (%d bytes)" % len(data)


class Trial:
    def __init__(self, bg, folder):
        self.bg, self.folder, self.passed, self.failed = bg, folder, 0, 0

    def run(self, name, words, status, out, err):
        try:
            done = subprocess.run(
                [self.bg, *words], cwd=self.folder, capture_output=True, timeout=600, stdin=subprocess.DEVNULL
            )
            got = (done.returncode, done.stdout, done.stderr)
        except (OSError, subprocess.TimeoutExpired) as e:
            got = (str(e), b"", b"")
        if got == (status, out, err):
            self.passed += 1
            return
        self.failed += 1
        print(f"failed: {name}")
        for part, wanted, had in zip(("status", "out", "err"), (status, out, err), got):
            if wanted != had:
                shown = (cut(wanted), cut(had)) if isinstance(wanted, bytes) else (wanted, had)
                print(f"  {part}: wanted {shown[0]!r}, got {shown[1]!r}")

    def front(self, name, data):
        """A text that may be cut off: refused by one line; or taken, where nothing of it is missing, with a report of which the judge
        says nothing wrong."""
        path = os.path.join(self.folder, "front.bpl")
        with open(path, "wb") as f:
            f.write(data)
        done = subprocess.run([self.bg, "verify", path], capture_output=True, timeout=600, stdin=subprocess.DEVNULL)
        line = done.stderr
        if done.returncode in (0, 1, 2):
            faults = [line] if line else judge.faults_in(data.decode("latin-1"), done.stdout.decode("latin-1"), 20)
        else:
            faults = [] if done.returncode == 3 and done.stdout == b"" and LINE.fullmatch(line) else [line]
        self.passed += not faults
        self.failed += bool(faults)
        if faults:
            print(f"failed: {name}: {done.returncode} {cut(done.stdout)!r} {faults}")

    def stored(self, data):
        path = os.path.join(self.folder, "stored.bpl")
        with open(path, "wb") as f:
            f.write(data)
        return path

    def holds(self, name, is_so, got):
        self.passed += bool(is_so)
        self.failed += not is_so
        if not is_so:
            print(f"failed: {name}: {got!r}")

    def text(self, name, data, status, out, err):
        file = name.replace(" ", "-") + ".bpl"
        with open(os.path.join(self.folder, file), "wb") as f:
            f.write(data)
        self.run(name, ["verify", file], status, out, err)
        os.remove(os.path.join(self.folder, file))


def alone(b):
    """What a text of this byte alone gives: status, report, error line."""
    if b in b" \t\r\n":
        return 0, NONE, b""
    if b in NAMES or b in b"0123456789" or b in SIGNS:
        return 3, b"", b"error: 1:1 syntax\n"
    if b in b"/%\\":
        return 3, b"", b"error: 1:1 unsupported %c\n" % b
    return 3, b"", b"error: 1:1 bad byte\n"


def procedures(count):
    return b"".join(b"procedure P%d() { }\n" % i for i in range(count))


def one(name, position):
    """The report of one implementation without places."""
    return FRONT + b"implementation %s %s verified\n" % (name, position) + ONE


def large(t, size):
    """Texts that are long in one way, each of about so many parts."""
    name = b"n" * (10 * size)
    t.text("long name alone", name, 3, b"", b"error: 1:1 syntax\n")
    t.text("long name", b"procedure " + name + b"() { }", 0, one(name, b"1:1"), b"")
    t.text("nested comments", b"/*" * size + b" @ " + b"*/" * size, 0, NONE, b"")
    t.text("an open comment", b"/*" * size + b"*/" * (size - 1), 3, b"", b"error: 1:1 open comment\n")
    t.text("a row of signs", b"procedure P() { assert " + b"!" * size + b"true; }", 0, one(b"P", b"1:1"), b"")
    t.text("a chain", b"procedure P() { assert true" + b" && true" * size + b"; }", 0, one(b"P", b"1:1"), b"")
    sums = b"procedure P() { assert 0 == 1" + b" + 1" * size + b"; }"
    false = FRONT + b"implementation P 1:1 refuted\n  refuted assert 1:17\n" + ONE.replace(b"1 verified, 0 refuted", b"0 verified, 1 refuted")
    t.text("a chain of sums", sums, 1, false, b"")
    kinds = b"".join(b"type T%d;\nconst unique c%d: T%d;\n" % (i, i, i) for i in range(size))
    t.text("unique constants of as many types", kinds, 0, NONE, b"")


def brackets(t, most):
    """A type of as many brackets as one may have, in a row and by synonyms, and of one more: memory doesn't suffice for that. Maps of fewer are
    shown to differ by an index for each bracket."""
    selected = b"assume m == n; assert m[0] != n[0];"
    for count, says, status in ((most, selected, 1), (most + 1, selected, 7), (40, b"assert m == n;", 1)):
        row = b"[int]" * count + b"bool"
        names = b"type T0 = bool;\n" + b"".join(b"type T%d = [int]T%d;\n" % (i + 1, i) for i in range(count))
        for name, front, kind in (("a row", b"", row), ("synonyms", names, b"T%d" % count)):
            text = front + b"procedure P(m: %s, n: %s) {\n  %s\n}" % (kind, kind, says)
            done = subprocess.run([t.bg, "verify", t.stored(text)], capture_output=True, timeout=600, stdin=subprocess.DEVNULL)
            faults = judge.faults_in(text.decode(), done.stdout.decode(), 0) if done.stdout else []
            t.holds(f"{name} of {count} brackets", done.returncode == status and (status == 1) == bool(done.stdout) and not faults, (done.returncode, faults))


def at_the_limits(t):
    t.text("spaces at the limit", b" " * 4_194_304, 0, NONE, b"")
    t.text("many procedures", procedures(10_000), 0, FRONT + many(10_000), b"")
    t.text("too many procedures", procedures(10_001), 8, b"", b"error: limit implementations 10001\n")


def trials(t, is_short):
    for b in range(0, 256, 9 if is_short else 1):
        t.text(f"byte {b}", bytes([b]), *alone(b))
    t.text("empty text", b"", 0, NONE, b"")
    t.text("unclosed body", b"procedure P() { assert true;", 3, b"", b"error: 1:29 syntax\n")
    t.text("spaces over the limit", b" " * 4_194_305, 8, b"", b"error: limit bytes 4194305\n")
    large(t, 2_000 if is_short else 100_000)
    if not is_short:
        at_the_limits(t)
    t.front("each construct", PROGRAM)
    for i in range(0, len(PROGRAM), 23 if is_short else 1):
        t.front(f"prefix {i}", PROGRAM[:i])
    brackets(t, 200)
    t.run("absent file", ["verify", "absent.bpl"], 5, b"", b"error: cannot read absent.bpl\n")
    t.run("no file", ["verify"], 4, b"", USAGE)
    t.run("no word", [], 4, b"", USAGE)
    t.run("a dash", ["verify", "-a.bpl"], 4, b"", USAGE)
    t.run("word that is no UTF-8", ["verify", b"\xff.bpl"], 4, b"", USAGE)


def many(count):
    lines = b"".join(b"implementation P%d %d:1 verified\n" % (i, i + 1) for i in range(count))
    return lines + b"summary: 0 retained, 0 dropped; %d verified, 0 refuted, 0 unknown\n" % count


def main():
    words = argparse.ArgumentParser(description=__doc__.split("\n", maxsplit=1)[0])
    words.add_argument("--bg", default="./bg")
    words.add_argument("--short", action="store_true")
    given = words.parse_args()
    sys.setrecursionlimit(20_000)
    # (the script ./bg then says its failures alone)
    os.environ["BG_QUIET"] = "1"
    with tempfile.TemporaryDirectory() as folder:
        t = Trial(os.path.abspath(given.bg), folder)
        trials(t, given.short)
    peak = resource.getrusage(resource.RUSAGE_CHILDREN).ru_maxrss
    t.passed += peak < MOST_MEMORY
    t.failed += peak >= MOST_MEMORY
    print(f"peak memory {peak // 1000} MB")
    print(f"{t.passed} passed, {t.failed} failed")
    sys.exit(1 if t.failed else 0)


if __name__ == "__main__":
    main()
