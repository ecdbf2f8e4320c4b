#!/usr/bin/env python3
"""Want of memory, one request after the other: a run of bg in which the Nth request for memory is refused, or each from the Nth on,
ends with status 7 and has written nothing, or with the status and the report that it has with ample memory.

usage: memory.py [--bg FILE] [--step N]

FILE is the program itself, since what refuses is preloaded into it (crates/bg_main/out/bg_main). A request is tried in N (1: each one).
It wants a C compiler: $CC, cc, or the toolchain's clang. The last line is `N passed, M failed`.
"""
import argparse
import os
import shutil
import subprocess
import sys
import tempfile
from concurrent.futures import ThreadPoolExecutor

# malloc and its kin, which refuse request number REFUSE, and with REFUSE_ALL those behind it too.
SHIM = r"""
typedef unsigned long size_t;
extern char *getenv(const char *);
extern long atol(const char *);
extern int *__errno_location(void);
extern void *__libc_malloc(size_t);
extern void *__libc_realloc(void *, size_t);
extern void *__libc_calloc(size_t, size_t);
extern void *__libc_memalign(size_t, size_t);
static long made;
static int refuses(void) {
    const char *word = getenv("REFUSE");
    long at = word ? atol(word) : 0, k = __atomic_add_fetch(&made, 1, __ATOMIC_SEQ_CST);
    if (!at || k < at || (k > at && !getenv("REFUSE_ALL")))
        return 0;
    *__errno_location() = 12;
    return 1;
}
void *malloc(size_t n) { return refuses() ? 0 : __libc_malloc(n); }
void *realloc(void *p, size_t n) { return refuses() ? 0 : __libc_realloc(p, n); }
void *calloc(size_t k, size_t n) { return refuses() ? 0 : __libc_calloc(k, n); }
void *aligned_alloc(size_t a, size_t n) { return refuses() ? 0 : __libc_memalign(a, n); }
int posix_memalign(void **p, size_t a, size_t n) {
    if (refuses())
        return 12;
    *p = __libc_memalign(a, n);
    return *p ? 0 : 12;
}
"""

COPY = "procedure P(a: bool) { var b: bool; b := a; assert b == a; }\n"
COUNT = """const {:existential true} b0: bool;
const {:existential true} b1: bool;
const {:existential true} b2: bool;
procedure Count(n: int) returns (i: int)
  requires 0 <= n;
  ensures i == n;
{
  i := 0;
  while (i < n)
    invariant b0 ==> i >= 0;
    invariant b1 ==> i >= 1;
    invariant b2 ==> i <= n;
  { i := i + 1; }
}
"""
# a program, and the words of a run; CERT is a file with the certificate that is written of the program
RUNS = [
    (COPY, ["verify", "--workers", "1"]),
    (COUNT, ["verify", "--workers", "2"]),
    (COUNT, ["annotate", "--workers", "1"]),
    (COUNT, ["certify", "--workers", "2"]),
    (COUNT, ["check", "--cert", "CERT"]),
]
# So many runs in a row that meet no refusal are behind the last request.
BEHIND = 64


def compiler():
    found = os.environ.get("CC") or shutil.which("cc")
    kit = os.path.dirname(os.path.dirname(os.path.realpath(shutil.which("rt") or "/opt/rattle/bin/rt")))
    return found or f"{kit}/toolchain/bin/clang"


def run(words, refusing):
    # A run may end in no more than a minute, however often it is refused.
    ran = subprocess.run(words, capture_output=True, env={**os.environ, **refusing}, timeout=60)
    return ran.returncode, ran.stdout, ran.stderr


def main():
    parser = argparse.ArgumentParser()
    parser.add_argument("--bg", default="crates/bg_main/out/bg_main")
    parser.add_argument("--step", type=int, default=1)
    asked = parser.parse_args()
    bg, passed, failed = os.path.abspath(asked.bg), 0, 0
    with tempfile.TemporaryDirectory() as folder, ThreadPoolExecutor(os.cpu_count()) as pool:
        shim, text = f"{folder}/shim.so", f"{folder}/a.bpl"
        words = [compiler(), "-O1", "-shared", "-fPIC", "-nostdlib", "-x", "c", "-", "-o", shim]
        subprocess.run(words, input=SHIM.encode(), check=True)
        for program, options in RUNS:
            with open(text, "w", encoding="utf-8") as file:
                file.write(program)
            with open(f"{folder}/cert", "wb") as file:
                file.write(run([bg, "certify", text], {})[1])
            words = [bg, *(f"{folder}/cert" if word == "CERT" else word for word in options), text]
            wanted = run(words, {})
            for more in ({}, {"REFUSE_ALL": "1"}):
                first, quiet, refused = 1, 0, 0
                while quiet < BEHIND:
                    numbers = [first + k * asked.step for k in range(BEHIND)]
                    first = numbers[-1] + asked.step
                    tried = [{"LD_PRELOAD": shim, "REFUSE": str(n), **more} for n in numbers]
                    for n, ran in zip(numbers, pool.map(lambda it: run(words, it), tried)):
                        quiet = 0 if ran[0] == 7 else quiet + 1
                        refused += ran[0] == 7
                        if ran in (wanted, (7, b"", b"")):
                            passed += 1
                            continue
                        failed += 1
                        print(f"{' '.join(options)}: request {n}{' and all behind' * bool(more)}: {ran}")
                # (a program that isn't linked so that what is preloaded counts meets no refusal)
                if not refused:
                    failed += 1
                    print(f"{' '.join(options)}: no request was refused")
    print(f"{passed} passed, {failed} failed")
    return 1 if failed else 0


if __name__ == "__main__":
    sys.exit(main())
