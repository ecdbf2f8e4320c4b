#!/usr/bin/env python3
"""Times of inference: programs of N procedures, each with a loop and three guessed invariants, one of which mostly doesn't hold, and a call of
the one before it.

usage: inference.py --bg PROGRAM [--sizes N..] [--workers N..] [--seconds N]

Writes a table of seconds and of peak memory. Where `boogie` is installed it is asked for the same (with /contractInfer and without its
interval inference); what it retains and verifies has to be the same. The program has to be the proved one: `./bg`'s other one is slower by
far.
"""
import argparse
import os
import re
import shutil
import subprocess
import tempfile
import time


def text(size):
    """The program: its numbers come from a linear congruence."""
    lines, state, before = [], 1, None

    def draw(most):
        nonlocal state
        state = (state * 1103515245 + 12345) % 2**31
        return state // 65536 % most

    for k in range(size):
        low = draw(10)
        guess = low + draw(3)
        lines += [f"const {{:existential true}} {letter}{k}: bool;" for letter in "ade"]
        lines += [f"procedure G{k}(n: int) returns (i: int)", "  requires 0 <= n;", f"  ensures i == n + {low};", "{"]
        if before is not None:
            lines += ["  var j: int;", f"  call j := G{k - 1}(n);", f"  assert j == n + {before};"]
        lines += [f"  i := {low};", f"  while (i < n + {low})", f"    invariant a{k} ==> i >= {low};"]
        lines += [f"    invariant e{k} ==> i <= n + {low};", f"    invariant d{k} ==> i >= {guess};", "  {", "    i := i + 1;", "  }", "}"]
        before = low
    return "\n".join(lines) + "\n"


def run(command, seconds):
    """What a command writes, its seconds and its peak memory in MB; nothing where it takes too long."""
    with tempfile.TemporaryFile() as out:
        begin = time.monotonic()
        child = subprocess.Popen(command, stdout=out, stderr=subprocess.STDOUT, stdin=subprocess.DEVNULL)
        while time.monotonic() - begin < seconds:
            pid, _, used = os.wait4(child.pid, os.WNOHANG)
            if pid:
                child.returncode = 0
                out.seek(0)
                return out.read().decode("latin-1"), time.monotonic() - begin, used.ru_maxrss / 1024
            time.sleep(0.001)
        child.kill()
        child.wait()
        return "", seconds, 0


def told(report):
    """How many candidates a report retains, and how many implementations it calls verified."""
    found = re.search(r"^summary: (\d+) retained, \d+ dropped; (\d+) verified", report, re.M)
    return tuple(map(int, found.groups())) if found else None


def told_by_boogie(report):
    found = re.search(r"finished with (\d+) verified", report)
    return (len(re.findall(r"^\S+ = True\s*$", report, re.M)), int(found[1])) if found else None


def cell(seconds, memory):
    return f"{seconds:.2f} s, {memory:.0f} MB" if memory else f"over {seconds} s"


def main():
    parser = argparse.ArgumentParser(description=__doc__.split("\n", maxsplit=1)[0])
    parser.add_argument("--bg", required=True)
    parser.add_argument("--sizes", type=int, nargs="+", default=[50, 200, 1000])
    parser.add_argument("--workers", type=int, nargs="+", default=[1, 4])
    parser.add_argument("--seconds", type=int, default=120)
    args = parser.parse_args()
    boogie = shutil.which("boogie")
    heads = ["procedures", "retained, verified"] + [f"{n} worker{'s' * (n > 1)}" for n in args.workers] + ["Boogie"] * bool(boogie)
    print(f"| {' | '.join(heads)} |\n|{' --- |' * len(heads)}")
    with tempfile.TemporaryDirectory() as folder:
        for size in args.sizes:
            source = os.path.join(folder, f"{size}.bpl")
            with open(source, "w", encoding="ascii") as file:
                file.write(text(size))
            ran = [run([args.bg, "verify", "--workers", str(n), source], args.seconds) for n in args.workers]
            results = {told(report) for report, _, _ in ran}
            cells = [cell(seconds, memory) for _, seconds, memory in ran]
            if boogie:
                report, seconds, memory = run([boogie, "/nologo", "/noinfer", "/contractInfer", "/printAssignment", source], args.seconds)
                results.add(told_by_boogie(report))
                cells.append(cell(seconds, memory))
            same = ", ".join(map(str, results.pop())) if len(results) == 1 and None not in results else "NOT THE SAME"
            print(f"| {size} | {same} | {' | '.join(cells)} |", flush=True)


if __name__ == "__main__":
    main()
