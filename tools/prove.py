#!/usr/bin/env python3
"""Proves and builds a program: first the libraries below it, lowest first, as many side by side as there are processors and memory.

usage: prove.py [--at-once N] CRATE

`rt run` alone builds the libraries one after the other, and reads the text of all of them in one process before that. Here each check
has one job, and the libraries below its crate stand already when it begins. What was built from the present sources is not built
again. A line on standard error tells each crate that is done.

Each crate is built by `rt` itself, with two things changed: it locks the crate's folder alone (else it also locks those of all crates
below, and no two checks run side by side), and it sums up the texts of each crate below once a look (else once for each path through
crates.txt, which takes minutes in high crates).
"""
import argparse
import importlib.machinery
import importlib.util
import os
import shutil
import signal
import subprocess
import sys
import time
from concurrent.futures import FIRST_COMPLETED, ThreadPoolExecutor, wait

TOP = os.path.dirname(os.path.dirname(os.path.abspath(__file__)))
# The memory that a check of one crate may take, in kB.
EACH = 2_500_000


def run_rt(words):
    """Runs a command of `rt` in this folder and returns its status."""
    sys.dont_write_bytecode = True
    loader = importlib.machinery.SourceFileLoader("rt", os.path.realpath(shutil.which("rt")))
    rt = importlib.util.module_from_spec(importlib.util.spec_from_loader("rt", loader))
    loader.exec_module(rt)
    lock, stamp, stamps = rt.rtlib.lock, rt.rtlib.Crate.stamp, {}

    def stamp_once(crate):
        """What `stamp` gives, in which each crate's own texts are read once."""
        is_first = not stamps
        if crate.folder not in stamps:
            stamps[crate.folder] = None
            stamps[crate.folder] = stamp(crate)
        found = stamps[crate.folder]
        if is_first:
            stamps.clear()
        return found

    rt.rtlib.Crate.stamp = stamp_once
    rt.rtlib.lock = lambda crates: lock(crates[-1:])
    return rt.main(words)


def listed():
    """The crates that each crate of crates.txt stands on, of the repository's own."""
    crates = {}
    with open(os.path.join(TOP, "crates.txt"), encoding="utf-8") as file:
        for line in file:
            head, colon, tail = line.partition("#")[0].partition(":")
            if colon:
                crates[head.split()[0]] = tail.split()
    return {name: [it for it in below if it in crates] for name, below in crates.items()}


def with_below(crates, name, found):
    """Adds a crate and all below it to those that are found, each behind those that it stands on."""
    for it in crates[name]:
        if it not in found:
            with_below(crates, it, found)
    found[name] = None


def heights(crates, order):
    """How many crates stand above each one at most, one on the other: the longest chain is to begin first."""
    above = dict.fromkeys(order, 0)
    for it in reversed(order):
        for one in crates[it]:
            above[one] = max(above[one], above[it] + 1)
    return above


def free_memory():
    with open("/proc/meminfo", encoding="ascii") as file:
        return next(int(line.split()[1]) for line in file if line.startswith("MemAvailable:"))


class Builds:
    """The checks that run."""

    def __init__(self):
        self.processes, self.is_stopped = set(), False

    def build(self, name):
        """Returns what a check said and its status, with the seconds that it took."""
        began, folder = time.monotonic(), os.path.join(TOP, "crates", name)
        is_program = os.path.isfile(os.path.join(folder, "src", "main.rt"))
        words = ["run", "--jobs", "1", "--", "verify", "data/a.bpl"] if is_program else ["lib", "--jobs", "1"]
        words = [sys.executable, os.path.abspath(__file__), "--rt", *words]
        how = {"stdin": subprocess.DEVNULL, "stdout": subprocess.PIPE, "stderr": subprocess.STDOUT}
        with subprocess.Popen(words, cwd=folder, text=True, errors="replace", **how) as process:
            self.processes.add(process)
            if self.is_stopped:
                process.terminate()
            said = process.communicate()[0]
        self.processes.discard(process)
        return said, process.returncode, time.monotonic() - began

    def stop(self):
        self.is_stopped = True
        for it in list(self.processes):
            it.terminate()


def prove(crates, order, most, builds):
    """Builds the crates, and returns the first that fails, with what its check said. One that was killed is tried once more, with
    fewer side by side from then on."""
    above, left, done, running, killed = heights(crates, order), list(order), set(), {}, set()
    with ThreadPoolExecutor(most) as pool:
        while left or running:
            ready = [it for it in left if done.issuperset(crates[it])]
            for it in sorted(ready, key=lambda it: -above[it])[: most - len(running)]:
                if running and free_memory() < EACH:
                    break
                left.remove(it)
                running[pool.submit(builds.build, it)] = it
            for it in wait(running, return_when=FIRST_COMPLETED).done:
                name, (said, status, seconds) = running.pop(it), it.result()
                if builds.is_stopped:
                    return name, "it was stopped"
                if status in (-9, 137) and name not in killed:
                    killed.add(name)
                    left.append(name)
                    most = max(1, most - 1)
                    print(f"bg: the check of {name} was killed, perhaps for want of memory: once more", file=sys.stderr, flush=True)
                    continue
                if status:
                    builds.stop()
                    return name, f"{said[-3000:]}(status {status})"
                done.add(name)
                print(f"bg: {len(done)} of {len(order)} crates: {name} ({seconds:.0f} seconds)", file=sys.stderr, flush=True)
    return None


def main():
    if sys.argv[1:2] == ["--rt"]:
        return run_rt(sys.argv[2:])
    parser = argparse.ArgumentParser(description=__doc__.split("\n", maxsplit=1)[0])
    parser.add_argument("--at-once", type=int, help="checks side by side; otherwise one for each processor, of 2.5 GB each")
    parser.add_argument("crate")
    args = parser.parse_args()
    crates, order, builds = listed(), {}, Builds()
    with_below(crates, args.crate, order)
    most = args.at_once or max(1, min(len(os.sched_getaffinity(0)), free_memory() // EACH))
    # (the checks then end, each with its own clearing up, and the first of them is the one that fails)
    for it in (signal.SIGTERM, signal.SIGHUP, signal.SIGINT):
        signal.signal(it, lambda *_: builds.stop())
    print(f"bg: proving {len(order)} crates, {most} at a time", file=sys.stderr, flush=True)
    failed = prove(crates, list(order), most, builds)
    if failed:
        print(f"bg: {failed[0]} is not proved:\n{failed[1]}", file=sys.stderr)
    return 1 if failed else 0


if __name__ == "__main__":
    sys.exit(main())
