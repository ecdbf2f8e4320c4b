#!/usr/bin/env python3
"""Times of certificates: what `certify` and `check` take on families of programs (bench/search.py and bench/inference.py have them), and how
long the certificates are beside the programs.

usage: certificates.py --bg PROGRAM [--families NAME=N,N.. ..] [--runs N] [--seconds N]

Writes a table of median seconds, peak memory and bytes. Each certificate has to be accepted. The program has to be the proved one: `./bg`'s
other one is slower by far.
"""
import argparse
import os
import tempfile

import inference
import search

MEASURED = {"sorter": (5,), "tickets": (5,), "ways": (32,), "machine": (80,), "guesses": (1000,), "settled": (1000,), "straight": (800,)}
FAMILIES = {**search.FAMILIES, "guesses": inference.text}


def main():
    parser = argparse.ArgumentParser(description=__doc__.split("\n", maxsplit=1)[0])
    parser.add_argument("--bg", required=True)
    parser.add_argument("--families", nargs="+", metavar="NAME=N,N..")
    parser.add_argument("--runs", type=int, default=3)
    parser.add_argument("--seconds", type=int, default=60)
    args = parser.parse_args()
    chosen = {name: tuple(map(int, sizes.split(","))) for name, _, sizes in (it.partition("=") for it in args.families or [])} or MEASURED
    heads = ["program", "certify", "check", "check / certify", "certificate / program, bytes"]
    print(f"| {' | '.join(heads)} |\n|{' --- |' * len(heads)}")
    with tempfile.TemporaryDirectory() as folder:
        for name, sizes in chosen.items():
            for size in sizes:
                source, cert = os.path.join(folder, f"{name}.bpl"), os.path.join(folder, "cert")
                with open(source, "w", encoding="ascii") as file:
                    file.write(FAMILIES[name](size))
                text, made, room = search.median([args.bg, "certify", "--workers", "1", source], args.runs, args.seconds)
                with open(cert, "w", encoding="ascii") as file:
                    file.write(text)
                answer, checked, less = search.median([args.bg, "check", "--cert", cert, source], args.runs, args.seconds)
                long, short = os.path.getsize(cert), os.path.getsize(source)
                ratio = f"{checked / made:.2f}" if answer == "accepted\n" else f"NOT ACCEPTED: {answer[:60]!r}"
                cells = [f"`{name} {size}`", inference.cell(made, room), inference.cell(checked, less), ratio, f"{long} / {short} = {long / short:.1f}"]
                print(f"| {' | '.join(cells)} |", flush=True)


if __name__ == "__main__":
    main()
