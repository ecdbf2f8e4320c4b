#!/usr/bin/env python3
"""What the gate costs, crate by crate.

usage: gate_cost.py run [-o FILE] -- rt ci       runs the command, watches the checks that it starts, and writes their times to FILE (gate-cost.json)
       gate_cost.py show [FILE] [--root FOLDER]  prints the table of FILE: lines, seconds of proof, tests and edits, and the longest chain
       gate_cost.py lines [--root FOLDER]        the same table without times: lines, tests, edits, libraries that are never named, the longest chain
       gate_cost.py modules FOLDER [N]           where one check went: FOLDER is a crate's out/incremental after a check from nothing with one job
                                                 (rm -r out; rt check --jobs 1); the N dearest functions and files, and the kinds of module
       gate_cost.py goals CRATE FN [--root FOLDER]
                                                 which goals of a function (as take::take_given) are dear: FN is checked once as it is, and once with a
                                                 hole in the place of each goal without an answer. For a clone: it writes Answers.antt, and puts it back

The root is the top of the repository, that of this script where none is given. Times are processor seconds (user and system) of the processes
that check a crate, read from /proc twice a second, so each is short by a quarter of a second on average. The first edit of a crate with two or more
checks the crate from nothing, each further one what it alters, and a last check the crate as it is. Needs Linux, and Python 3.8 alone.
"""
import json
import os
import re
import subprocess
import sys
import tempfile
import threading
import time

TICK = os.sysconf("SC_CLK_TCK")
KINDS = ("proof", "tests", "edits", "other")
TOP = os.path.dirname(os.path.dirname(os.path.abspath(__file__)))


# Watching


def kind_of(words):
    """Returns the crate and the kind of work that a process of the prover is at, or None."""
    if len(words) < 2 or os.path.basename(words[0]) != "rattle" or "--crate-name" not in words:
        return None
    name, verb = words[words.index("--crate-name") + 1], words[1]
    if "--test" in words:
        return name, "tests"
    if verb == "fmt" or "--crate-checked" in words:
        return name, "other"
    if verb == "build" or "-o" in words:
        return name, "proof"
    return name, "edits" if verb == "check" else "other"


def processes():
    """Returns the parent, the start and the processor seconds of each process."""
    found = {}
    for pid in os.listdir("/proc"):
        if not pid.isdigit():
            continue
        try:
            with open(f"/proc/{pid}/stat", "rb") as it:
                fields = it.read().rpartition(b")")[2].split()
        except OSError:
            continue
        found[int(pid)] = int(fields[1]), int(fields[19]), (int(fields[11]) + int(fields[12])) / TICK
    return found


def words_of(pid):
    with open(f"/proc/{pid}/cmdline", "rb") as it:
        return it.read().decode(errors="replace").split("\0")[:-1]


def largest_memory(pid):
    """Returns the most memory that a process has taken so far, in MB."""
    with open(f"/proc/{pid}/status", encoding="ascii", errors="replace") as it:
        peak = re.search(r"VmHWM:\s+(\d+)", it.read())
    return int(peak[1]) // 1024 if peak else 0


class Watch(threading.Thread):
    """Notes what the processes below one are at, until it is told that this one is over."""

    def __init__(self, root):
        super().__init__(daemon=True)
        self.root, self.seen, self.is_over = root, {}, threading.Event()

    def below(self, found):
        children = {}
        for pid, (parent, _, _) in found.items():
            children.setdefault(parent, []).append(pid)
        todo, all_of = [self.root], []
        while todo:
            pid = todo.pop()
            todo += children.get(pid, [])
            all_of += [pid] if pid in found else []
        return all_of

    def look(self):
        found = processes()
        for pid in self.below(found):
            _, start, seconds = found[pid]
            known = self.seen.get((pid, start))
            try:
                if known is None or known["kind"] is None:
                    # (a process that was just made has the words of its parent)
                    known = {"kind": kind_of(words_of(pid)), "begun": known["begun"] if known else time.time(), "mb": 0}
                    self.seen[pid, start] = known
                known["seconds"], known["ended"] = seconds, time.time()
                known["mb"] = max(known["mb"], largest_memory(pid))
            except OSError:
                pass

    def run(self):
        while not self.is_over.wait(0.5):
            self.look()


def run(words, file):
    begun = time.time()
    child = subprocess.Popen(words)
    watch = Watch(child.pid)
    watch.start()
    status = child.wait()
    watch.is_over.set()
    watch.join()
    work = []
    for it in sorted(watch.seen.values(), key=lambda it: it["begun"]):
        if it["kind"] and "seconds" in it:
            name, kind = it["kind"]
            times = {"begun": round(it["begun"] - begun, 1), "seconds": round(it["seconds"], 2), "wall": round(it["ended"] - it["begun"], 1)}
            work.append({"crate": name, "kind": kind, **times, "mb": it["mb"]})
    used = os.times()
    whole = {"command": words, "status": status, "wall": round(time.time() - begun, 1), "processor": round(used.children_user + used.children_system, 1), "work": work}
    with open(file, "w", encoding="utf-8") as it:
        json.dump(whole, it, indent=0)
    print(f"gate_cost: {whole['wall']} seconds, {whole['processor']} processor seconds, in {file}", file=sys.stderr)
    return status


# The repository


def listed(root):
    """Returns the crates of crates.txt with the libraries that each stands on."""
    crates = {}
    with open(f"{root}/crates.txt", encoding="utf-8") as it:
        for line in it:
            head, colon, tail = line.partition("#")[0].partition(":")
            if colon:
                crates[head.split()[0]] = tail.split()
    return crates


def texts(root, name, part, end):
    found = []
    for at, _, names in os.walk(f"{root}/crates/{name}/{part}"):
        for it in names:
            if it.endswith(end):
                with open(f"{at}/{it}", encoding="utf-8", errors="replace") as file:
                    found.append(file.read())
    return found


def facts_of(root, name, uses):
    """Returns the lines, tests and edits of a crate, and the libraries that it lists and never names."""
    code, specs, proofs = texts(root, name, "src", ".rt"), texts(root, name, "specs", ".antt"), texts(root, name, "proofs", ".antt")
    lines = [sum(it.count("\n") for it in them) for them in (code, specs, proofs)]
    every = "\n".join([*code, *specs, *proofs])
    named = set(re.findall(r"\b(\w+)\s*(?:::|\.)", every)) | set(re.findall(r"\buse\s+(\w+)", every))
    return {
        "code": lines[0], "specs": lines[1], "proofs": lines[2], "lines": sum(lines),
        "tests": sum(len(re.findall(r"#\[test\]", it)) for it in code),
        "edits": len(texts(root, name, "must-fail", ".edit")),
        "idle": [it for it in uses if it not in named],
    }


def chain(crates, cost):
    """Returns the chain of crates whose costs add up to most, lowest first."""
    best = {}

    def of(name):
        if name not in best:
            below = max((of(it) for it in crates[name] if it in crates), default=(0, []))
            best[name] = below[0] + cost.get(name, 0), [*below[1], name]
        return best[name]

    return max((of(it) for it in crates), default=(0, []))


# The table


def edits_told(tried, edits):
    """Returns the seconds of a crate's first edit and those of a further one on average, where each was tried once and the crate then as it is."""
    if len(tried) != edits + (edits > 1):
        return ["", ""]
    further = tried[1:-1]
    return [round(tried[0], 1) if tried else "", round(sum(further) / len(further), 1) if further else ""]


def row_of(name, fact, work):
    """Returns a crate's line of the table with times, and its seconds by kind."""
    spent = {kind: sum(it["seconds"] for it in work if it["kind"] == kind) for kind in KINDS}
    tried = [it["seconds"] for it in work if it["kind"] == "edits"]
    peak = max((it["mb"] for it in work), default=0)
    each = round(1000 * spent["proof"] / max(fact["lines"], 1))
    times = [round(spent["proof"]), round(spent["tests"]), round(spent["edits"]), *edits_told(tried, fact["edits"]), peak, each]
    return [name, fact["code"], fact["specs"], fact["proofs"], fact["tests"], fact["edits"], *times, " ".join(fact["idle"])], spent


def print_table(head, rows):
    widths = [max(len(str(row[at])) for row in [head, *rows]) for at in range(len(head))]
    for row in [head, *rows]:
        cells = (str(it).ljust(width) if at in (0, len(head) - 1) else str(it).rjust(width) for at, (it, width) in enumerate(zip(row, widths)))
        print("  ".join(cells).rstrip())


def show_lines(root):
    crates = listed(root)
    facts = {name: facts_of(root, name, uses) for name, uses in crates.items()}
    rows = []
    for name, it in sorted(facts.items(), key=lambda it: -it[1]["lines"]):
        rows.append([name, it["code"], it["specs"], it["proofs"], it["tests"], it["edits"], it["lines"], " ".join(it["idle"])])
    print_table(["crate", "code", "specs", "proofs", "tests", "edits", "lines", "never named"], rows)
    print_sums(crates, facts)


def print_sums(crates, facts):
    whole = lambda key: sum(it[key] for it in facts.values())
    print(f"\n{len(crates)} crates, {whole('code')} lines of code, {whole('specs')} of specs, {whole('proofs')} of proofs, {whole('tests')} tests, {whole('edits')} edits")
    much, names = chain(crates, {name: it["lines"] for name, it in facts.items()})
    print(f"longest chain by lines, {len(names)} crates, {much} lines: {' '.join(names)}")
    much, names = chain(crates, dict.fromkeys(crates, 1))
    print(f"longest chain by crates, {much}: {' '.join(names)}")


def show(root, file):
    with open(file, encoding="utf-8") as it:
        given = json.load(it)
    crates = listed(root)
    facts = {name: facts_of(root, name, uses) for name, uses in crates.items()}
    told = {name: row_of(name, facts[name], [it for it in given["work"] if it["crate"] == name]) for name in crates}
    spent = {name: of for name, (_, of) in told.items()}
    dearest = sorted((it for it in crates if any(spent[it].values())), key=lambda it: -sum(spent[it].values()))
    head = ["crate", "code", "specs", "proofs", "tests", "edits", "proof s", "tests s", "edits s", "first", "each", "MB", "s/1000", "never named"]
    print_table(head, [told[it][0] for it in dearest])
    print_sums(crates, facts)
    by = ", ".join(f"{kind} {sum(it[kind] for it in spent.values()) / 60:.1f}" for kind in KINDS)
    print(f"processor minutes: {by}; whole {given['processor'] / 60:.1f}, in {given['wall'] / 60:.1f} minutes; status {given['status']}")
    much, names = chain(crates, {name: it["proof"] for name, it in spent.items()})
    print(f"longest chain, {len(names)} crates, {much / 60:.1f} minutes of proofs: {' '.join(names)}")


# One crate, module by module


def place_of(file):
    """Returns the function or file that a kept module belongs to, and the kind of module."""
    inside = re.sub(r"(\.decls)?\.oantt$", "", file)
    parts = re.sub(r"^Rattle-[^.]*\.?", "", inside).split(".")
    # what is generated of a function ends in a word with a capital; a file of lemmas is one such word alone
    at = next((i for i, it in enumerate(parts) if it[:1].isupper()), len(parts))
    what, kind = ".".join(parts[:at]), parts[at] if at < len(parts) else "contract"
    if parts[0] == "TheLinks" or kind == "TheLinks":
        return parts[-1], "TheLinks"
    return (what, kind) if what else (kind or file, "lemmas and definitions")


def modules(folder, most):
    """Prints where the time of a check went: it writes each module's file as it ends with the module, so the gap before a file is that module's time."""
    files = []
    for at, _, names in os.walk(folder):
        files += [(os.stat(f"{at}/{name}").st_mtime, name) for name in names if name.endswith(".oantt")]
    if len(files) < 2:
        print(f"gate_cost: {folder} holds no modules of a check", file=sys.stderr)
        return 1
    files.sort()
    of, kinds, single = {}, {}, {}
    for (was, _), (now, name) in zip(files, files[1:]):
        what, kind = place_of(name)
        for them, key in ((of, what), (kinds, kind), (single, name)):
            them[key] = them.get(key, 0) + now - was
    print(f"{len(files)} modules, {files[-1][0] - files[0][0]:.1f} seconds from the first file to the last")
    for title, told in (("functions and files", of), ("kinds", kinds), ("single modules", single)):
        print(f"-- {title}")
        for name, seconds in sorted(told.items(), key=lambda it: -it[1])[:most]:
            print(f"{seconds:8.2f}  {name}")
    return 0


# One function, goal by goal


class Tried:
    """A function that is checked with other answers in the place of its own."""

    def __init__(self, root, crate, function):
        self.folder, self.module, self.function = f"{root}/crates/{crate}", function.replace("::", "."), function
        self.answers = f"{self.folder}/proofs/{function.replace('::', '/')}/Answers.antt"
        self.was = None
        if os.path.exists(self.answers):
            with open(self.answers, encoding="utf-8") as it:
                self.was = it.read()
        self.base = self.was if self.was is not None else f"use Rattle.{crate}.proofs.{self.module}.Goals as goal\n"

    def rt(self, *words):
        """Returns the processor seconds of a check of the crate."""
        begun = os.times()
        subprocess.run(["rt", "check", "--jobs", "1", *words], cwd=self.folder, stdin=subprocess.DEVNULL, stdout=subprocess.DEVNULL, stderr=subprocess.DEVNULL)
        ended = os.times()
        return ended.children_user + ended.children_system - begun.children_user - begun.children_system

    def goals(self):
        """Returns the names of the goals without an answer."""
        with tempfile.TemporaryDirectory() as room:
            self.rt("--start", self.function, "--generated", room)
            offered = ""
            for at, _, names in os.walk(room):
                if "AnswersOffered.antt" in names and at.endswith(f"proofs/{self.function.replace('::', '/')}"):
                    with open(f"{at}/AnswersOffered.antt", encoding="utf-8") as it:
                        offered += it.read()
        found = re.findall(r"(?m)^pub (\S+) : goal", offered)
        return [it for it in found if not re.search(rf"(?m)^(pub )?{re.escape(it)} :", self.base)]

    def anew(self, text, *words):
        """Returns the seconds of a check of the function with these answers, of which nothing is kept."""
        os.makedirs(os.path.dirname(self.answers), exist_ok=True)
        with open(self.answers, "w", encoding="utf-8") as it:
            it.write(text)
        for at, _, names in os.walk(f"{self.folder}/out/incremental"):
            for name in names:
                if f".{self.module}." in name:
                    os.remove(f"{at}/{name}")
        return self.rt("--only", self.function, *words)

    def put_back(self):
        if self.was is not None:
            with open(self.answers, "w", encoding="utf-8") as it:
                it.write(self.was)
        elif os.path.exists(self.answers):
            os.remove(self.answers)
            if not os.listdir(os.path.dirname(self.answers)):
                os.rmdir(os.path.dirname(self.answers))


def goals(root, crate, function):
    """Prints how much shorter the check of a function is with a hole in the place of one of its goals."""
    tried = Tried(root, crate, function)
    names, told = tried.goals(), []
    try:
        tried.rt("--only", function)
        # (a comment with the time makes the text a new one, of which no check has kept anything)
        whole = tried.anew(f"{tried.base}\n-- {time.time()}\n")
        print(f"{whole:8.2f}  the check of {function} as it is; {len(names)} goals have no answer", flush=True)
        for name in names:
            told.append((tried.anew(f"{tried.base}\npub {name} : goal.{name}\n{name} c = ?\n", "--allow-holes"), name))
            print(f"{told[-1][0]:8.2f}  with a hole at {name}", flush=True)
    finally:
        tried.put_back()
    # (a hole costs some seconds itself, for its goal is printed, so the checks with one are held to their median)
    middle = sorted(told)[len(told) // 2][0] if told else 0
    print("-- dearest: what the goal takes, by how much shorter the check is than the median")
    for seconds, name in sorted(told)[:5]:
        print(f"{middle - seconds:8.2f}  {name}")
    return 0


def main(words):
    root = TOP
    if "--root" in words[: words.index("--") if "--" in words else len(words)]:
        at = words.index("--root")
        root = words[at + 1]
        del words[at : at + 2]
    if words[:1] == ["run"] and "--" in words:
        at = words.index("--")
        file = words[words.index("-o") + 1] if "-o" in words[:at] else "gate-cost.json"
        return run(words[at + 1 :], file)
    if words[:1] == ["show"]:
        return show(root, words[1] if len(words) > 1 else "gate-cost.json")
    if words[:1] == ["lines"]:
        return show_lines(root)
    if words[:1] == ["modules"] and len(words) > 1:
        return modules(words[1], int(words[2]) if len(words) > 2 else 12)
    if words[:1] == ["goals"] and len(words) == 3:
        return goals(root, words[1], words[2])
    print(__doc__, end="", file=sys.stderr)
    return 2


if __name__ == "__main__":
    try:
        sys.exit(main(sys.argv[1:]))
    except BrokenPipeError:
        os.dup2(os.open(os.devnull, os.O_WRONLY), 1)
