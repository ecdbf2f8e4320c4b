#!/usr/bin/env python3
"""Counts the lines of definitions that a reader has to believe for a statement.

usage: believed.py [--list] CRATE.MODULE.NAME.. [--without CRATE.MODULE.NAME..]

A definition is counted with its comment, once, and with it each definition that it names, in `specs/` of the crates; those of
the code's own types (`specs/declared`) and of the standard library aren't. What the names behind `--without` reach is left out.
Each name has a line with what it adds to those before it; `--list` has a line for each definition.
"""
import re
import sys
from pathlib import Path

CRATES = Path(__file__).resolve().parent.parent / "crates"
WORD = re.compile(r"[^\s(){}\[\],;]+")


class Module:
    """A file of definitions: its blocks by the names that they define, and what its names stand for."""

    def __init__(self, path):
        self.path, self.blocks, self.imports, self.aliases = path, {}, {}, {}
        lines, i = path.read_text().splitlines(), 0
        while i < len(lines):
            line = lines[i]
            if re.match(r"(pub )?use ", line):
                self.take_use(line)
                i += 1
            elif not line.strip() or line.startswith("-- ----"):
                i += 1
            else:
                i = self.take_block(lines, i)

    def take_use(self, line):
        found = re.match(r"(?:pub )?use Rattle\.([\w.\-]+?)(?:\.\{(.*)\}| as (\S+))?$", line)
        if not found:
            return
        where, names, alias = found.groups()
        if alias:
            self.aliases[alias] = where
        for name in (names or "").split(","):
            parts = name.split(" as ")
            if name.strip():
                self.imports[parts[-1].strip()] = (where, parts[0].strip())

    def take_block(self, lines, start):
        end = start
        while end < len(lines) and lines[end].startswith("--"):
            end += 1
        if end < len(lines) and re.match(r"(pub )?use ", lines[end]):
            return end
        grouped = end < len(lines) and lines[end].rstrip().endswith("mutual")
        end += 1
        while end < len(lines) and (lines[end].strip() or (grouped and end + 1 < len(lines) and lines[end + 1].startswith("  "))):
            if lines[end].startswith("--"):
                break
            end += 1
        text = [line for line in lines[start:end] if line.strip()]
        block = (self.path, start, text)
        for line in text:
            found = re.match(r"\s*(?:abbrev )?(?:pub )?(?:data |record )?([^\s(:{]+)", line)
            if found and not line.strip().startswith("--") and self.defines(line):
                self.blocks.setdefault(found.group(1), block)
                for name in re.match(r"\s*(.*?) :", line).group(1).split() if self.is_row(line) else []:
                    self.blocks.setdefault(name, block)
        return end

    @staticmethod
    def is_row(line):
        """Several constructors in one line."""
        return bool(re.match(r"\s+[A-Z]\w*( [A-Z]\w*)+ :", line))

    @staticmethod
    def defines(line):
        if re.match(r"\s*(abbrev )?pub (data |record )?\S+( .*)? :", line) or re.match(r"(abbrev |data |record )?\S+ :", line):
            return not re.match(r"  pub \S+ : ", line) or "→" in line
        return bool(re.match(r"\s+[A-Z][\w\-]*( [A-Z]\w*)* :", line))


class Reader:
    def __init__(self):
        self.modules, self.seen = {}, {}

    def module(self, where):
        if where not in self.modules:
            path = CRATES / (where.replace(".", "/") + ".antt")
            self.modules[where] = Module(path) if path.exists() and ".declared." not in where else None
        return self.modules[where]

    def find(self, where, name, depth=0):
        """The module in which a name is defined, and its block."""
        module = self.module(where)
        if module is None or depth > 8:
            return None
        if name in module.blocks:
            return where, module.blocks[name]
        if name in module.imports:
            return self.find(*module.imports[name], depth + 1)
        return None

    def reach(self, where, name):
        found = self.find(where, name)
        if found is None or (found[1][0], found[1][1]) in self.seen:
            return
        where, (path, start, text) = found
        module = self.module(where)
        self.seen[(path, start)] = (where, name, len(text))
        for line in text:
            if line.strip().startswith("--"):
                continue
            for word in WORD.findall(line.split(" -- ")[0]):
                head, _, rest = word.partition(".")
                if rest and head in module.aliases:
                    self.reach(module.aliases[head], rest.split(".")[0])
                else:
                    self.reach(where, head)


def names(words):
    for word in words:
        crate, module, name = word.split(".")
        yield f"{crate}.specs.{module}", name


def main():
    words = [w for w in sys.argv[1:] if w != "--list"]
    cut = words.index("--without") if "--without" in words else len(words)
    reader, whole = Reader(), 0
    for where, name in names(words[cut + 1:]):
        reader.reach(where, name)
    for where, name in names(words[:cut]):
        if reader.find(where, name) is None:
            sys.exit(f"no definition {where}.{name}")
        before = set(reader.seen)
        reader.reach(where, name)
        added = [v for k, v in reader.seen.items() if k not in before]
        lines = sum(v[2] for v in added)
        whole += lines
        if "--list" in sys.argv:
            for module, one, count in added:
                print(f"      {count:5} {module}.{one}")
        print(f"{lines:5} {where.replace('.specs', '')}.{name}")
    print(f"{whole:5} lines")


if __name__ == "__main__":
    main()
